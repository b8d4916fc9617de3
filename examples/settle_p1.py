"""Settles the graph P1: one majority of three inverted inputs, its output inverted.

In the repository's root, after `rt lib` in crates/reducer: python3 examples/settle_p1.py
"""

import sys
from pathlib import Path

sys.path.insert(0, str(Path(__file__).resolve().parent.parent / "python"))

import panjerov

graph = panjerov.Graph(3, [3, 5, 7], [9])
before = graph.evaluate([0xF0, 0xCC, 0xAA])
settled = graph.settle()
print(f"before {settled.before} after {settled.after} rounds {settled.rounds}")
print(f"own {settled.own} others {settled.others}")
print(f"node {graph.nodes} out {graph.outputs}")
assert graph.evaluate([0xF0, 0xCC, 0xAA]) == before
assert panjerov.load(graph.write()) == graph
