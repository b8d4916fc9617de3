"""What the module does with good input and with bad: it answers or raises, and changes nothing where it raises. Beside it, what the
header gives a caller in C.

In the repository's root: python3 python/test_panjerov.py
"""

import copy
import itertools
import json
import os
import pickle
import random
import shutil
import subprocess
import tempfile
import threading
import time
import unittest
import warnings
from pathlib import Path

import panjerov
from panjerov import MARK, Difference, Graph, Literals, Majority, Refused

ROOT = Path(__file__).resolve().parent.parent
EXAMPLES = ROOT / "examples"
MAJORITY = b"aag 7 3 0 1 4\n2\n4\n6\n15\n8 5 7\n10 2 9\n12 4 6\n14 11 13\n"
XOR = b"aag 5 2 0 1 3\n2\n4\n11\n6 2 5\n8 3 4\n10 7 9\n"


def p1() -> Graph:
    return Graph(3, [3, 5, 7], [9])


def values(graph: Graph, assignments: list) -> list:
    """The outputs as one number, the first as its lowest bit, for each of these numbers, whose lowest bit is input 1."""
    told = []
    for at in range(0, len(assignments), 64):
        part = assignments[at : at + 64]
        words = [sum((number >> k & 1) << j for j, number in enumerate(part)) for k in range(graph.inputs)]
        results = graph.evaluate(words)
        told += [sum((word >> j & 1) << o for o, word in enumerate(results)) for j in range(len(part))]
    return told


def alu_slice(assignment: int) -> int:
    """The result of an ALU's slice, and the carry above it."""
    x, y, carry, negate = (assignment >> at & 1 for at in range(4))
    z = y ^ negate
    return (x & z, x | z, x ^ z, x ^ z ^ carry)[assignment >> 4] + 2 * (x + z + carry > 1)


def random_graph(generator: random.Random) -> Graph:
    nodes = []
    inputs = generator.randrange(6)
    for index in range(inputs + 1, inputs + 1 + generator.randrange(9)):
        nodes += [generator.randrange(2 * index) for _ in range(2)]
        nodes.append(MARK if generator.random() < 0.4 else generator.randrange(2 * index))
    end = 2 * (inputs + 1 + len(nodes) // 3)
    # No node is locked, or some, or all.
    chance = generator.choice([0, 0, 0.2, 0.5, 1])
    locked = [index for index in range(inputs + 1, end // 2) if generator.random() < chance]
    return Graph(inputs, nodes, [generator.randrange(end) for _ in range(generator.randrange(5))], locked)


def copied(graph: Graph) -> Graph:
    return Graph(graph.inputs, graph.nodes, graph.outputs, graph.locked)


MAJORITY_ROWS = [(0, 0, 0, 0), (1, 1, 1, 1)]
XOR_ROWS = [(0, 0, 0, 0), (1, 1, 0, 0), (1, 0, 0, 1), (0, 1, 0, 1)]


def made(graph: Graph, moves: bytes) -> Graph:
    """The graph after a move at each node: its own words are turned, and every word that names it."""
    rows = [(XOR_ROWS if third == MARK else MAJORITY_ROWS)[move] for third, move in zip(graph.nodes[2::3], moves)]
    readers = [0] * (graph.inputs + 1) + [row[3] for row in rows]

    def turned(word: int) -> int:
        return word if word == MARK else word ^ readers[word // 2]

    nodes = [turned(word) ^ rows[at // 3][at % 3] for at, word in enumerate(graph.nodes)]
    return Graph(graph.inputs, nodes, [turned(word) for word in graph.outputs], graph.locked)


def one_round(graph: Graph) -> list:
    """What the calls of a round save, each made by itself."""
    nodes = range(graph.inputs + 1, graph.inputs + 1 + len(graph.nodes) // 3)
    saved = []
    for node in nodes:
        try:
            saved.append(graph.tree_call(node))
        except Refused:
            pass  # no root
    saved += [graph.node_call(node) for node in nodes]
    for node in nodes:
        words = 2 if graph.nodes[3 * (node - graph.inputs - 1) + 2] == MARK else 3
        saved += [graph.pair_call(node, word) for word in range(1, words + 1)]
    return saved


class Good(unittest.TestCase):
    def test_file_and_back(self) -> None:
        file = p1().write()
        self.assertEqual(len(file), 40)
        self.assertEqual(panjerov.load(file), p1())
        self.assertEqual(panjerov.field(file), bytes([0, 0, 0, 3, 0, 0, 0, 1, 0, 0, 0, 1]))
        self.assertEqual(panjerov.field(file[37:]), b"")

    def test_values(self) -> None:
        self.assertEqual(Graph(3, [2, 4, 6], [8]).evaluate([0xF0, 0xCC, 0xAA]), [0xE8])
        self.assertEqual(Graph(0, [], []).evaluate([]), [])

    def test_calls(self) -> None:
        graph = p1()
        self.assertEqual(graph.complemented_edges(), 4)
        self.assertEqual(graph.node_call(4), (3, 1))
        self.assertEqual(graph, Graph(3, [2, 4, 6], [8]))
        graph = Graph(5, [3, 5, 6, 12, 9, 10], [15])
        self.assertEqual(graph.pair_call(7, 1), (1, 1))
        self.assertEqual(graph, Graph(5, [2, 4, 7, 12, 8, 11], [14]))
        graph = Graph(5, [3, 5, 6, 13, 8, 11], [14])
        self.assertEqual(graph.tree_call(7), (2, 0))
        self.assertEqual(graph, Graph(5, [2, 4, 7, 12, 8, 11], [14]))
        self.assertEqual(Graph(2, [3, 4, MARK], [7]).node_call(3), (1, 1))
        self.assertEqual(Graph(3, [3, 5, 6], [9, 8]).node_call(4), (1, 0))

    def test_parts_of_savings(self) -> None:
        """Either may be below 0; a word of a pair's node that names the other is own; a word that names no node saves nothing."""
        lost = Graph(3, [2, 4, 7], [9, 9, 9]).node_call(4)
        self.assertEqual((lost.own, lost.others, lost.total), (-1, 3, 2))
        self.assertEqual(Graph(3, [3, 5, 7], [8]).tree_call(4), (3, -1))
        self.assertEqual(Graph(5, [3, 5, 6, 13, 8, 11], [14]).pair_call(7, 1), (2, 0))
        twice = [3, 5, 0, 7, 7, 2]
        self.assertEqual(Graph(2, twice, [8, 7]).pair_call(4, 1), (3, 1))
        self.assertEqual(Graph(2, twice, [8, 7]).node_call(3), (1, 3))
        self.assertEqual(p1().pair_call(4, 1), (0, 0))

    def test_previews(self) -> None:
        graph = Graph(5, [3, 5, 6, 13, 8, 11], [14])
        told = graph.preview(7)
        self.assertEqual((told.saving, list(told.moves)), ((2, 0), [1, 0]))
        self.assertEqual(graph, Graph(5, [3, 5, 6, 13, 8, 11], [14]))
        self.assertEqual(Graph(2, [2, 2, 5], [6]).preview(3), ((0, 0), b"\0"))
        xors = Graph(2, [3, 4, MARK, 7, 5, MARK, 8, 5, MARK, 10, 5, MARK], [13])
        self.assertEqual(xors.preview(6), ((5, 1), bytes([2, 3, 1, 3])))
        two_trees = Graph(3, [3, 5, 7, 3, 5, MARK, 10, 8, 4], [9, 12])
        self.assertEqual(two_trees.preview(4), ((3, 0), bytes([1, 0, 0])))
        self.assertEqual(two_trees.preview(6), ((2, 0), bytes([0, 1, 0])))

    def test_previews_are_what_tree_calls_do(self) -> None:
        generator = random.Random(5)
        accepted = 0
        for _ in range(1000):
            graph = random_graph(generator)
            root = generator.randrange(graph.inputs + 1, graph.inputs + 2 + len(graph.nodes) // 3)
            before, after = kept(graph), copied(graph)
            try:
                told = graph.preview(root)
            except Refused as refused:
                with self.assertRaises(Refused) as caught:
                    after.tree_call(root)
                self.assertEqual((refused.number, caught.exception.number), (7, 7))
                continue
            self.assertEqual(kept(graph), before)
            self.assertEqual(after.tree_call(root), told.saving)
            self.assertEqual(made(graph, told.moves), after)
            self.assertTrue(all(told.moves[index - graph.inputs - 1] == 0 for index in graph.locked))
            accepted += 1
        self.assertGreater(accepted, 500)

    def test_locks(self) -> None:
        graph = Graph(5, [3, 5, 6, 13, 8, 11], [14])
        self.assertEqual((graph.locked, graph.is_locked(7)), ([], False))
        graph.lock(7)
        graph.lock(6)
        graph.lock(7)
        self.assertEqual((graph.locked, graph.is_locked(7)), ([6, 7], True))
        graph.unlock(6)
        graph.unlock(6)
        self.assertEqual(graph, Graph(5, [3, 5, 6, 13, 8, 11], [14], [7]))
        self.assertNotEqual(graph, Graph(5, [3, 5, 6, 13, 8, 11], [14]))
        self.assertEqual(eval(repr(graph)), graph)
        self.assertEqual(Graph(5, graph.nodes, [14], (7, 6, 7)).locked, [6, 7])
        # What it gives is a list of its own.
        graph.locked.append(6)
        self.assertEqual(graph.locked, [7])
        # A node more is free.
        graph.nodes += [2, 4, 6]
        self.assertEqual((graph.complemented_edges(), graph.locked), (4, [7]))

    def test_calls_with_locks(self) -> None:
        """P2 with node 6 locked stays; with node 7 locked its first word turns; P3 with either saves nothing."""
        p2, p3 = [3, 5, 6, 13, 8, 11], [3, 5, 6, 12, 9, 10]
        for locked in [[6], [6, 7]]:
            graph = Graph(5, p2, [14], locked)
            self.assertEqual([graph.tree_call(7), graph.pair_call(7, 1), graph.node_call(6)], [(0, 0)] * 3)
            self.assertEqual(graph, Graph(5, p2, [14], locked))
        graph = Graph(5, p2, [14], [7])
        self.assertEqual(graph.preview(7), ((2, 0), bytes([1, 0])))
        self.assertEqual((graph.tree_call(7), graph), ((2, 0), Graph(5, [2, 4, 7, 12, 8, 11], [14], [7])))
        for locked in [[6], [7], [6, 7]]:
            graph = Graph(5, p3, [15], locked)
            self.assertEqual([graph.pair_call(7, 1), graph.tree_call(7)], [(0, 0)] * 2)
            self.assertEqual(graph.settle(), (1, 4, 4, 0, 0))
            self.assertEqual(graph, Graph(5, p3, [15], locked))
        twice = Graph(2, [3, 5, 0, 7, 7, 3], [9], [3])
        self.assertEqual([twice.trial(4, 1, 0, move) for move in range(2)], [0, 4])
        graph = Graph(3, [3, 4, 6, 3, 5, 8], [9, 9, 11], [4])
        self.assertEqual(graph.settle(), (2, 6, 4, 1, 1))
        self.assertEqual(graph, Graph(3, [3, 4, 6, 2, 4, 9], [9, 9, 10], [4]))

    def test_files_with_locks(self) -> None:
        graph = Graph(5, [3, 5, 6, 13, 8, 11], [14])
        free = graph.write()
        graph.lock(7)
        file = graph.write()
        self.assertEqual(file, free[:52] + bytes([6, 0, 4, 0, 0, 0, 7]) + free[52:])
        self.assertEqual(panjerov.load(file), graph)
        self.assertEqual(panjerov.field(file[52:]), bytes([0, 0, 0, 7]))
        # Each call of a replay gets the locks of the file.
        after, told = panjerov.replay(file, [(panjerov.NODE, 7, 0), (panjerov.TREE, 7, 0)])
        self.assertEqual((after.locked, told), ([7], [(0, (0, 0)), (0, (2, 0))]))
        graph.lock(6)
        self.assertEqual(panjerov.replay(graph.write(), [(panjerov.SETTLE, 0, 0)]), (graph, [(0, (0, 0))]))
        # A text has no locks.
        self.assertEqual(panjerov.import_aiger(graph.export_aiger()).locked, [])
        generator = random.Random(8)
        for _ in range(500):
            graph = random_graph(generator)
            self.assertEqual(panjerov.load(graph.write()), graph)

    def test_all_locked(self) -> None:
        generator = random.Random(9)
        for _ in range(300):
            graph = random_graph(generator)
            for index in range(graph.inputs + 1, graph.inputs + 1 + len(graph.nodes) // 3):
                graph.lock(index)
            before = copied(graph)
            self.assertTrue(all(saving == (0, 0) for saving in one_round(graph)))
            edges = graph.complemented_edges()
            self.assertEqual(graph.settle(), (1, edges, edges, 0, 0))
            self.assertEqual(graph, before)

    def test_many(self) -> None:
        graph = Graph(3, [2, 4, 6], [8])
        self.assertEqual((graph.many([4], [1]), graph), (-4, Graph(3, [3, 5, 7], [9])))
        self.assertEqual((graph.many((4,), b"\1"), graph), (4, Graph(3, [2, 4, 6], [8])))
        self.assertEqual((graph.many([], []), graph.many([4], [0]), graph), (0, 0, Graph(3, [2, 4, 6], [8])))
        p2 = [3, 5, 6, 13, 8, 11]
        graph = Graph(5, p2, [14])
        self.assertEqual((graph.many([6, 7], [1, 0]), graph), (2, Graph(5, [2, 4, 7, 12, 8, 11], [14])))
        # The edge between the two is turned twice, and moves past the last index are not read.
        graph = Graph(5, p2, [14])
        self.assertEqual((graph.many(iter([6, 7]), bytes([1, 1, 9])), graph), (0, Graph(5, [2, 4, 7, 13, 9, 10], [15])))
        # A locked node with move 0: its first word turns with the node that it names.
        graph = Graph(5, p2, [14], [7])
        self.assertEqual((graph.many([6, 7], [1, 0]), graph), (2, Graph(5, [2, 4, 7, 12, 8, 11], [14], [7])))

    def test_many_by_words(self) -> None:
        """Held to words turned one by one, to each move by itself in another order, and to the tree call of a preview."""
        generator = random.Random(7)
        lost = 0
        for _ in range(1000):
            graph = random_graph(generator)
            first, count = graph.inputs + 1, len(graph.nodes) // 3
            kinds = [4 if third == MARK else 2 for third in graph.nodes[2::3]]
            every = [0 if first + at in graph.locked else generator.randrange(kinds[at]) for at in range(count)]
            chosen = [at for at in range(count) if generator.random() < 0.6]
            moves = [move if at in chosen else 0 for at, move in enumerate(every)]
            whole, single = copied(graph), copied(graph)
            saved = whole.many([first + at for at in chosen], [every[at] for at in chosen])
            self.assertEqual(whole, made(graph, bytes(moves)))
            self.assertEqual(saved, graph.complemented_edges() - whole.complemented_edges())
            generator.shuffle(chosen)
            self.assertEqual(sum(single.many([first + at], [every[at]]) for at in chosen), saved)
            self.assertEqual(single, whole)
            lost += saved < 0
            for root in range(first, first + count):
                try:
                    told, called = graph.preview(root), copied(graph)
                except Refused:
                    continue  # no root
                called.tree_call(root)
                applied = copied(graph)
                self.assertEqual(applied.many(range(first, first + count), told.moves), told.saving.total)
                self.assertEqual(applied, called)
        self.assertGreater(lost, 100)

    def test_trials(self) -> None:
        graph = Graph(5, [3, 5, 6, 12, 9, 10], [15])
        moves = [(0, 0), (0, 1), (1, 0), (1, 1)]
        self.assertEqual([graph.trial(7, 1, *both) for both in moves], [0, 0, 0, 2])
        self.assertEqual(graph, Graph(5, [3, 5, 6, 12, 9, 10], [15]))
        graph = Graph(2, [2, 4, 0, 6, 2, MARK], [8])
        self.assertEqual([graph.trial(4, 1, 1, move) for move in range(4)], [-4, -4, -4, -6])
        self.assertEqual(graph.trial(4, 2, 2**32 - 1, 3), 0)

    def test_settling(self) -> None:
        graph = p1()
        self.assertEqual(graph.settle(), (2, 4, 0, 3, 1))
        self.assertEqual(graph, Graph(3, [2, 4, 6], [8]))
        self.assertEqual(Graph(1, [], [3]).settle(), (1, 1, 1, 0, 0))
        self.assertEqual(Graph(2, [3, 4, MARK], [7]).settle(), (2, 2, 0, 1, 1))
        # A tree call saves 1 and 1, and then a node call -1 and 3.
        graph = Graph(3, [3, 4, 6, 3, 5, 8], [9, 9, 11])
        self.assertEqual(graph.settle(), (2, 6, 2, 0, 4))
        self.assertEqual(graph, Graph(3, [2, 5, 7, 2, 4, 8], [8, 8, 10]))
        # Two rounds that lower the count.
        graph = Graph(2, [4, 5, MARK, 5, 7, 2, 9, 5, 9], [11])
        self.assertEqual(graph.settle(), (3, 7, 1, 3, 3))

    def test_settling_call_by_call(self) -> None:
        generator = random.Random(6)
        lost = 0
        for _ in range(600):
            graph = random_graph(generator)
            settled, single = copied(graph), copied(graph)
            told, sums = settled.settle(), [0, 0]
            for _ in range(told.rounds):
                for saving in one_round(single):
                    sums = [sums[0] + saving.own, sums[1] + saving.others]
                    lost += min(saving) < 0
            self.assertEqual((single, sums), (settled, [told.own, told.others]))
            self.assertEqual(sum(sums), told.before - told.after)
        self.assertGreater(lost, 50)

    def test_replay(self) -> None:
        node, pair, tree, settle = panjerov.NODE, panjerov.PAIR, panjerov.TREE, panjerov.SETTLE
        calls = [(node, 6, 0), (node, 5, 9), (pair, 7, 1), (tree, 7, 0), (settle, 0, 0)]
        graph, told = panjerov.replay(Graph(5, [3, 5, 6, 12, 9, 10], [15]).write(), calls)
        self.assertEqual(graph, Graph(5, [2, 4, 7, 12, 8, 11], [14]))
        self.assertEqual(told, [(0, (0, 0)), (7, (0, 0)), (0, (1, 1)), (0, (0, 0)), (0, (0, 0))])
        lost = Graph(3, [2, 4, 7], [9, 9, 9]).write()
        for first in [(node, 4, 0), (settle, 0, 0)]:
            self.assertEqual(panjerov.replay(lost, [first, (tree, 4, 0)])[1], [(0, (-1, 3)), (0, (0, 0))])
        self.assertEqual(panjerov.replay(p1().write(), []), (p1(), []))

    def test_replay_of_many(self) -> None:
        """P1 settled, its move taken back, and settled again; parts of a list with their moves."""
        many, settle = panjerov.MANY, (panjerov.SETTLE, 0, 0)
        calls = [settle, (many, 1, 1), settle, (many, 0, 1), (many, 0, 2), (many, 1, 2), (many, 3, 0), (many, 2, 1)]
        graph, told = panjerov.replay(p1().write(), calls, [5, 4, 4], [0, 1])
        self.assertEqual(graph, Graph(3, [2, 4, 6], [8]))
        none, short, settled = (7, (0, 0)), (4, (0, 0)), (0, (3, 1))
        self.assertEqual(told, [settled, (0, (-4, 0)), settled, none, none, short, (0, (0, 0)), short])
        self.assertEqual(panjerov.replay(p1().write(), [(many, 0, 1)], [4], b"\1\7"), (Graph(3, [2, 4, 6], [8]), [(0, (4, 0))]))

    def test_replay_call_by_call(self) -> None:
        generator = random.Random(2)
        for _ in range(300):
            nodes = []
            for index in range(4, 4 + generator.randrange(9)):
                nodes += [generator.randrange(2 * index) for _ in range(3)]
            end = 2 * (4 + len(nodes) // 3)
            locked = [index for index in range(4, end // 2) if generator.random() < 0.2]
            graph = Graph(3, nodes, [generator.randrange(end) for _ in range(2)], locked)
            calls = [(generator.randrange(4), generator.randrange(3, end // 2), generator.randrange(4)) for _ in range(6)]
            # Some indices stand twice or are no node's, some moves are none of a majority's, and there may be too few.
            indices = sorted(generator.randrange(4, end // 2 + 1) for _ in range(9))
            moves = [generator.choice([0, 0, 1, 1, 2]) for _ in range(generator.randrange(6, 12))]
            for _ in range(4):
                start = generator.randrange(10)
                calls.insert(generator.randrange(7), (panjerov.MANY, start, generator.randrange(10 - start)))
            after, told = panjerov.replay(graph.write(), calls, indices, moves)
            for (kind, node, word), answer in zip(calls, told):
                try:
                    if kind == panjerov.MANY:
                        saving = (graph.many(indices[node : node + word], moves[node : node + word]), 0)
                    elif kind == panjerov.SETTLE:
                        settled = graph.settle()
                        saving = (settled.own, settled.others)
                    else:
                        made = [graph.node_call, graph.pair_call, graph.tree_call][kind]
                        saving = made(node, word) if kind == panjerov.PAIR else made(node)
                    self.assertEqual(answer, (0, saving))
                except Refused as refused:
                    self.assertEqual(answer, (refused.number, (0, 0)))
            self.assertEqual(after, graph)

    def test_aiger(self) -> None:
        self.assertEqual(Graph(3, [2, 4, 6], [8]).export_aiger(), MAJORITY)
        self.assertEqual(Graph(2, [2, 4, MARK], [6]).export_aiger(), XOR)
        self.assertEqual(panjerov.import_aiger(MAJORITY), Graph(3, [0, 5, 7, 0, 2, 9, 0, 4, 6, 0, 11, 13], [15]))
        self.assertEqual(panjerov.import_aiger(XOR + b"c\nby hand\n"), Graph(2, [0, 2, 5, 0, 3, 4, 0, 7, 9], [11]))
        self.assertEqual(panjerov.import_aiger(memoryview(b"aag 0 0 0 1 0\n1\n")), Graph(0, [], [1]))
        self.assertEqual(Graph(0, [], []).export_aiger(), b"aag 0 0 0 0 0\n")

    def test_aiger_of_a_tool(self) -> None:
        """Files that yosys wrote, held to sums, products and so on, before settling, after it, and exported."""
        pairs = [(x, y) for x in range(16) for y in range(16)]
        both = [x + 16 * y for x, y in pairs]
        divided = [(x // y, x % y) if y else (15, x) for x, y in pairs]
        wide = random.Random(4).sample(range(2**17), 4096)
        for name, assignments, due in [
            ("ripple_adder4", both + [n + 256 for n in both], [x + y for x, y in pairs] + [x + y + 1 for x, y in pairs]),
            ("multiplier4", both, [x * y for x, y in pairs]),
            ("comparator4", both, [(x < y) + 2 * (x == y) for x, y in pairs]),
            ("divider4", both, [quotient + 16 * rest for quotient, rest in divided]),
            ("ripple_adder8", wide, [n % 256 + n // 256 % 256 + n // 65536 for n in wide]),
            ("voter7", list(range(128)), [int(bin(votes).count("1") > 3) for votes in range(128)]),
            ("alu_slice", list(range(64)), [alu_slice(n) for n in range(64)]),
        ]:
            graph = panjerov.import_aiger((EXAMPLES / f"{name}.aag").read_bytes())
            self.assertEqual(values(graph, assignments), due, name)
            settled = graph.settle()
            self.assertLess(settled.after, settled.before, name)
            self.assertEqual(values(graph, assignments), due, name)
            again = panjerov.import_aiger(graph.export_aiger())
            self.assertEqual(len(again.nodes), 4 * len(graph.nodes))
            self.assertEqual(values(again, assignments), due, name)

    def test_aiger_and_back(self) -> None:
        generator = random.Random(3)
        for _ in range(500):
            graph = random_graph(generator)
            again = panjerov.import_aiger(graph.export_aiger())
            words = [generator.randrange(2**64) for _ in range(graph.inputs)]
            self.assertEqual(again.evaluate(words), graph.evaluate(words))

    def test_largest(self) -> None:
        nodes = []
        for index in range(4097, 104097):
            nodes += [2 * index - 1, 2 * (index % 4096) + 1, MARK if index % 3 else 2 * (index % 4000)]
        graph = Graph(4096, nodes, [2 * 104096 + 1] * 4096)
        words = [word * 0x9E3779B97F4A7C15 % 2**64 for word in range(4096)]
        before = graph.evaluate(words)
        told, previewed = graph.preview(104096), Graph(4096, nodes, graph.outputs)
        self.assertEqual(graph, previewed)
        self.assertEqual(previewed.tree_call(104096), told.saving)
        self.assertEqual(made(graph, told.moves), previewed)
        applied = Graph(4096, nodes, graph.outputs)
        self.assertEqual(applied.many(range(4097, 104097), told.moves), told.saving.total)
        self.assertEqual(applied, previewed)
        settled = graph.settle()
        self.assertLess(settled.after, settled.before)
        self.assertEqual(graph.complemented_edges(), settled.after)
        self.assertEqual(graph.evaluate(words), before)
        self.assertEqual(panjerov.load(graph.write()), graph)
        for index in range(4097, 104097):
            graph.lock(index)
        self.assertEqual(graph.settle(), (1, settled.after, settled.after, 0, 0))
        self.assertEqual(panjerov.load(graph.write()).locked, list(range(4097, 104097)))
        text = graph.export_aiger()
        xors = graph.nodes[2::3].count(MARK)
        gates = 400000 - xors
        self.assertTrue(text.startswith(b"aag %d 4096 0 4096 %d\n2\n4\n" % (4096 + gates, gates)))
        self.assertEqual(text.count(b"\n"), 1 + 4096 + 4096 + gates)
        with self.assertRaises(Refused) as caught:
            panjerov.import_aiger(text)
        self.assertEqual(caught.exception.number, 3)

    def test_largest_text(self) -> None:
        lines = ["aag 104096 4096 0 4096 100000"] + [str(2 * (k + 1)) for k in range(4096)] + ["208193"] * 4096
        lines += [f"{2 * index} {2 * index - 1} {index}" for index in range(4097, 104097)]
        graph = panjerov.import_aiger("\n".join(lines + [""]).encode())
        nodes = [word for index in range(4097, 104097) for word in (0, 2 * index - 1, index)]
        self.assertEqual(graph, Graph(4096, nodes, [208193] * 4096))


class Bad(unittest.TestCase):
    def refused(self, number: int, graph: Graph, call: str, *arguments: object) -> None:
        before = kept(graph)
        with self.assertRaises(Refused) as caught:
            getattr(graph, call)(*arguments)
        self.assertEqual(caught.exception.number, number)
        self.assertEqual(kept(graph), before)

    def test_refused_trials(self) -> None:
        graph = Graph(5, [3, 5, 6, 12, 9, 10], [15], [6])
        told = [(15, 2, 0), (16, 1, 0), (16, 1, 2), (15, 0, 2), (15, 2**32 - 1, 1), (15, 0, 2**32 - 1)]
        for number, named_move, node_move in told:
            self.refused(number, graph, "trial", 7, 1, named_move, node_move)
        self.refused(15, graph, "trial", 7, 2, 0, 2)
        self.refused(7, graph, "trial", 7, 4, 2, 2)

    def test_refusals(self) -> None:
        self.refused(7, p1(), "node_call", 3)
        self.refused(7, p1(), "pair_call", 4, 4)
        self.refused(7, p1(), "pair_call", 4, 0)
        self.refused(7, p1(), "trial", 4, 4, 0, 0)
        self.refused(7, p1(), "trial", 3, 1, 0, 0)
        self.refused(7, p1(), "tree_call", 2**32 - 1)
        self.refused(7, Graph(1, [2, 2, MARK, 4, 2, 2], [6]), "tree_call", 2)
        for root in [0, 3, 5, 2**32 - 1]:
            self.refused(7, p1(), "preview", root)
        self.refused(7, Graph(5, [3, 5, 6, 13, 8, 11], [14]), "preview", 6)
        self.refused(5, Graph(3, [2, 4, 8], [8]), "preview", 3)
        self.refused(3, Graph(0, [0] * 300003, []), "preview", 0)
        self.refused(4, p1(), "evaluate", [1, 2])
        self.refused(3, Graph(4097, [], []), "settle")
        self.refused(3, Graph(0, [0] * 300003, []), "write")
        self.refused(3, Graph(2**32 - 1, [], []), "export_aiger")
        self.refused(3, Graph(0, [0] * 300003, []), "export_aiger")
        self.refused(3, Graph(0, [0] * 300003, []), "many", [0], [])
        self.refused(4, Graph(3, [2, 4, 8], [8]), "many", [3], [])
        self.refused(5, Graph(3, [2, 4, 8], [8]), "many", [3], [9])
        for call in ["settle", "write", "export_aiger", "complemented_edges"]:
            self.refused(5, Graph(3, [2, 4, 8], [8]), call)
            self.refused(5, Graph(3, [2, 4, 6], [10]), call)

    def test_lists_of_moves(self) -> None:
        """Node 3 is a majority, nodes 4 and 5 are XORs, and node 4 is locked."""
        graph = Graph(2, [2, 5, 4, 6, 3, MARK, 8, 7, MARK], [10, 9], [4])
        for number, indices, moves in [
            (4, [3, 4, 5], [1, 0]),
            (4, [9], []),
            (7, [2], [9]),
            (7, [3, 6], [1, 9]),
            (7, [3, 2**32 - 1], [1, 0]),
            (7, [3, 2], [1, 0]),
            (14, [5, 3], [1, 9]),
            (14, [3, 3], [1, 1]),
            (14, [3, 5, 4], [1, 0, 1]),
            (15, [3], [2]),
            (15, [4], [4]),
            (15, [3, 5], [1, 255]),
            (16, [3, 4], [1, 1]),
            (16, [4], [2]),
            (16, [3, 4, 9], [1, 3, 0]),
        ]:
            self.refused(number, graph, "many", indices, moves)
        for error, indices, moves in [
            (ValueError, [3], [256]),
            (ValueError, [3], [-1]),
            (ValueError, [2**32], [0]),
            (TypeError, ["3"], [0]),
            (TypeError, [3], [1.0]),
            (TypeError, [3], "1"),
            (TypeError, b"\3", [1]),
            (TypeError, 3, [1]),
            (TypeError, [3], 1),
        ]:
            before = kept(graph)
            with self.assertRaises(error):
                graph.many(indices, moves)
            self.assertEqual(kept(graph), before)
        with self.assertRaisesRegex(Refused, "refused 16: a move other than 0 is at a locked node"):
            graph.many([4], [1])

    def test_files(self) -> None:
        file = p1().write()
        for number, bad in [(1, b""), (1, file[:39]), (6, file + b"\0"), (2, b"\2" + file[1:])]:
            with self.assertRaises(Refused) as caught:
                panjerov.load(bad)
            self.assertEqual(caught.exception.number, number)
        for number, bad in [(1, b"\1\0"), (2, b"\6\0\0"), (2, b"\7\0\4\0\0\0\0"), (1, b"\6\0\4"), (1, b"\1\0\x0c")]:
            with self.assertRaises(Refused) as caught:
                panjerov.field(bad)
            self.assertEqual(caught.exception.number, number)

    def test_locks_of_files(self) -> None:
        """Document 01's P2: nodes 6 and 7. Fields 06 stand before the end, which is at byte 52."""
        free = Graph(5, [3, 5, 6, 13, 8, 11], [14]).write()

        def lock(index: int) -> bytes:
            return b"\6\0\4" + index.to_bytes(4, "big")

        for number, fields in [
            (13, [lock(5)]),
            (13, [lock(8)]),
            (13, [lock(2**32 - 1)]),
            (13, [lock(6), lock(6)]),
            (13, [lock(7), lock(6)]),
            (2, [b"\6\0\3\0\0\6"]),
            (2, [b"\7\0\4\0\0\0\6"]),
            (2, [lock(6), b"\4\0\4\0\0\0\16"]),
        ]:
            with self.assertRaises(Refused) as caught:
                panjerov.load(free[:52] + b"".join(fields) + free[52:])
            self.assertEqual(caught.exception.number, number, fields)
        for number, bad in [
            (1, free[:52] + lock(6)[:6]),
            (1, free[:52] + lock(6)),
            (2, free[:45] + lock(6) + free[45:]),
            (6, free + lock(6)),
        ]:
            with self.assertRaises(Refused) as caught:
                panjerov.load(bad)
            self.assertEqual(caught.exception.number, number)

    def test_locks(self) -> None:
        for call in ["lock", "unlock", "is_locked"]:
            for index in [0, 5, 8, 2**32 - 1]:
                self.refused(7, Graph(5, [3, 5, 6, 13, 8, 11], [14], [7]), call, index)
            with self.assertRaises(TypeError):
                getattr(p1(), call)("4")
            with self.assertRaises(ValueError):
                getattr(p1(), call)(-1)
        for error, locked in [(ValueError, [3]), (ValueError, [4, 5]), (ValueError, [-1]), (TypeError, ["4"]), (TypeError, 4)]:
            with self.assertRaises(error):
                Graph(3, [3, 5, 7], [9], locked)
        with self.assertRaises(AttributeError):
            p1().locked = [4]
        # A locked node that is no more.
        graph = Graph(5, [3, 5, 6, 13, 8, 11], [14], [7])
        graph.nodes, graph.outputs = graph.nodes[:3], [12]
        with self.assertRaises(ValueError):
            graph.settle()

    def test_texts(self) -> None:
        for number, bad in [
            (10, b""),
            (10, b"aag"),
            (10, b"aag 0 0 0 0 0"),
            (10, b"aag 0 0 0 0 00\n"),
            (10, b"aag 0 0 0 1 0\n4294967296\n"),
            (5, b"aag 0 0 0 1 0\n4294967295\n"),
            (10, b"aag 0 0 0 0 0\r\n"),
            (10, b"aag 100000 0 0 0 100000\n"),
            (11, b"aag 1 0 1 0 0\n"),
            (12, b"aag 1 0 0 0 0\n"),
            (12, b"aag 0 1 0 0 4294967295\n"),
            (12, b"aag 1 1 0 0 0\n4\n"),
            (12, MAJORITY.replace(b"12 4 6", b"14 4 6")),
            (3, b"aag 4097 4097 0 0 0\n"),
            (3, b"aag 100001 0 0 0 100001\n"),
            (3, b"aag 0 0 0 4294967295 0\n"),
            (5, MAJORITY.replace(b"12 4 6", b"12 4 12")),
        ]:
            with self.assertRaises(Refused) as caught:
                panjerov.import_aiger(bad)
            self.assertEqual(caught.exception.number, number, bad)
        with self.assertRaisesRegex(Refused, "refused 11: there are latches"):
            panjerov.import_aiger(b"aag 1 0 1 0 0\n")

    def test_replays(self) -> None:
        file = p1().write()
        for number, bad, calls in [
            (1, file[:39], []),
            (102, file, [(8, 4, 0)]),
            (102, b"", [(9, 0, 0)]),
            (105, file, [(4, 0, 3)]),
            (105, b"", [(4, 3, 0)]),
            (105, b"", [(4, 2, 1), (8, 0, 0)]),
            (105, b"", [(5, 4, 0)]),
            (105, b"", [(4, 1, 2**32 - 1)]),
            (102, b"", [(8, 0, 0), (4, 2, 1)]),
            (1, b"", [(4, 2, 0)]),
            (6, file + b"\0", [(0, 4, 0)]),
        ]:
            with self.assertRaises(Refused) as caught:
                panjerov.replay(bad, calls, [4, 4], [1, 1])
            self.assertEqual(caught.exception.number, number)
        for error, calls in [
            (ValueError, [(0, 4)]),
            (ValueError, [(0, 4, -1)]),
            (TypeError, [(0, "4", 0)]),
            (TypeError, [3]),
        ]:
            with self.assertRaises(error):
                panjerov.replay(file, calls)
        for error, indices, moves in [(ValueError, [-1], []), (TypeError, "4", []), (ValueError, [4], [256]), (TypeError, [4], "1")]:
            with self.assertRaises(error):
                panjerov.replay(file, [], indices, moves)

    def test_any_bytes(self) -> None:
        generator = random.Random(1)
        file = bytearray(Graph(3, [3, 5, 7, 8, 2, MARK], [9, 11], [4, 5]).write())
        for _ in range(5000):
            bad = bytearray(file[: generator.randrange(len(file) + 1)] if generator.random() < 0.3 else file)
            for _ in range(generator.randrange(4)):
                if bad:
                    bad[generator.randrange(len(bad))] = generator.randrange(256)
            try:
                self.assertEqual(panjerov.load(bad).write(), bytes(bad))
            except Refused as refused:
                self.assertIn(refused.number, (1, 2, 3, 4, 5, 6, 13))

    def test_any_text(self) -> None:
        """Whatever is changed, a text is refused by a number that it may have, or gives a graph that comes back."""
        generator = random.Random(4)
        accepted = 0
        for _ in range(5000):
            bad = bytearray(MAJORITY[: generator.randrange(len(MAJORITY))] if generator.random() < 0.2 else MAJORITY)
            for _ in range(generator.randrange(4)):
                if bad:
                    bad[generator.randrange(len(bad))] = generator.choice(b"0123456789 \n\r\tag")
            try:
                graph = panjerov.import_aiger(bad)
                again = panjerov.import_aiger(graph.export_aiger())
                self.assertEqual(again.evaluate([0xF0, 0xCC, 0xAA]), graph.evaluate([0xF0, 0xCC, 0xAA]))
                accepted += 1
            except Refused as refused:
                self.assertIn(refused.number, (10, 11, 12, 3, 5))
        self.assertGreater(accepted, 1000)

    def test_kinds(self) -> None:
        for error, inputs, nodes, outputs in [
            (TypeError, "3", [], []),
            (TypeError, True, [], []),
            (ValueError, -1, [], []),
            (ValueError, 2**32, [], []),
            (ValueError, 3, [1, 2], []),
            (ValueError, 3, [1, 2, -1], []),
            (TypeError, 3, [1, 2, 3.0], []),
            (TypeError, 3, None, []),
            (TypeError, 3, [], "9"),
        ]:
            with self.assertRaises(error):
                Graph(inputs, nodes, outputs)
        for call, arguments in [
            ("node_call", [4.0]),
            ("pair_call", [4, "1"]),
            ("evaluate", ["abc"]),
            ("tree_call", [None]),
            ("preview", ["4"]),
        ]:
            with self.assertRaises(TypeError):
                getattr(p1(), call)(*arguments)
        wrong = [("node_call", [-1]), ("pair_call", [4, 2**32]), ("trial", [4, 1, 0, 2**32]), ("evaluate", [[0, 0, 2**64]]), ("preview", [-1])]
        for call, arguments in wrong:
            with self.assertRaises(ValueError):
                getattr(p1(), call)(*arguments)
        for bad in ["text", None, 3, [1, 2]]:
            with self.assertRaises(TypeError):
                panjerov.load(bad)
            with self.assertRaises(TypeError):
                panjerov.import_aiger(bad)
            with self.assertRaises(TypeError):
                panjerov.field(bad)

    def test_set_since(self) -> None:
        graph = p1()
        graph.nodes.append(1)
        with self.assertRaises(ValueError):
            graph.settle()
        for error, value in [(TypeError, ["x", 1, 2]), (TypeError, [True]), (ValueError, [2**32]), (ValueError, [3, -1])]:
            with self.assertRaises(error):
                graph.nodes[3:] = value
            with self.assertRaises(error):
                graph.nodes = value
            with self.assertRaises(error):
                graph.outputs += value[-1:] if error is ValueError else value
        for error, call in [
            (TypeError, lambda: graph.nodes.append("x")),
            (TypeError, lambda: graph.nodes.insert(0, 1.0)),
            (ValueError, lambda: graph.nodes.insert(4, -1)),
            (IndexError, lambda: graph.nodes[4]),
            (IndexError, lambda: graph.nodes[-5]),
            (TypeError, lambda: graph.nodes["0"]),
            (TypeError, lambda: graph.nodes + 1),
        ]:
            with self.assertRaises(error):
                call()
        self.assertEqual((graph.nodes, graph.outputs), ([3, 5, 7, 1], [9]))
        graph.inputs = "3"
        del graph.nodes[3]
        with self.assertRaises(TypeError):
            graph.settle()


def chain(nodes: int, outputs: int) -> Graph:
    """So many nodes, every third an XOR, and so many outputs: bits of all kinds, over several words."""
    words = []
    for at in range(nodes):
        words += [2 * at + 4 + at % 2, 2 + at // 2 % 4, MARK if at % 3 == 2 else at // 3 % 6]
    return Graph(2, words, [2 * (at % (nodes + 3)) + at % 2 for at in range(outputs)])


def kept(graph: Graph) -> tuple:
    """All that a call is lent of a graph, copied."""
    return tuple(array[:] for table in (graph.nodes, graph.outputs) for array in (table.indices, table.bits)) + (graph.locked,)


def every_call(graph: Graph) -> list:
    """Each call, to be made. The node that is named is the last, a root."""
    last = graph.inputs + len(graph.nodes) // 3
    return [
        graph.complemented_edges,
        graph.write,
        graph.export_aiger,
        graph.settle,
        lambda: graph.evaluate([0] * graph.inputs),
        lambda: graph.assignment_for([2] * len(graph.outputs)),
        lambda: graph.node_call(last),
        lambda: graph.pair_call(last, 1),
        lambda: graph.trial(last, 1, 1, 1),
        lambda: graph.tree_call(last),
        lambda: graph.preview(last),
        lambda: graph.resistive_call(last),
        lambda: graph.many([last], [1]),
        lambda: graph.join(Graph(len(graph.outputs), [], [])),
    ]


def buried(generator: random.Random) -> Graph:
    """ANDs mostly, with XORs and majorities in four ANDs each, and some nodes locked."""
    inputs, nodes = generator.randrange(1, 6), []

    def literal() -> int:
        return generator.randrange(2 * (inputs + 1 + len(nodes) // 3))

    def node(*words: int) -> int:
        nodes.extend(words)
        return 2 * (inputs + len(nodes) // 3)

    for _ in range(generator.randrange(1, 6)):
        x, y, z = literal(), literal(), literal()
        kind = generator.randrange(4)
        if kind == 0:
            node(x, y, MARK)
        elif kind == 1:
            node(0, x, y)
        else:
            first = node(0, y ^ 1, z ^ 1)
            second, third = node(0, x, first ^ 1), node(0, y, z)
            node(0, second ^ 1, third ^ 1)
    end = inputs + 1 + len(nodes) // 3
    locked = [index for index in range(inputs + 1, end) if generator.random() < 0.15]
    return Graph(inputs, nodes, [generator.randrange(2 * end) for _ in range(3)], locked)


class Hidden(unittest.TestCase):
    """Majorities that lie in ANDs."""

    def test_one_comes_back(self) -> None:
        graph = panjerov.import_aiger(MAJORITY)
        self.assertEqual(graph.find(), 1)
        self.assertEqual(graph, Graph(3, [3, 5, 7], [9]))
        self.assertEqual(graph.settle()[1:3], (4, 0))
        self.assertEqual((graph.find(), graph), (1, Graph(3, [2, 4, 6], [8])))

    def test_made(self) -> None:
        graph = panjerov.import_aiger(MAJORITY)
        before = copied(graph)
        self.assertEqual(graph.majority(7, 1, 2, 6), Majority.NOT_COVERED)
        self.assertEqual(graph.majority(7, 2, 3, 5), Majority.NOT_MAJORITY)
        self.assertEqual(graph, before)
        self.assertEqual(graph.majority(7, 1, 2, 3), Majority.MADE)
        self.assertEqual(graph, Graph(3, [0, 5, 7, 0, 2, 9, 0, 4, 6, 3, 5, 7], [15]))

    def test_locks(self) -> None:
        graph = panjerov.import_aiger(MAJORITY)
        graph.lock(5)
        self.assertEqual((graph.find(), graph), (3, Graph(3, [0, 5, 7, 0, 2, 9, 3, 5, 7], [13], [5])))
        graph = panjerov.import_aiger(MAJORITY)
        graph.lock(7)
        before = copied(graph)
        with self.assertRaises(Refused) as caught:
            graph.majority(7, 1, 2, 3)
        self.assertEqual((caught.exception.number, graph.find(), graph), (16, 4, before))

    def test_refusals(self) -> None:
        for node, three in [(3, (1, 2, 3)), (8, (1, 2, 3)), (7, (0, 1, 2)), (7, (2, 1, 3)), (7, (1, 2, 7)), (7, (1, 2, MARK))]:
            graph = panjerov.import_aiger(MAJORITY)
            with self.assertRaises(Refused) as caught:
                graph.majority(node, *three)
            self.assertEqual((caught.exception.number, graph), (7, panjerov.import_aiger(MAJORITY)))
        for number, graph in [(3, Graph(4097, [], [])), (5, Graph(3, [2, 4, 8], [8]))]:
            for call in [lambda: graph.find(), lambda: graph.majority(4, 1, 2, 3)]:
                with self.assertRaises(Refused) as caught:
                    call()
                self.assertEqual(caught.exception.number, number)
        with self.assertRaises(TypeError):
            p1().majority(4, 1, 2, 3.0)
        with self.assertRaises(ValueError):
            p1().majority(4, 1, 2, -3)

    def test_values_stay(self) -> None:
        """Over several words of bits too: what is read again and written is a graph, with as many locks."""
        generator, fewer = random.Random(47), 0
        for _ in range(400):
            graph = buried(generator)
            before, assignments = copied(graph), list(range(2**graph.inputs))
            nodes = graph.find()
            self.assertEqual(nodes, len(graph.nodes) // 3)
            self.assertEqual(values(graph, assignments), values(before, assignments))
            self.assertEqual(len(graph.locked), len(before.locked))
            self.assertEqual(panjerov.load(graph.write()), graph)
            fewer += len(before.nodes) // 3 - nodes
        self.assertGreater(fewer, 400)

    def test_replay(self) -> None:
        """A call that makes none, the finder, settling on what is left, and a call at a node that is no more."""
        find, settle, three = (panjerov.FIND, 9, 9), (panjerov.SETTLE, 0, 0), panjerov.MAJORITY
        calls = [(three, 7, 3), (three, 7, 0), find, settle, (panjerov.NODE, 7, 0), (three, 4, 0)]
        graph, told = panjerov.replay(panjerov.import_aiger(MAJORITY).write(), calls, [2, 3, 5, 1, 2, 6])
        self.assertEqual(graph, Graph(3, [2, 4, 6], [8]))
        none = (7, (0, 0))
        self.assertEqual(told, [(0, Majority.NOT_COVERED), (0, Majority.NOT_MAJORITY), (0, 1), (0, (3, 1)), none, none])

    def test_largest(self) -> None:
        """As many nodes as there may be: 25,000 majorities in four ANDs each, the last 4,096 of them read by outputs."""
        literals, nodes = list(range(2, 130, 2)), []
        generator = random.Random(48)
        while len(nodes) < 300000:
            x, y, z = (literal ^ generator.randrange(2) for literal in generator.sample(literals, 3))
            first = 2 * (65 + len(nodes) // 3)
            nodes += [0, y ^ 1, z ^ 1, 0, x, first ^ 1, 0, y, z, 0, first + 3, first + 5]
            literals.append(first + 7)
        graph = Graph(64, nodes, literals[-4096:])
        words = [generator.getrandbits(64) for _ in range(64)]
        due = graph.evaluate(words)
        found = graph.find()
        self.assertEqual((graph.evaluate(words), found), (due, len(graph.nodes) // 3))
        self.assertTrue(4096 <= found <= 25000, found)
        self.assertTrue(all(0 not in (x // 2, y // 2, z // 2) for x, y, z in zip(*[iter(graph.nodes)] * 3)))


def tree_of(graph: Graph, root: int) -> list:
    """The nodes of a root's tree by falling index."""
    count = len(graph.nodes) // 3
    nodes = range(graph.inputs + 1, graph.inputs + 1 + count)
    reading = {node: [] for node in nodes}
    for at, word in enumerate(graph.nodes):
        if word // 2 in reading and word != MARK:
            reading[word // 2].append(graph.inputs + 1 + at // 3)
    for word in graph.outputs:
        if word // 2 in reading:
            reading[word // 2] += [0, 0]
    tree = [root]
    for node in range(root - 1, graph.inputs, -1):
        if len(reading[node]) == 1 and reading[node][0] in tree:
            tree.append(node)
    return tree


def singles(graph: Graph, nodes: list) -> int:
    """How many of these nodes are majorities with just one complemented input."""
    words = [graph.nodes[3 * (node - graph.inputs - 1) :][:3] for node in nodes]
    return sum(three[2] != MARK and sum(word % 2 for word in three) == 1 for three in words)


def best_for_memory(graph: Graph, root: int) -> Graph:
    """The graph after the choice that a resistive call makes, by trying every permitted one in the tree call's order."""
    tree, best = tree_of(graph, root), None

    def permitted(node: int) -> range:
        xor = graph.nodes[3 * (node - graph.inputs - 1) + 2] == MARK
        return range(1 if graph.is_locked(node) else (2 if xor else 1) if node == root else 4 if xor else 2)

    for choice in itertools.product(*map(permitted, tree)):
        moves = bytearray(len(graph.nodes) // 3)
        for node, move in zip(tree, choice):
            moves[node - graph.inputs - 1] = move
        after = made(graph, moves)
        key = (-singles(after, tree), after.complemented_edges())
        if best is None or key < best[0]:
            best = (key, after)
    return best[1]


class Resistive(unittest.TestCase):
    """Trees for resistive memory."""

    def test_worked(self) -> None:
        graph = Graph(3, [2, 4, 6, 8, 2, 4], [10])
        self.assertEqual(graph.resistive_call(5), (-4, 0))
        self.assertEqual(graph, Graph(3, [3, 5, 7, 9, 2, 4], [10]))
        locked = Graph(3, [2, 4, 6, 8, 2, 4], [10], [4])
        self.assertEqual((locked.resistive_call(5), locked), ((0, 0), Graph(3, [2, 4, 6, 8, 2, 4], [10], [4])))
        # The root's readers stay: P1 as it is, and an XOR by its move 1.
        graph = p1()
        self.assertEqual((graph.resistive_call(4), graph), ((0, 0), p1()))
        graph = Graph(2, [3, 5, MARK], [7])
        self.assertEqual((graph.resistive_call(3), graph), ((2, 0), Graph(2, [2, 4, MARK], [7])))
        # The constant's edge is an input.
        graph = Graph(2, [1, 3, 4, 6, 2, 4], [8])
        self.assertEqual((graph.resistive_call(4), graph), ((0, 0), Graph(2, [0, 2, 5, 7, 2, 4], [8])))

    def test_by_every_choice(self) -> None:
        generator = random.Random(109)
        called = turned = lost = 0
        while called < 1500:
            graph = random_graph(generator)
            for root in range(graph.inputs + 1, graph.inputs + 1 + len(graph.nodes) // 3):
                after, before = copied(graph), graph.complemented_edges()
                try:
                    saving = after.resistive_call(root)
                except Refused as refused:
                    self.assertEqual((refused.number, after), (7, graph))
                    continue
                self.assertEqual(after, best_for_memory(graph, root))
                self.assertEqual((saving.total, saving.others), (before - after.complemented_edges(), 0))
                self.assertEqual(values(after, list(range(2**graph.inputs))), values(graph, list(range(2**graph.inputs))))
                called, turned, lost = called + 1, turned + (after != graph), lost + (saving.own < 0)
        self.assertTrue(turned > 100 and lost > 0, (turned, lost))

    def test_refusals(self) -> None:
        for number, graph, root in [
            (7, p1(), 3),
            (7, p1(), 5),
            (7, Graph(3, [2, 4, 6, 8, 2, 4], [10]), 4),
            (5, Graph(3, [8, 7, 7], []), 9),
            (3, Graph(4097, [], []), 9),
        ]:
            before = copied(graph)
            with self.assertRaises(Refused) as caught:
                graph.resistive_call(root)
            self.assertEqual((caught.exception.number, graph), (number, before))

    def test_replay(self) -> None:
        """Kind 7 among others; a refused one changes nothing."""
        file = Graph(3, [2, 4, 6, 8, 2, 4], [10]).write()
        calls = [(panjerov.RESISTIVE, 5, 9), (panjerov.RESISTIVE, 4, 0), (panjerov.SETTLE, 0, 0), (panjerov.RESISTIVE, 5, 0)]
        graph, told = panjerov.replay(file, calls)
        self.assertEqual(graph, Graph(3, [3, 5, 7, 9, 2, 4], [10]))
        self.assertEqual(told, [(0, (-4, 0)), (7, (0, 0)), (0, (4, 0)), (0, (-4, 0))])


def afresh(graphs: list) -> tuple:
    """The figures of graphs, worked out from each of them settled by itself."""
    sums = [len(graphs), 0, 0, 0, 0, 0]
    for graph in graphs:
        settled = copied(graph).settle()
        cells = sum(12 if third == MARK else 5 for third in graph.nodes[2::3])
        row = [settled.before, settled.after, settled.rounds, 13 * settled.before + cells, 13 * settled.after + cells]
        sums[1:] = [old + new for old, new in zip(sums[1:], row)]
    return (*sums, sums[1] - sums[2], sums[1])


class Classes(unittest.TestCase):
    """Figures for a class."""

    def test_worked(self) -> None:
        record, graph = panjerov.Class(), p1()
        self.assertEqual((record.all(), record.latest()), ((0,) * 8, (0,) * 8))
        self.assertEqual((record.enter(graph), graph), (p1().settle(), Graph(3, [2, 4, 6], [8])))
        self.assertEqual(record.all(), (1, 4, 0, 2, 57, 5, 4, 4))
        self.assertEqual(record.latest().cells_before, 57)

    def test_always_afresh(self) -> None:
        """After each graph, refused ones among them, and with the record put down and taken up again."""
        generator, record, entered = random.Random(110), panjerov.Class(), []
        refused = 0
        while len(entered) < 60:
            graph = random_graph(generator)
            if generator.random() < 0.3 and graph.nodes:
                graph.nodes[0] = 2 * (graph.inputs + 1)
                words = record.words
                with self.assertRaises(Refused) as caught:
                    record.enter(graph)
                self.assertEqual((caught.exception.number, record.words), (5, words))
                refused += 1
                continue
            record = panjerov.Class(record.words)
            entered.append(copied(graph))
            record.enter(graph)
            self.assertEqual((record.all(), record.latest()), (afresh(entered), afresh(entered[-16:])))
        self.assertTrue(refused > 5)

    def test_full(self) -> None:
        record = panjerov.Class()
        for _ in range(panjerov.MOST_GRAPHS):
            record.enter(p1())
        for graph in (p1(), Graph(3, [8, 7, 7], [])):
            with self.assertRaises(Refused) as caught:
                record.enter(graph)
            self.assertEqual(caught.exception.number, 3)
        self.assertEqual((record.all().graphs, record.latest()), (1000, afresh([p1()] * 16)))

    def test_other_records(self) -> None:
        """Words from anywhere are refused, or give what they hold."""
        for number, words in [
            (4, [0] * 85),
            (4, []),
            (3, [2**40]),
            (3, [0] * 85 + [2**40]),
            (3, [1001] + [0] * 85),
            (3, [2**64 - 1] * 86),
        ]:
            record = panjerov.Class(words)
            for call in (record.all, record.latest):
                with self.assertRaises(Refused) as caught:
                    call()
                self.assertEqual(caught.exception.number, number, words[:1])
        with self.assertRaises(ValueError):
            panjerov.Class([2**64])
        record = panjerov.Class([1000] + [2**40 - 1] * 85)
        self.assertEqual((record.all()[:2], record.latest()[:2]), ((1000, 2**40 - 1), (16, 16 * (2**40 - 1))))


class Comparing(unittest.TestCase):
    """Two graphs, and the moves that lead from one to the other."""

    def test_moves(self) -> None:
        """Random choices of moves are told as they were made."""
        generator = random.Random(111)
        for _ in range(2000):
            graph = random_graph(generator)
            moves = bytes(generator.randrange(4 if third == MARK else 2) for third in graph.nodes[2::3])
            after = made(graph, moves)
            self.assertEqual(graph.compare(after), (moves, None, 0))
            self.assertEqual(after.compare(graph), (moves, None, 0))

    def test_one_bit_more(self) -> None:
        """One edge turned by itself: told is the first place at which no moves give both graphs, by trying all of them."""
        generator = random.Random(1110)
        tried = differing = 0
        while tried < 400:
            graph = random_graph(generator)
            kinds = [4 if third == MARK else 2 for third in graph.nodes[2::3]]
            edges = [at for at, word in enumerate(graph.nodes) if word != MARK]
            if not 1 <= len(kinds) <= 4 or not graph.outputs:
                continue
            tried += 1
            after = copied(graph)
            place = generator.randrange(len(edges) + len(graph.outputs))
            table, at = (after.nodes, edges[place]) if place < len(edges) else (after.outputs, place - len(edges))
            table[at] ^= 1
            reached = [made(graph, bytes(moves)) for moves in itertools.product(*map(range, kinds))]
            best = max(
                next((at for at, pair in enumerate(zip(one.nodes + one.outputs, after.nodes + after.outputs)) if pair[0] != pair[1]), 99)
                for one in reached
            )
            told = graph.compare(after)
            if best == 99:
                self.assertEqual(made(graph, told.moves), after)
                continue
            nodes = len(graph.nodes)
            due = (Difference.NODE_BIT, best) if best < nodes else (Difference.OUTPUT_BIT, best - nodes)
            self.assertEqual(told, (None, *due))
            differing += 1
        self.assertTrue(differing > 100, differing)

    def test_wiring(self) -> None:
        graph = Graph(2, [2, 5, 4, 6, 3, MARK], [8, 7])
        for other, due in [
            (Graph(3, [2, 5, 4, 6, 3, MARK], [8, 7]), (Difference.SIZE, 0)),
            (Graph(2, [2, 5, 4], [6, 7]), (Difference.SIZE, 1)),
            (Graph(2, [2, 5, 4, 6, 3, MARK], [8]), (Difference.SIZE, 2)),
            (Graph(2, [3, 4, 5, 6, 3, 0], [8, 7]), (Difference.NODE_INDEX, 5)),
            (Graph(2, [3, 4, 5, 6, 3, MARK], [8, 9]), (Difference.OUTPUT_INDEX, 1)),
        ]:
            self.assertEqual(graph.compare(other), (None, *due))

    def test_refusals(self) -> None:
        good, over, bad = Graph(3, [3, 5, 7], [9]), Graph(4097, [], []), Graph(3, [8, 7, 7], [])
        for first, second, number in [(over, bad, 3), (bad, over, 3), (bad, good, 5), (good, bad, 5)]:
            with self.assertRaises(Refused) as caught:
                first.compare(second)
            self.assertEqual(caught.exception.number, number)
        with self.assertRaises(TypeError):
            good.compare([3, 5, 7])
        self.assertEqual(good.compare(good), (b"\0", None, 0))


class Assignments(unittest.TestCase):
    """Assignments for a wanted output."""

    def test_worked(self) -> None:
        adder = Graph(3, [2, 4, 6, 2, 4, MARK, 10, 6, MARK], [12, 8])
        self.assertEqual([adder.assignment_for(wanted) for wanted in ("00", "10", "01", "11")], [0, 1, 3, 7])
        self.assertEqual([adder.assignment_for(wanted) for wanted in ("xx", "x1", b"\1\2", [2, 0])], [0, 3, 1, 0])
        self.assertIsNone(Graph(2, [2, 4, MARK], [6, 7]).assignment_for("11"))
        self.assertEqual(Graph(0, [], []).assignment_for(""), 0)
        self.assertEqual(Graph(16, [], [3, 32]).assignment_for("01"), 2**15 + 1)

    def test_by_every_assignment(self) -> None:
        """Held to trying them one by one, with wanted outputs of some assignment, of chance, and of none."""
        generator = random.Random(112)
        none = 0
        for _ in range(1500):
            graph = random_graph(generator)
            told = values(graph, list(range(2**graph.inputs)))
            one = generator.choice(told) if generator.random() < 0.5 else generator.getrandbits(len(graph.outputs) or 1)
            wanted = [2 if generator.random() < 0.3 else one >> o & 1 for o in range(len(graph.outputs))]
            fits = [n for n, value in enumerate(told) if all(bit in (2, value >> o & 1) for o, bit in enumerate(wanted))]
            self.assertEqual(graph.assignment_for(wanted), fits[0] if fits else None)
            none += not fits
        self.assertTrue(none > 100, none)

    def test_refusals(self) -> None:
        for number, graph, wanted in [
            (17, Graph(17, [], [2]), [9]),
            (18, Graph(16, [], [2]), [3]),
            (4, Graph(17, [], [2]), []),
            (5, Graph(17, [], [36]), [9]),
            (3, Graph(4097, [], [2]), []),
        ]:
            with self.assertRaises(Refused) as caught:
                graph.assignment_for(wanted)
            self.assertEqual(caught.exception.number, number)
        for bad, error in [("012", ValueError), (["x"], TypeError), ([256], ValueError), (None, TypeError)]:
            with self.assertRaises(error):
                Graph(1, [], [2, 2, 2]).assignment_for(bad)


def meeting(generator: random.Random, first: Graph) -> Graph:
    """A second stage for a first one: a random graph with an input for each output of the first."""
    other = random_graph(generator)
    inputs, shift = len(first.outputs), len(first.outputs) - other.inputs

    def moved(word: int) -> int:
        if word == MARK or word < 2:
            return word
        # Inputs that are too many become the constant.
        return word + 2 * shift if word // 2 > other.inputs else word if word // 2 <= inputs else word & 1

    locked = [index + shift for index in other.locked]
    return Graph(inputs, [moved(word) for word in other.nodes], [moved(word) for word in other.outputs], locked)


class Joining(unittest.TestCase):
    """Stages joined."""

    def test_worked(self) -> None:
        """Two inverters are a wire; constants from either side stay; a node is read by both ways of complement."""
        inverter = Graph(1, [], [3])
        self.assertEqual(inverter.join(inverter), Graph(1, [], [2]))
        self.assertEqual(Graph(1, [], [1]).join(inverter), Graph(1, [], [0]))
        self.assertEqual(inverter.join(Graph(1, [], [1, 0])), Graph(1, [], [1, 0]))
        first, second = Graph(3, [3, 5, 7], [9, 4], [4]), Graph(2, [2, 5, 0, 7, 3, MARK], [8, 5])
        joined = first.join(second)
        self.assertEqual(joined, Graph(3, [3, 5, 7, 9, 5, 0, 11, 8, MARK], [12, 5], [4]))

    def test_values(self) -> None:
        """The second's value on the first's outputs, and both lists of locks."""
        generator = random.Random(113)
        for _ in range(1500):
            first = random_graph(generator)
            second = meeting(generator, first)
            kept = copied(first), copied(second)
            joined, assignments = first.join(second), list(range(2**first.inputs))
            self.assertEqual(values(joined, assignments), values(second, values(first, assignments)))
            shift = len(first.nodes) // 3 + first.inputs - second.inputs
            self.assertEqual(joined.locked, first.locked + [index + shift for index in second.locked])
            self.assertEqual((joined.inputs, len(joined.nodes)), (first.inputs, len(first.nodes) + len(second.nodes)))
            self.assertEqual((first, second), kept)

    def test_example(self) -> None:
        """Four steps of the example add: the sum stands where x was, y is what it was, and then there is the carry."""
        stage = panjerov.load((EXAMPLES / "adder_stage4.mig").read_bytes())
        adder, numbers = stage.join(stage).join(stage).join(stage), list(range(512))
        for number, told in zip(numbers, values(adder, numbers)):
            total = number % 16 + number // 16 % 16 + number // 256
            self.assertEqual(told, total % 16 + 16 * (number // 16 % 16) + 256 * (total // 16))

    def test_settled_stages(self) -> None:
        """Both parts settled, joined, and the whole settled: the same value, and no more complemented edges than joined."""
        generator = random.Random(1130)
        for _ in range(300):
            first = random_graph(generator)
            second = meeting(generator, first)
            assignments = list(range(2**first.inputs))
            due = values(first.join(second), assignments)
            first.settle()
            second.settle()
            whole = first.join(second)
            before = whole.complemented_edges()
            self.assertLessEqual(whole.settle().after, before)
            self.assertEqual(values(whole, assignments), due)

    def test_refusals(self) -> None:
        good, over, bad = Graph(3, [3, 5, 7], [9]), Graph(4097, [], []), Graph(3, [8, 7, 7], [])
        for first, second, number in [(bad, over, 5), (good, over, 3), (over, bad, 3), (good, bad, 5), (good, good, 19)]:
            with self.assertRaises(Refused) as caught:
                first.join(second)
            self.assertEqual(caught.exception.number, number)
        half = Graph(1, [2, 2, 2] * 50001, [2])
        with self.assertRaises(Refused) as caught:
            half.join(half)
        self.assertEqual(caught.exception.number, 3)
        with self.assertRaises(TypeError):
            good.join(None)


class Packed(unittest.TestCase):
    """Tables as they are lent: indices, and complement bits in words of 64."""

    def all_refused(self, number: int, graph: Graph, what: str = "") -> None:
        before = kept(graph)
        for call in every_call(graph):
            with self.assertRaises(Refused, msg=what) as caught:
                call()
            self.assertEqual(caught.exception.number, number, what)
            self.assertEqual(kept(graph), before, what)

    def test_literals(self) -> None:
        graph = Graph(5, [3, 5, 6, 13, 8, 11], [14])
        self.assertEqual((list(graph.nodes.indices), list(graph.nodes.bits)), ([1, 2, 3, 6, 4, 5], [0b101011]))
        self.assertEqual((list(graph.outputs.indices), list(graph.outputs.bits)), ([7], [0]))
        xor = Graph(2, [3, 4, MARK], [7])
        self.assertEqual((list(xor.nodes.indices), list(xor.nodes.bits)), ([1, 2, MARK], [1]))
        self.assertEqual((xor.nodes[2], xor.nodes[-1], xor.nodes[:], repr(xor.nodes)), (MARK, MARK, [3, 4, MARK], "[3, 4, 4294967295]"))
        self.assertEqual((list(Literals().indices), list(Literals().bits)), ([], []))
        self.assertEqual(list(Literals([1] * 65).bits), [2**64 - 1, 1])

    def test_as_a_list(self) -> None:
        """Whatever is done to literals, they are what a list would be, and no bit is left elsewhere."""
        generator = random.Random(11)
        for _ in range(60):
            due = [generator.choice([MARK, generator.randrange(2**32 - 2)]) for _ in range(generator.randrange(200))]
            mine = Literals(due)
            for _ in range(30):
                some = [generator.choice([MARK, generator.randrange(2**32 - 2)]) for _ in range(generator.randrange(5))]
                at, to = sorted(generator.randrange(-3, len(due) + 3) for _ in range(2))
                change = generator.choice([
                    lambda words: words.append(7),
                    lambda words: words.extend(some),
                    lambda words: words.insert(at, 9),
                    lambda words: words.__setitem__(slice(at, to), some),
                    lambda words: words.__delitem__(slice(at, to, 2)),
                    lambda words: words.__setitem__(at, 11) if -len(words) <= at < len(words) else words.reverse(),
                    lambda words: words.pop() if len(words) else words.clear(),
                    lambda words: words.remove(words[0]) if len(words) else words.__iadd__(some),
                ])
                change(due)
                change(mine)
                fresh = Literals(due)
                self.assertEqual((mine, list(mine), mine[at:to], len(mine)), (fresh, due, due[at:to], len(due)))
                self.assertEqual((mine.indices, mine.bits), (fresh.indices, fresh.bits))
            self.assertEqual((mine + some, some + mine, mine.count(MARK)), (due + some, some + due, due.count(MARK)))
            mine.clear()
            self.assertEqual((mine, len(mine.bits)), ([], 0))

    def test_same(self) -> None:
        mine = Literals([3, MARK])
        self.assertTrue(mine == [3, MARK] and [3, MARK] == mine and mine == Literals([3, MARK]))
        self.assertTrue(mine != [2, MARK] and mine != Literals([2, MARK]) and mine != Literals([3]) and mine != (3, MARK))
        graph = chain(30, 3)
        graph.lock(9)
        for other in [copy.copy(graph), copy.deepcopy(graph), pickle.loads(pickle.dumps(graph)), graph.copy()]:
            self.assertEqual(other, graph)
            other.settle()
            other.lock(8)
            other.nodes.append(0)
            self.assertEqual((graph.nodes, graph.locked), (chain(30, 3).nodes, [9]))

    def test_shown_as_it_is(self) -> None:
        graph = p1()
        nodes, outputs = graph.nodes, graph.outputs
        graph.settle()
        self.assertEqual((nodes, outputs), ([2, 4, 6], [8]))
        nodes[0], outputs[0] = 3, 9
        self.assertEqual((graph, graph.complemented_edges()), (Graph(3, [3, 4, 6], [9]), 2))
        graph.nodes = nodes[:]
        nodes[0] = 2
        self.assertEqual(graph.nodes, [3, 4, 6])

    def test_stray_bits(self) -> None:
        for graph in [Graph(5, [3, 5, 6, 13, 8, 11], [14]), chain(22, 65), chain(43, 1)]:
            for table in (graph.nodes, graph.outputs):
                for place in range(len(table), 64 * len(table.bits)):
                    table.bits[place // 64] |= 1 << place % 64
                    self.all_refused(5, graph, f"bit {place}")
                    table.bits[place // 64] ^= 1 << place % 64
            self.assertEqual(graph.complemented_edges(), sum(bin(word).count("1") for word in graph.nodes.bits + graph.outputs.bits))

    def test_bits_at_marks(self) -> None:
        graph = chain(43, 3)
        for place in range(8, 129, 9):
            self.assertEqual(graph.nodes[place], MARK)
            graph.nodes.bits[place // 64] |= 1 << place % 64
            self.all_refused(5, graph, f"the mark at {place}")
            with self.assertRaises(Refused):
                graph.nodes[place]
            graph.nodes.bits[place // 64] ^= 1 << place % 64
        self.assertEqual(graph, chain(43, 3))

    def test_indices_too_large(self) -> None:
        """Refused with either bit, also where twice the index would wrap to one that is allowed."""
        for index in [2**31 - 2, 2**31 - 1, 2**31, 2**31 + 1, MARK - 1, MARK]:
            for which, place, bit in [(w, p, b) for w, many in [(0, 66), (1, 2)] for p in range(many) for b in (0, 1)]:
                graph = chain(22, 2)
                table = (graph.nodes, graph.outputs)[which]
                table.indices[place] = index
                table.bits[place // 64] = table.bits[place // 64] & ~(1 << place % 64) | bit << place % 64
                if (index, bit, which, place % 3) != (MARK, 0, 0, 2):
                    self.all_refused(5, graph, f"index {index} with bit {bit} at place {place}")
                else:
                    self.assertGreater(graph.complemented_edges(), 0)
                if MARK > index >= 2**31 - 1 or (index, bit) == (MARK, 1):
                    with self.assertRaises(Refused):
                        table[place]
                    self.assertIn(str(index), repr(table))

    def test_too_few_words(self) -> None:
        for graph in [Graph(5, [3, 5, 6, 13, 8, 11], [14]), chain(22, 65), chain(64, 64)]:
            for table in (graph.nodes, graph.outputs):
                last = table.bits.pop()
                self.all_refused(4, graph)
                for call in [lambda: list(table), lambda: table[-1], lambda: table.append(2), lambda: table.__setitem__(-1, 2)]:
                    before = kept(graph)
                    with self.assertRaises(Refused) as caught:
                        call()
                    self.assertEqual((caught.exception.number, kept(graph)), (4, before))
                # Bits that are no graph's are told later, limits before.
                if graph.nodes.bits:
                    graph.nodes.bits[0] = 2**64 - 1
                self.all_refused(4, graph)
                graph.inputs += 4097
                self.all_refused(3, graph)
                graph.inputs -= 4097
                table.bits.append(last)

    def test_words_past_the_last(self) -> None:
        """They change no answer and stay, as long as no literal needs them."""
        for make in [lambda: chain(22, 65), lambda: chain(64, 64), lambda: Graph(2, [], [])]:
            for at in range(len(every_call(make()))):
                short, long = make(), make()
                long.nodes.bits.extend([2**64 - 1, 5])
                long.outputs.bits.append(7)
                told = []
                for graph in (short, long):
                    try:
                        told.append(every_call(graph)[at]())
                    except Refused as refused:
                        told.append(refused.number)
                self.assertEqual((told[0], short), (told[1], long))
                self.assertEqual((list(long.nodes.bits[-2:]), long.outputs.bits[-1]), ([2**64 - 1, 5], 7))
            long.nodes.append(3)
            # A word that is needed now has no bit but the literal's.
            self.assertEqual(long.nodes, Literals(short.nodes + [3]))

    def test_locks_and_nodes(self) -> None:
        """Locks are found again where nodes have come or gone."""
        graph = p1()
        graph.nodes += [3, 5, 8]
        self.assertEqual((graph.is_locked(5), graph.locked), (False, []))
        graph.lock(5)
        graph.nodes += [3, 5, MARK]
        self.assertEqual((graph.locked, graph.complemented_edges()), ([5], 8))
        self.assertEqual(panjerov.load(graph.write()), Graph(3, [3, 5, 7, 3, 5, 8, 3, 5, MARK], [9], [5]))
        del graph.nodes[6:]
        self.assertEqual((graph.node_call(5), graph.locked), ((0, 0), [5]))
        del graph.nodes[3:]
        with self.assertRaises(ValueError):
            graph.settle()
        self.assertEqual(graph.nodes, [3, 5, 7])

    def test_changed_while_given(self) -> None:
        """What a caller gives is looked at before the graph, and may change it; a refusal leaves a graph that may be changed."""
        graph = p1()

        def indices():
            graph.nodes.extend([3, 5, 8] * 50)
            yield 4

        # Four edges are plain then, and fifty readers complemented.
        self.assertEqual((graph.many(indices(), [1]), len(graph.nodes)), (-46, 153))
        self.assertEqual(graph, Graph(3, [2, 4, 6] + [3, 5, 9] * 50, [8]))
        try:
            graph.node_call(3)
        except Refused:
            graph.nodes.append(2)
            graph.outputs.append(2)
            graph.lock(4)
        self.assertEqual((len(graph.nodes), len(graph.outputs)), (154, 2))

    def test_threads(self) -> None:
        """One thread changes indices and lengths while another makes calls: each call is made or raises."""
        graph, done = chain(2000, 9), threading.Event()

        def changes() -> None:
            while not done.is_set():
                graph.nodes.indices[3000] = MARK - 1
                graph.nodes.indices[3000] = 0
                try:
                    graph.nodes.extend([0] * 300)
                except BufferError:
                    pass  # a call is about to be made
                graph.nodes = graph.nodes[:6000]

        thread = threading.Thread(target=changes)
        thread.start()
        told, made, end = set(), 0, time.monotonic() + 20
        # A call that raises takes so little time that the other thread may not come to run between many of them.
        while made < 300 or (0 not in told and time.monotonic() < end):
            made += 1
            try:
                graph.settle()
                told.add(0)
            except (Refused, ValueError) as error:
                told.add(getattr(error, "number", ValueError))
        done.set()
        thread.join()
        self.assertTrue(told <= {0, 4, 5, ValueError} and 0 in told, told)


#: Cases that the tests of the Rust crate read too.
PLACES = ROOT / "rust" / "reducer" / "tests" / "places.txt"
FILES = PLACES.with_name("files.txt")


def case_bytes(written: str) -> bytes:
    """The bytes of a case: a text with its escapes, or hexadecimal."""
    if not written.startswith("aag"):
        return bytes.fromhex(written)
    for escape, sign in [("\\n", "\n"), ("\\r", "\r"), ("\\t", "\t"), ("\\\\", "\\")]:
        written = written.replace(escape, sign)
    return written.encode()


def damaged(whole: bytes) -> list:
    """Cut off at each place, and there with a byte changed, taken out and put in."""
    some = [0, 1, 2, 3, 4, 5, 6, 8, 10, 12, 13, 32, 45, 48, 49, 50, 57, 97, 128, 255]
    files = [whole[:at] for at in range(len(whole))] + [whole[:at] + whole[at + 1 :] for at in range(len(whole))]
    for at, byte in itertools.product(range(len(whole)), some):
        files += [whole[:at] + bytes([byte]) + whole[at + 1 :], whole[:at] + bytes([byte]) + whole[at:]]
    return files


class Places(unittest.TestCase):
    """Where files and texts are refused."""

    def test_sentences(self) -> None:
        cases = [line.split("\t") for line in PLACES.read_text().splitlines() if not line.startswith("#")]
        self.assertGreaterEqual(len(cases), 30)
        for written, due in cases:
            data = case_bytes(written)
            place = panjerov.place_of(data)
            self.assertEqual("none" if place is None else f"{place.number} {place}", due, written)
            if place is not None:
                with self.assertRaises(Refused) as caught:
                    (panjerov.import_aiger if data.startswith(b"aag") else panjerov.load)(data)
                self.assertEqual((caught.exception.number, caught.exception.place), (place.number, place))
                self.assertTrue(str(caught.exception).endswith(f"; {place}"))

    def test_numbers_are_the_library_s(self) -> None:
        locked = Graph(5, [3, 5, 6, 13, 8, 11], [14], [6, 7]).write()
        for call, whole in [(panjerov.load, locked), (panjerov.import_aiger, MAJORITY)]:
            for data in damaged(whole):
                if data.startswith(b"aag") == (call is panjerov.import_aiger):
                    place = panjerov.place_of(data)
                    try:
                        call(data)
                        number = None
                    except Refused as refused:
                        number = refused.number
                    self.assertEqual(place and place.number, number, data)

    def test_kept_by_copies(self) -> None:
        with self.assertRaises(Refused) as caught:
            panjerov.load(b"")
        again = pickle.loads(pickle.dumps(caught.exception))
        self.assertEqual((str(again), again.number, again.place), (str(caught.exception), 1, caught.exception.place))
        with self.assertRaises(Refused) as caught:
            p1().node_call(9)
        self.assertIsNone(caught.exception.place)


def files() -> list:
    """The cases of files.txt: a file, and what is made of it."""
    lines = [line for line in FILES.read_text().splitlines() if not line.startswith("#")]
    return [[column.encode().decode("unicode_escape").encode("latin-1") for column in line.split("\t")] for line in lines]


def symbols(graph: Graph) -> bytes:
    """The names of a graph, as lines of symbols."""
    lines = [f"i{at - 1} {name}\n" for at, name in sorted(graph.input_names.items())]
    return "".join(lines + [f"o{at - 1} {name}\n" for at, name in sorted(graph.output_names.items())]).encode()


def any_aiger(generator: random.Random) -> bytes:
    """A file of AIGER, ASCII or binary, mostly damaged."""
    graph = random_graph(generator)
    graph.input_names = {at: f"x[{at}]" for at in range(1, graph.inputs + 1) if generator.random() < 0.8}
    graph.output_names = {at: "sum" for at in range(1, len(graph.outputs) + 1) if generator.random() < 0.5}
    file = bytearray(graph.export_aiger(generator.random() < 0.5))
    if generator.random() < 0.2 and file.startswith(b"aag"):
        file = bytearray(file.replace(b"\n", b"\r\n"))
    for _ in range(generator.randrange(4)):
        at = generator.randrange(3, len(file))
        some = [bytes([generator.choice(b"0123456789 \n\r\x80\xff\x01io")]), b"", b" 0\n", bytes([file[at] ^ 1])]
        file[at : at + generator.randrange(2)] = generator.choice(some)
    return bytes(file)


class Files(unittest.TestCase):
    """AIGER as tools write it, and names."""

    SYMBOLS = b"i0 x[0]\ni2 cin\no0 sum[2]\n"

    def setUp(self) -> None:
        folder = tempfile.TemporaryDirectory()
        self.addCleanup(folder.cleanup)
        self.folder = Path(folder.name)
        # A warning that no test looks for is a fault.
        caught = warnings.catch_warnings()
        caught.__enter__()
        self.addCleanup(caught.__exit__, None, None, None)
        warnings.simplefilter("error", panjerov.Mended)

    def told(self, call, *words) -> tuple:
        """What a call gives, and what it warns of."""
        with warnings.catch_warnings(record=True) as met:
            warnings.simplefilter("always")
            given = call(*words)
        self.assertTrue(all(one.category is panjerov.Mended and one.filename == __file__ for one in met))
        return given, [str(one.message) for one in met]

    def test_cases(self) -> None:
        """Numbers, layouts, refusals and names, as the Rust crate has them."""
        cases = files()
        self.assertGreaterEqual(len(cases), 50)
        for file, due, *more in cases:
            if due[:1].isdigit():
                with self.assertRaises(Refused) as caught:
                    panjerov.read(file)
                self.assertEqual(f"{caught.exception.number} {caught.exception.place}", due.decode(), file)
                continue
            graph, form, told = panjerov.read(file)
            self.assertEqual((graph, form), (panjerov.import_aiger(due), "aig" if file.startswith(b"aig") else "aiger"), file)
            self.assertEqual([symbols(graph), *(line.encode() for line in told)], more, file)

    def test_as_the_program(self) -> None:
        """Of damaged files what the program says, the graph that it settles, and its names."""
        program = ROOT / "rust" / "reducer" / "target" / "release" / "panjerov"
        if not program.exists():
            self.skipTest("panjerov is not built")
        generator, made = random.Random(34), {f"{at:03}": b"" for at in range(300)}
        for name in made:
            made[name] = any_aiger(generator)
            (self.folder / name).write_bytes(made[name])
        words = [str(program), "class", *made, "-o", "out", "--json"]
        done = subprocess.run(words, capture_output=True, text=True, cwd=self.folder)
        said, accepted = done.stderr.splitlines(), 0
        for row in json.loads(done.stdout)["files"]:
            file = made[row["file"]]
            try:
                graph, _, told = panjerov.read(file)
            except Refused as refused:
                self.assertEqual(row.get("refused"), str(refused), file)
                continue
            accepted += 1
            settled = graph.settle()
            self.assertEqual((row.get("before"), row.get("after")), (settled.before, settled.after), file)
            self.assertEqual([line for line in said if line.startswith(row["file"])], [f"{row['file']}: {line}" for line in told])
            again = panjerov.load_file(self.folder / "out" / row["file"])
            self.assertEqual((again.write(), symbols(again)), (graph.write(), symbols(graph)), file)
        self.assertTrue(75 < accepted < 275, accepted)

    def test_a_long_way_down(self) -> None:
        """Gates from the last to the first, as many as there may be."""
        gates = "".join(f"{2 * at + 2} {2 * at} 1\n" for at in range(100000, 0, -1))
        read = panjerov.read(f"aag 100001 1 0 1 100000\n2\n200002\n{gates}".encode())
        self.assertEqual((read.graph.nodes[-3:], read.graph.outputs, len(read.told)), ([0, 200000, 1], [200002], 1))

    def test_binary_and_back(self) -> None:
        for path in sorted(EXAMPLES.glob("*.aag")):
            graph = panjerov.load_file(path)
            self.assertTrue(graph.input_names and graph.output_names)
            again = panjerov.read(graph.export_aiger(binary=True))
            due = panjerov.import_aiger(graph.export_aiger())
            words = [pow(3, at, 2**64) for at in range(1, graph.inputs + 1)]
            self.assertEqual((again.format, again.told, again.graph.evaluate(words)), ("aig", [], due.evaluate(words)))
            self.assertEqual((symbols(again.graph), len(again.graph.nodes)), (symbols(graph), len(due.nodes)))
        # The first AND of 64 inputs has literal 130; of two constants that is how far below they lie, the lowest seven bits first.
        far = Graph(64, [0, 1, 1], [130])
        self.assertTrue(far.export_aiger(binary=True).startswith(b"aig 68 64 0 1 4\n137\n\x82\x01\x00"))
        # Four ANDs a node: as many as can be read again.
        large = Graph(2, [2, 4, 1] * 25000, [2 * 25002])
        self.assertEqual(len(panjerov.read(large.export_aiger(binary=True)).graph.nodes), 300000)

    def test_names_are_kept(self) -> None:
        graph = panjerov.import_aiger(MAJORITY + self.SYMBOLS + b"c\nby hand\n")
        self.assertEqual((graph.input_names, graph.output_names), ({1: "x[0]", 3: "cin"}, {1: "sum[2]"}))
        self.assertEqual(graph, panjerov.import_aiger(MAJORITY))
        graph.find()
        graph.lock(4)
        graph.settle()
        for one in [graph, graph.copy(), copy.deepcopy(graph), pickle.loads(pickle.dumps(graph))]:
            self.assertEqual(symbols(one), self.SYMBOLS)
        other = graph.copy()
        other.input_names[1] = "y"
        self.assertEqual(graph.input_names[1], "x[0]")
        for name in ["graph", "graph.mig", "graph.AAG", "graph.aig"]:
            graph.save_file(self.folder / name)
            again = panjerov.load_file(self.folder / name)
            self.assertEqual(symbols(again), self.SYMBOLS, name)
            self.assertEqual(again.evaluate([0xF0, 0xCC, 0xAA]), [0xE8])
        self.assertEqual(again.export_aiger()[-len(self.SYMBOLS) :], self.SYMBOLS)
        self.assertNotIn(b"sum", graph.export_aiger(symbols=False) + graph.export_aiger(True, False))
        # Of joined graphs the inputs' names of the first and the outputs' of the second.
        inverter = panjerov.import_aiger(b"aag 1 1 0 1 0\n2\n3\ni0 in\no0 out\n")
        self.assertEqual(symbols(graph.join(inverter)), b"i0 x[0]\ni2 cin\no0 out\n")

    def test_names_beside_a_file(self) -> None:
        """As docs/FORMAT.md has them; those of another graph, or of none, are told and left out."""
        graph, path = p1(), self.folder / "graph"
        graph.input_names, graph.output_names = {1: "x[0]"}, {1: "sum[2]"}
        graph.save_file(path)
        beside = self.folder / "graph.names"
        self.assertIn(f"```text\n{beside.read_text()}```", (ROOT / "docs" / "FORMAT.md").read_text())
        self.assertEqual(panjerov._sum_of(b"a"), b"file af63dc4c8601ec8c\n")
        self.assertEqual((path.read_bytes(), symbols(panjerov.load_file(path))), (p1().write(), b"i0 x[0]\no0 sum[2]\n"))
        for file, names, due in [
            (Graph(3, [3, 5, 6], [9]).write(), beside.read_bytes(), "its names are those of another graph, and are left out"),
            (p1().write(), b"Ann and Bob\n", "it does not begin as a file of names does, and is left out"),
            (p1().write(), beside.read_bytes() + b"i3 y\n", "the name i3 y is left out: there are 3 inputs"),
        ]:
            path.write_bytes(file)
            beside.write_bytes(names)
            again, told = self.told(panjerov.load_file, path)
            self.assertEqual((told, again.write()), ([f"{beside}: {due}"], file))
            self.assertEqual(symbols(again), b"i0 x[0]\no0 sum[2]\n" if b"i3" in names else b"")
        # A graph without names takes away those of the one before, but no other file.
        p1().save_file(path)
        self.assertFalse(beside.exists())
        beside.write_bytes(b"Ann and Bob\n")
        p1().save_file(path)
        self.assertEqual(beside.read_bytes(), b"Ann and Bob\n")
        graph.save_file(path)
        graph.save_file(path, symbols=False)
        self.assertEqual([one.name for one in self.folder.iterdir()], ["graph"])

    def test_what_is_told(self) -> None:
        path = self.folder / "graph.aag"
        path.write_bytes(MAJORITY.replace(b"\n", b"\r\n") + b"l0 q\r\n")
        graph, told = self.told(panjerov.load_file, path)
        due = ["its lines end in carriage returns, which are passed over", "the name l0 q is left out: only inputs and outputs have names here"]
        self.assertEqual((graph, told), (panjerov.import_aiger(MAJORITY), [f"{path}: {line}" for line in due]))
        _, told = self.told(panjerov.import_aiger, MAJORITY + b"i3 y\n")
        self.assertEqual(told, ["the text: the name i3 y is left out: there are 3 inputs"])

    def test_what_is_written(self) -> None:
        """All of a file or nothing; a link stays, and so do the rights of a file."""
        path, link = self.folder / "graph", self.folder / "link"
        path.write_bytes(b"old")
        path.chmod(0o640)
        link.symlink_to("graph")
        p1().save_file(link)
        self.assertTrue(link.is_symlink())
        self.assertEqual((path.read_bytes(), path.stat().st_mode & 0o777), (p1().write(), 0o640))
        Graph(3, [2, 4, 6], [8]).save_file("/dev/null")
        bad = p1()
        bad.nodes[0] = 99
        for call in [lambda: bad.save_file(path), lambda: p1().save_file(self.folder / "out.v"), lambda: p1().save_file(self.folder / "no" / "x")]:
            with self.assertRaises((Refused, ValueError, OSError)):
                call()
        self.assertEqual(path.read_bytes(), p1().write())
        self.assertEqual(sorted(one.name for one in self.folder.iterdir()), ["graph", "link"])

    def test_names_that_do_not_fit(self) -> None:
        """Nothing is written with them."""
        for error, inputs, outputs in [
            (ValueError, {4: "y"}, {}),
            (ValueError, {0: "y"}, {}),
            (ValueError, {}, {2: "y"}),
            (ValueError, {1: ""}, {}),
            (ValueError, {1: "a\nb"}, {}),
            (ValueError, {1: "\x85"}, {}),
            (ValueError, {1: "\ud800"}, {}),
            (TypeError, {1: 5}, {}),
            (TypeError, {"1": "x"}, {}),
        ]:
            graph = p1()
            graph.input_names, graph.output_names = inputs, outputs
            for call in [graph.export_aiger, lambda: graph.save_file(self.folder / "out")]:
                with self.assertRaises(error):
                    call()
            self.assertEqual((list(self.folder.iterdir()), graph.settle().after), ([], 0))


class Users(unittest.TestCase):
    """What makes the module handy."""

    #: The half adder of AIGER's description, in both formats.
    ASCII = b"aag 5 2 0 2 3\n2\n4\n10\n6\n6 4 2\n8 5 3\n10 9 7\n"
    BINARY = b"aig 5 2 0 2 3\n10\n6\n\x02\x02\x03\x02\x01\x02i0 x\nc\nhalf adder\n"

    def test_files(self) -> None:
        half = Graph(2, [0, 4, 2, 0, 5, 3, 0, 9, 7], [10, 6])
        with tempfile.TemporaryDirectory() as folder:
            path = Path(folder) / "graph"
            for data in [half.write(), self.ASCII, self.BINARY]:
                path.write_bytes(data)
                self.assertEqual((panjerov.load_file(path), panjerov.load_file(str(path))), (half, half))
            for data, due in [
                (self.BINARY[:23], "refused 10: .*; byte 23, gate 3 of 3: the file ends within it"),
                (self.BINARY[:19] + b"\0\2", "refused 5: .*; byte 19, gate 1 of 3: its words lie 0 and then 2 below its literal 6, which"),
                (b"aig 5 2 1 2 2\n", "refused 11: .*; line 1, the header: it says 1 latch; make each an input and an output first"),
                (b"aig 5 2 0 2 3\r\n", "refused 10: .*; line 1, the header: .* and a carriage return ends it"),
                (b"\x1f\x8b\x08\0", "refused 2: .*; byte 0, the head: it is compressed: unpack it by gunzip first"),
                (b"", "refused 1: .*; byte 0, the head: 0 bytes left, and the head of a field has 3"),
            ]:
                path.write_bytes(data)
                with self.assertRaisesRegex(Refused, due):
                    panjerov.load_file(path)
            with self.assertRaises(FileNotFoundError):
                panjerov.load_file(Path(folder) / "none")
        for path in EXAMPLES.glob("*.aag"):
            self.assertEqual(panjerov.load_file(path), panjerov.import_aiger(path.read_bytes()))

    def test_roots(self) -> None:
        # Node 4 is read by an output and by node 6, node 5 by node 6 alone, twice; node 7 by node 8 alone; nothing reads node 8.
        graph = Graph(3, [3, 5, 7, 3, 5, MARK, 10, 8, 11, 2, 4, 6, 14, 2, 4], [9, 12])
        self.assertEqual(graph.roots(), [4, 5, 6, 8])
        generator = random.Random(11)
        for _ in range(200):
            graph = random_graph(generator)
            due = []
            for index in range(graph.inputs + 1, graph.inputs + 1 + len(graph.nodes) // 3):
                try:
                    graph.preview(index)
                    due.append(index)
                except Refused as refused:
                    self.assertEqual(refused.number, 7)
            self.assertEqual(graph.roots(), due)
        with self.assertRaises(Refused):
            Graph(1, [9, 9, 9], []).roots()

    def test_one_line(self) -> None:
        self.assertEqual(repr(p1()), "Graph(3, [3, 5, 7], [9])")
        graph = chain(1000, 5)
        graph.lock(7)
        self.assertEqual(repr(graph), "<Graph: 2 inputs, 1000 nodes, 5 outputs, 1 locked>")

    def test_svg(self) -> None:
        if shutil.which("dot") is None:
            self.skipTest("Graphviz is not there")
        graph = Graph(3, [3, 5, 7, 8, 1, MARK], [11, 0], [4])
        svg = graph._repr_svg_()
        self.assertTrue(svg.startswith("<svg") and svg.rstrip().endswith("</svg>"))
        # A dot at each complemented edge is filled black; the constant's circles are not.
        self.assertEqual(svg.count('<ellipse fill="black"'), graph.complemented_edges())
        for label in ["input 3", "majority 4", "XOR 5", "output 2"]:
            self.assertIn(f">{label}<", svg)
        self.assertIsNone(chain(1000, 5)._repr_svg_())
        path = os.environ["PATH"]
        try:
            os.environ["PATH"] = ""
            self.assertIsNone(graph._repr_svg_())
        finally:
            os.environ["PATH"] = path

    def test_node_calls_cost_what_they_cost_in_c(self) -> None:
        """Of 100,000 nodes: at most twice the time, each at its best of many."""
        generator = random.Random(3)
        words = [generator.randrange(2 * (1000 + at // 3)) for at in range(300000)]
        graph = Graph(1000, words, [2 * 101000])
        lines = [
            "#define _POSIX_C_SOURCE 199309L",
            "#include <stdio.h>",
            "#include <time.h>",
            '#include "reducer.h"',
            "static uint8_t file[REDUCER_FILE_BYTES(100000, 1)], locks[100000];",
            "static uint32_t nodes[300000], outputs[1], numbers[3];",
            "static uint64_t bits[REDUCER_BIT_WORDS(300000)], output_bits[1];",
            "int main(void) {",
            "    size_t length = fread(file, 1, sizeof file, stdin);",
            "    double best = 1e9;",
            "    if (reducer_load(file, length, nodes, 300000, bits, REDUCER_BIT_WORDS(300000), outputs, 1, output_bits, 1, locks, 100000, numbers))",
            "        return 1;",
            "    for (int k = 0; k < 200; k++) {",
            "        struct timespec a, b;",
            "        int64_t saving[2];",
            "        clock_gettime(CLOCK_MONOTONIC, &a);",
            "        reducer_node(1000, 100000, 1, nodes, 300000, bits, REDUCER_BIT_WORDS(300000), outputs, 1, output_bits, 1, locks, 100000, 51000, saving);",
            "        clock_gettime(CLOCK_MONOTONIC, &b);",
            "        double took = 1e9 * (double)(b.tv_sec - a.tv_sec) + (double)(b.tv_nsec - a.tv_nsec);",
            "        if (took < best) best = took;",
            "    }",
            '    printf("%.0f", best);',
            "    return 0;",
            "}",
        ]
        in_c = float(run_c("\n".join(lines) + "\n", graph.write())) / 1e9
        here = []
        for _ in range(200):
            start = time.perf_counter()
            graph.node_call(51000)
            here.append(time.perf_counter() - start)
        self.assertLess(min(here), 2 * in_c)


def run_c(source: str, given: bytes = b"") -> str:
    """What a program in C prints."""
    with tempfile.TemporaryDirectory() as folder:
        file, program, library = Path(folder) / "program.c", Path(folder) / "program", ROOT / "crates" / "reducer" / "out" / "libreducer.a"
        file.write_text(source)
        words = ["gcc", "-O2", "-std=c99", "-Wall", "-Wextra", "-pedantic", "-Werror", f"-I{ROOT / 'include'}"]
        subprocess.run([*words, str(file), str(library), "-o", str(program)], check=True)
        return subprocess.run([str(program)], check=True, capture_output=True, input=given).stdout.decode()


class Header(unittest.TestCase):
    """What include/reducer.h gives a caller in C."""

    def test_why(self) -> None:
        """The sentences are those that Python says, and docs/REFUSALS.md lists."""
        numbers = [*range(20), 101, 102, 105, 20]
        calls = "".join(f"puts(reducer_why({number}));" for number in numbers)
        told = run_c(f'#include <stdio.h>\n#include "reducer.h"\nint main(void) {{ {calls} return 0; }}\n').splitlines()
        due = [panjerov._WHY.get(number, "there is no such number") for number in numbers]
        self.assertEqual(told, ["it is accepted", *due[1:]])
        rows = [line.split(" | ")[1] for line in (ROOT / "docs" / "REFUSALS.md").read_text().splitlines() if line.startswith("| ")]
        self.assertEqual(rows[1:], told[:20])

    def run_c(self, source: Path) -> str:
        with tempfile.TemporaryDirectory() as folder:
            program, library = Path(folder) / "program", ROOT / "crates" / "reducer" / "out" / "libreducer.a"
            words = ["gcc", "-std=c99", "-Wall", "-Wextra", "-pedantic", "-Werror", f"-I{ROOT / 'include'}"]
            subprocess.run([*words, str(source), str(library), "-o", str(program)], check=True)
            return subprocess.run([str(program)], check=True, capture_output=True, text=True).stdout

    def test_example(self) -> None:
        told = "before 4 after 0 rounds 2\nown 3 others 1\nnode 2 4 6 out 8\n"
        self.assertEqual(self.run_c(EXAMPLES / "settle_p1.c"), told)

    def test_literals(self) -> None:
        """Set and read at places of two words, over bits that were set before."""
        lines = [
            "#include <stdio.h>",
            '#include "reducer.h"',
            "int main(void) {",
            "    uint32_t table[66] = {0};",
            "    uint64_t bits[REDUCER_BIT_WORDS(66)] = {UINT64_MAX, 0};",
            "    const uint32_t set[6][2] = {{0, 8}, {1, REDUCER_MARK}, {2, 4294967293u}, {63, 6}, {64, 5}, {65, REDUCER_MARK}};",
            "    for (int k = 0; k < 6; k++) reducer_set_literal(table, bits, set[k][0], set[k][1]);",
            '    for (int k = 0; k < 6; k++) printf("%u ", (unsigned)reducer_literal(table, bits, set[k][0]));',
            '    printf("%u %u %u ", (unsigned)table[1], (unsigned)table[2], (unsigned)table[64]);',
            '    printf("%llx %llx ", (unsigned long long)bits[0], (unsigned long long)bits[1]);',
            '    printf("%d %d %d", (int)REDUCER_BIT_WORDS(0), (int)REDUCER_BIT_WORDS(64), (int)REDUCER_BIT_WORDS(300000));',
            "    return 0;",
            "}",
        ]
        with tempfile.TemporaryDirectory() as folder:
            source = Path(folder) / "literals.c"
            source.write_text("\n".join(lines) + "\n")
            told = self.run_c(source)
        literals = f"8 {MARK} 4294967293 6 5 {MARK}"
        self.assertEqual(told, f"{literals} {MARK} 2147483646 2 7ffffffffffffffc 1 0 1 4688")


if __name__ == "__main__":
    unittest.main()
