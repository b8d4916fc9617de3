"""The inversion reducer for majority and XOR graphs, for Python.

    import panjerov
    graph = panjerov.load_file("graph")
    print(graph.evaluate([0xF0, 0xCC, 0xAA]))
    print(graph.settle())
    graph.save_file("settled")

load_file takes a tagged file or AIGER as tools write it, binary or ASCII, with the names of inputs and outputs, and Graph.save_file writes
either; read, load, import_aiger, Graph.write and Graph.export_aiger do the same with bytes. Graph.lock locks a node that is laid out
already: no call turns it, and its file says so. Graph.many makes moves that the caller has chosen, all of them or none.
Graph.find finds the majorities that and-inverter tools have hidden in ANDs, and Graph.majority makes a node one. Graph.resistive_call
chooses a tree's moves for memories of resistive cells, which want majorities with just one complemented input. A Class settles graphs
one after another and sums up their figures. Graph.compare tells the moves that lead from one graph to another.
Graph.assignment_for finds the least assignment that gives a wanted output pattern. Graph.join puts two graphs together, the outputs of
one driving the inputs of the other.

Every call is one of the proved library's. A call that cannot be made raises: Refused, with the number of the refusal and of a file the
place, where the library refuses it; TypeError or ValueError where an argument is not of the kind that the library takes. Either way
nothing has changed.

A graph keeps its tables as the library takes them, and Graph.nodes and Graph.outputs show them as lists of literals (Literals), so
that no call copies a table. While a call is made, no other thread of the program runs.

An installed module has the library beside it; in the repository it is linked, at the first import, from
crates/reducer/out/libreducer.a, which `rt lib` in crates/reducer writes.
"""

from __future__ import annotations

import ctypes
import enum
import operator
import os
import re
import shutil
import subprocess
import threading
import warnings
from array import array
from collections import Counter
from collections.abc import MutableSequence
from pathlib import Path
from typing import Dict, Iterable, Iterator, List, NamedTuple, Optional, Sequence, Set, Tuple, Type, Union

__all__ = [
    "Class", "Compared", "Difference", "Figures", "Graph", "Literals", "Majority", "Mended", "Place", "Preview", "Read", "Refused", "Saving",
    "Settled", "Told", "load", "load_file", "read", "import_aiger", "field", "place_of", "replay",
    "NODE", "PAIR", "TREE", "SETTLE", "MANY", "MAJORITY", "FIND", "RESISTIVE",
    "MARK", "MOST_INPUTS", "MOST_NODES", "MOST_OUTPUTS", "MOST_GRAPHS", "MOST_SEARCHED", "CLASS_WORDS",
]

#: The version, which rust/reducer/Cargo.toml has too.
__version__ = "0.1.0"

#: The third literal of an XOR node, and its third index.
MARK = 4294967295
#: The kinds of calls in a list.
NODE, PAIR, TREE, SETTLE, MANY, MAJORITY, FIND, RESISTIVE = range(8)
#: Limits of a graph.
MOST_INPUTS = 4096
MOST_NODES = 100000
MOST_OUTPUTS = 4096
#: The most graphs of a class, and the words of its record.
MOST_GRAPHS = 1000
CLASS_WORDS = 86
#: The most inputs for which an assignment is looked for.
MOST_SEARCHED = 16

_WHY = {
    1: "the bytes end within a field",
    2: "a field has not the tag or the length that is due",
    3: "there are too many inputs, nodes, outputs or graphs of a class",
    4: "a table or a slice of locks, inputs, results or moves is too short",
    5: "a literal names an index that is not allowed there",
    6: "there are bytes after the end field",
    7: "there is no such node, root or word",
    8: "the scratch is too short",
    9: "the buffer is too short",
    10: "the header has no \"aag\", or a line lacks its decimal numbers",
    11: "there are latches",
    12: "M is not I + A, or inputs or gate numbers do not rise by 2 from literal 2",
    13: "a lock byte is above 1, or a lock of a file is at no node or not above the one before",
    14: "an index of the list is not above the one before",
    15: "a node of this kind has no such move",
    16: "a move other than 0 is at a locked node",
    17: "there are more than 16 inputs",
    18: "a wanted byte is above 2",
    19: "the first graph's outputs and the second's inputs differ in number",
    101: "words of the list are left over: they are not three a call",
    102: "a call of the list has a kind that is none",
    105: "a many call's part, or a majority call's triple, reaches past the end of the list",
}


class Place(NamedTuple):
    """Where a file or a text is refused: the number, the line of a text, counted from 1, or the byte of a file, counted from 0, where the field
    at fault begins, which field or line that is, as "node 17 of 40", and what stands there and what is due."""

    number: int
    line: Optional[int]
    byte: Optional[int]
    field: str
    why: str

    def __str__(self) -> str:
        at = f"byte {self.byte}" if self.line is None else f"line {self.line}"
        return f"{at}, {self.field}: {self.why}"


class Refused(Exception):
    """A call that the library refuses. `number` is 1 to 19, or 102 or 105 of a replay, and `place` where a file is refused; nothing has
    changed."""

    def __init__(self, number: int, place: Optional[Place] = None) -> None:
        at = "" if place is None else f"; {place}"
        super().__init__(f"refused {number}: {_WHY.get(number, 'for no known cause')}{at}")
        self.number, self.place = number, place

    def __reduce__(self):
        return Refused, (self.number, self.place)


class Mended(UserWarning):
    """That something was put right or left out as a file was read."""


class Saving(NamedTuple):
    """What a call saves in complemented edges: own among the words of the nodes that it names (the node, both of a pair, all of a
    tree), others among all other edges. Either may be below 0."""

    own: int
    others: int

    @property
    def total(self) -> int:
        """What it saves among all edges."""
        return self.own + self.others


class Settled(NamedTuple):
    """What settling answers: the rounds made, the complemented edges before and after, and the sums of what its calls saved, each
    among the words of the nodes that it names and among all other edges."""

    rounds: int
    before: int
    after: int
    own: int
    others: int


class Figures(NamedTuple):
    """What the record of a class tells of its graphs: how many there are, the sums of complemented edges before and after settling, of rounds,
    and of cells before and after (13 an inverter, 5 a majority, 12 an XOR), by how much the complemented edges fell, and of how many."""

    graphs: int
    before: int
    after: int
    rounds: int
    cells_before: int
    cells_after: int
    fall: int
    total_before: int


class Majority(enum.Enum):
    """What a majority call answers: the node is made one majority of the three; its value over them is none's; or some way from it
    down to an input misses all three. The last two have changed nothing."""

    MADE = 0
    NOT_MAJORITY = 1
    NOT_COVERED = 2


class Difference(enum.Enum):
    """Where no moves lead from a graph to another: in a size (0 inputs, 1 nodes, 2 outputs), in the index at a place of the node table (another
    wiring or kind) or of the output table, or in the complement bit at a place of either, which no moves explain."""

    SIZE = 1
    NODE_INDEX = 2
    OUTPUT_INDEX = 3
    NODE_BIT = 4
    OUTPUT_BIT = 5


class Compared(NamedTuple):
    """What a comparison tells: the moves that lead from the first graph to the second, a byte a node by rising index, or None with the first
    difference and its place."""

    moves: Optional[bytes]
    difference: Optional[Difference] = None
    place: int = 0


class Preview(NamedTuple):
    """What a tree call would save, and a byte a node by rising index: its move there, and 0 outside the tree and at locked nodes."""

    saving: Saving
    moves: bytes


class Told(NamedTuple):
    """What a call of a list answers: 0 or the number that refuses it, and what it saves, where many moves save it all as own. Of an
    accepted majority call it is the Majority instead, and of the finder the number of nodes after it."""

    number: int
    answer: Union[Saving, Majority, int]


#: Where an installed module has its library.
_BESIDE = Path(__file__).resolve().with_name("libreducer.so")
_ROOT = Path(__file__).resolve().parent.parent
_ARCHIVE = _ROOT / "crates" / "reducer" / "out" / "libreducer.a"
_SHARED = _ROOT / "target" / "python" / "libreducer.so"


def _link() -> Path:
    """The shared object: the one beside the module, or one that is linked anew where the static library is younger."""
    if _BESIDE.exists():
        return _BESIDE
    if not _ARCHIVE.exists():
        raise ImportError(f"there is no {_ARCHIVE}: run `rt lib` in the repository's crates/reducer first")
    if not _SHARED.exists() or _SHARED.stat().st_mtime < _ARCHIVE.stat().st_mtime:
        _SHARED.parent.mkdir(parents=True, exist_ok=True)
        # Linked beside and renamed, so that two imports at once do not meet half a file.
        beside = _SHARED.with_name(f"libreducer.{os.getpid()}.so")
        words = ["gcc", "-shared", "-o", str(beside), "-Wl,--whole-archive", str(_ARCHIVE), "-Wl,--no-whole-archive"]
        try:
            subprocess.run(words, check=True, capture_output=True, text=True)
        except FileNotFoundError:
            raise ImportError("gcc is needed to link the library, and is not there") from None
        except subprocess.CalledProcessError as error:
            raise ImportError(f"the library could not be linked:\n{error.stderr}") from None
        os.replace(beside, _SHARED)
    return _SHARED


# By PyDLL no other thread runs during a call: what a call has tested in a table must stay so until it is done.
_library = ctypes.PyDLL(str(_link()))

_U32 = ctypes.c_uint32
_U64 = ctypes.c_uint64
_I64 = ctypes.c_int64
_SIZE = ctypes.c_size_t
_WORDS = [ctypes.c_void_p, _SIZE]
_TABLES = _WORDS * 5
_GRAPH = [_U32, _U32, _U32] + _TABLES


def _function(name: str, arguments: list):
    function = getattr(_library, name)
    function.argtypes = arguments
    function.restype = _U32
    return function


_field = _function("reducer_field", _WORDS + [ctypes.c_void_p])
_load = _function("reducer_load", _WORDS + _TABLES + [ctypes.c_void_p])
_write = _function("reducer_write", _GRAPH + _WORDS + [ctypes.c_void_p])
_import = _function("reducer_import", _WORDS + _TABLES + [ctypes.c_void_p])
_export = _function("reducer_export", _GRAPH + _WORDS * 2 + [ctypes.c_void_p])
_join = _function("reducer_join", _GRAPH * 2 + _TABLES + [ctypes.c_void_p])
_evaluate = _function("reducer_evaluate", _GRAPH + _WORDS * 3)
_assignment = _function("reducer_assignment", _GRAPH + _WORDS * 2 + [ctypes.c_void_p])
_count = _function("reducer_count", _GRAPH + [ctypes.c_void_p])
_node = _function("reducer_node", _GRAPH + [_U32, ctypes.c_void_p])
_pair = _function("reducer_pair", _GRAPH + [_U32, _U32, ctypes.c_void_p])
_trial = _function("reducer_trial", _GRAPH + [_U32] * 4 + [ctypes.c_void_p])
_tree = _function("reducer_tree", _GRAPH + [_U32] + _WORDS + [ctypes.c_void_p])
_preview = _function("reducer_preview", _GRAPH + [_U32] + _WORDS * 2 + [ctypes.c_void_p])
_resistive = _function("reducer_resistive", _GRAPH + [_U32] + _WORDS + [ctypes.c_void_p])
_settle = _function("reducer_settle", _GRAPH + _WORDS + [ctypes.c_void_p] * 2)
_class = _function("reducer_class", _GRAPH + _WORDS * 2 + [ctypes.c_void_p] * 2)
_class_figures = _function("reducer_class_figures", _WORDS + [_U32] + [ctypes.c_void_p] * 2)
_many = _function("reducer_many", _GRAPH + _WORDS * 2 + [ctypes.c_void_p])
_compare = _function("reducer_compare", _GRAPH * 2 + _WORDS + [ctypes.c_void_p])
_majority = _function("reducer_majority", _GRAPH + [_U32] * 4 + _WORDS + [ctypes.c_void_p])
_find = _function("reducer_find", _GRAPH + _WORDS + [ctypes.c_void_p])
_replay = _function("reducer_replay", _WORDS * 2 + _TABLES + _WORDS * 4 + [ctypes.c_void_p])


def _number(value: int, bits: int, what: str) -> int:
    """value as an int, if it is a whole number of so many bits: an int, or what counts as one."""
    try:
        if isinstance(value, bool):
            raise TypeError
        number = operator.index(value)
    except TypeError:
        raise TypeError(f"{what} must be an int, and is a {type(value).__name__}") from None
    if not 0 <= number < 1 << bits:
        raise ValueError(f"{what} must be from 0 to {(1 << bits) - 1}, and is {number}")
    return number


def _array(kind: Type, length: int):
    """So many zeros. An array of length 0 has an element too, so that its address is one."""
    return (kind * max(length, 1))()


def _numbers(values: Iterable[int], kind: Type, what: str):
    """The values as an array of the kind, and how many they are."""
    bits = 8 * ctypes.sizeof(kind)
    if isinstance(values, (str, bytes, bytearray)):
        raise TypeError(f"{what} must be a sequence of ints, and is a {type(values).__name__}")
    checked = [_number(value, bits, f"each of {what}") for value in values]
    words = _array(kind, len(checked))
    words[: len(checked)] = checked
    return words, len(checked)


def _bytes(value: bytes, what: str) -> Tuple[bytes, int]:
    """The bytes, and how many they are."""
    if not isinstance(value, (bytes, bytearray, memoryview)):
        raise TypeError(f"{what} must be bytes, and is a {type(value).__name__}")
    value = bytes(value)
    return value, len(value)


def _moves(values: Union[bytes, Iterable[int]]):
    """Moves, given as bytes or as numbers of a byte each, and how many they are."""
    if isinstance(values, (bytes, bytearray, memoryview)):
        return _bytes(values, "moves")
    return _numbers(values, ctypes.c_uint8, "moves")


def _wanted(values: Union[str, bytes, Iterable[int]]):
    """A wanted byte an output, given as text of 0, 1 and x, as bytes or as numbers, and how many they are."""
    if isinstance(values, str):
        if not set(values) <= set("01xX"):
            raise ValueError(f"wanted must be of 0, 1 and x, and is {values!r}")
        values = bytes("01x".index(sign) for sign in values.lower())
    if isinstance(values, (bytes, bytearray, memoryview)):
        return _bytes(values, "wanted")
    return _numbers(values, ctypes.c_uint8, "wanted")


# What an empty array is lent as, since it has no address.
_NOWHERE = _array(_U64, 1)


def _lend(words: array) -> list:
    """Where the words stand, and how many they are. As long as this is there, the array stays where it is: it cannot grow."""
    return [ctypes.byref(ctypes.c_char.from_buffer(words)), len(words)] if words else [_NOWHERE, 0]


def _call(function, *arguments) -> None:
    """Makes a call of the library. Each array among the arguments is lent as it is. Whatever a caller gave has been looked at before,
    so that nothing of the caller's runs while arrays are lent."""
    lent = []
    for argument in arguments:
        lent += _lend(argument) if isinstance(argument, array) else [argument]
    number = function(*lent)
    # A traceback would keep them.
    lent.clear()
    if number != 0:
        raise Refused(number)


class Literals(MutableSequence):
    """Literals, as a list of ints that the library takes as it is kept.

    A literal is 2 * index, plus 1 if it is complemented; MARK stands for itself. `indices` is an array with a word of 32 bits a
    literal, its index or MARK, and `bits` one with the complement bits in words of 64: that of place j at bit j % 64 of word j // 64,
    0 at a mark and past the last. Both may be changed, but a call on what is no graph is refused; reading a literal then raises
    Refused too, by 4 where there is no word for its bit, by 5 where there is no such literal.
    """

    __slots__ = ("_indices", "_bits", "_what")

    def __init__(self, values: Iterable[int] = (), what: str = "literals") -> None:
        self._what = what
        if isinstance(values, Literals):
            self._indices, self._bits = values._indices[:], values._bits[:]
        else:
            self._fill(self._checked(values))

    @classmethod
    def _blank(cls, length: int, what: str) -> "Literals":
        """So many literals of the constant."""
        blank = cls((), what)
        blank._indices, blank._bits = array("I", bytes(4 * length)), array("Q", bytes(8 * ((length + 63) // 64)))
        return blank

    @property
    def indices(self) -> array:
        """The indices, as they are lent."""
        return self._indices

    @property
    def bits(self) -> array:
        """The words of complement bits, as they are lent."""
        return self._bits

    def _words(self) -> int:
        """How many words the bits have."""
        return (len(self._indices) + 63) // 64

    def _checked(self, values: Iterable[int]) -> List[int]:
        what = f"each of {self._what}"
        return [_number(value, 32, what) for value in values]

    def _fill(self, literals: List[int]) -> None:
        indices = array("I", [literal if literal == MARK else literal >> 1 for literal in literals])
        bits = array("Q", bytes(8 * ((len(literals) + 63) // 64)))
        for place, literal in enumerate(literals):
            if literal & 1 and literal != MARK:
                bits[place >> 6] |= 1 << (place & 63)
        self._indices, self._bits = indices, bits

    def _at(self, place: int) -> int:
        index, word = self._indices[place], place >> 6
        if word >= len(self._bits):
            raise Refused(4)
        bit = self._bits[word] >> (place & 63) & 1
        if index == MARK and not bit:
            return MARK
        if index >= MARK // 2:
            raise Refused(5)
        return 2 * index + bit

    def _read(self, places: Iterable[int]) -> List[int]:
        indices, bits = self._indices, self._bits
        if len(bits) < self._words():
            return [self._at(place) for place in places]
        # What is an edge is read here, since there may be many.
        return [
            2 * indices[place] + (bits[place >> 6] >> (place & 63) & 1) if indices[place] < MARK // 2 else self._at(place)
            for place in places
        ]

    def _set(self, place: int, literal: int) -> None:
        word, bit = place >> 6, 1 << (place & 63)
        if word >= len(self._bits):
            raise Refused(4)
        odd = literal & 1 and literal != MARK
        self._indices[place] = literal if literal == MARK else literal >> 1
        self._bits[word] = self._bits[word] | bit if odd else self._bits[word] & ~bit

    def _place(self, at: int) -> int:
        """The place of this number, which counts from the end where it is below 0."""
        number = operator.index(at)
        place = number + len(self) if number < 0 else number
        if not 0 <= place < len(self):
            raise IndexError(f"there are {len(self)} {self._what}, and none at {number}")
        return place

    def __len__(self) -> int:
        return len(self._indices)

    def __iter__(self) -> Iterator[int]:
        return iter(self._read(range(len(self))))

    def __getitem__(self, at):
        if isinstance(at, slice):
            return self._read(range(*at.indices(len(self))))
        return self._at(self._place(at))

    def __setitem__(self, at, value) -> None:
        if isinstance(at, slice):
            given, literals = self._checked(value), list(self)
            literals[at] = given
            self._fill(literals)
        else:
            (literal,) = self._checked([value])
            self._set(self._place(at), literal)

    def __delitem__(self, at) -> None:
        literals = list(self)
        del literals[at]
        self._fill(literals)

    def insert(self, at: int, value: int) -> None:
        """Puts a literal before the place of this number."""
        (literal,), end = self._checked([value]), len(self)
        if operator.index(at) < end:
            literals = list(self)
            literals.insert(at, literal)
            self._fill(literals)
            return
        if len(self._bits) < self._words():
            raise Refused(4)
        if end % 64 == 0:
            self._bits[end // 64 : end // 64 + 1] = array("Q", [0])
        self._indices.append(0)
        self._set(end, literal)

    def _cut(self, length: int) -> None:
        """Leaves the first so many literals, those behind them being 0, and what stands behind the words of bits."""
        words, left = self._words(), (length + 63) // 64
        del self._indices[length:]
        del self._bits[left:words]

    def clear(self) -> None:
        """Leaves no literal."""
        self._fill([])

    def __add__(self, other: Iterable[int]) -> List[int]:
        return list(self) + list(other)

    def __radd__(self, other: Iterable[int]) -> List[int]:
        return list(other) + list(self)

    def __eq__(self, other: object) -> bool:
        if isinstance(other, Literals):
            words = self._words()
            return self._indices == other._indices and self._bits[:words] == other._bits[:words]
        return list(self) == other if isinstance(other, list) else NotImplemented

    def __repr__(self) -> str:
        try:
            return repr(list(self))
        except Refused:
            return f"<no literals: indices {list(self._indices)}, bits {list(self._bits)}>"


def _said(file: bytes, at: int) -> int:
    """What the head of a file says at this place; 0 where the file is too short to say it."""
    return int.from_bytes(file[at : at + 4], "big") if len(file) >= at + 4 else 0


class _Tables(NamedTuple):
    """A graph but for its numbers."""

    nodes: Literals
    outputs: Literals
    locks: array

    def arrays(self) -> list:
        """What is lent of it, in that order."""
        return [self.nodes.indices, self.nodes.bits, self.outputs.indices, self.outputs.bits, self.locks]


def _tables(nodes: int, outputs: int) -> _Tables:
    """Tables and locks with room for so many nodes and outputs, at most the limits."""
    count, ends = min(nodes, MOST_NODES), min(outputs, MOST_OUTPUTS)
    return _Tables(Literals._blank(3 * count, "nodes"), Literals._blank(ends, "outputs"), array("B", bytes(count)))


def _graph(inputs: int, tables: _Tables) -> "Graph":
    """The graph that an accepted call has left in tables and locks."""
    graph = Graph(inputs, (), ())
    graph._nodes, graph._outputs, graph._locks = tables
    return graph


def _room(file: bytes) -> _Tables:
    """Tables and locks with room for what the head says."""
    return _tables(_said(file, 7), _said(file, 11))


def _text_room(text: bytes) -> _Tables:
    """Tables and locks with room for what the header says. A line that is longer is no header that is accepted."""
    words = text[:64].split(b"\n")[0].split(b" ")
    said = [int(word) if word.isdigit() else 0 for word in words]
    return _tables(said[5], said[4]) if len(said) == 6 else _tables(0, 0)


def field(data: bytes) -> bytes:
    """The payload of the field at the front of the bytes."""
    data, length = _bytes(data, "data")
    payload = (_SIZE * 2)()
    _call(_field, data, length, payload)
    return data[payload[0] : payload[0] + payload[1]]


class _Fault(Exception):
    """A fault that a reader here has found, with its place."""

    def __init__(self, place: Place) -> None:
        super().__init__(str(place))
        self.place = place


def _told_many(many: int, what: str) -> str:
    """One byte, two bytes."""
    return f"{many} {what}{'' if many == 1 else 's'}"


def _over_limit(inputs: int, nodes: int, outputs: int, node: str) -> Optional[str]:
    """What of I, N and O is over its limit, in words."""
    limits = [(inputs, "input", MOST_INPUTS), (nodes, node, MOST_NODES), (outputs, "output", MOST_OUTPUTS)]
    return next((f"it says {many} {what}s, and {most} are the most" for many, what, most in limits if many > most), None)


def _too_high(literal: int, what: str, highest: int) -> str:
    return f"{what} is literal {literal}, which names index {literal // 2}, and {highest} is the highest allowed there"


#: What makes AIGER of Verilog, of BLIF and of abc's compact form, and what unpacks files that begin so.
_VERILOG = (
    "it looks like Verilog, of which yosys makes AIGER: "
    'yosys -p "read_verilog FILE.v; synth -auto-top -flatten; aigmap; opt_clean; write_aiger -symbols NEW.aig"'
)
_BLIF = (
    "it looks like BLIF, of which berkeley-abc makes AIGER: "
    'berkeley-abc -c "read_blif FILE.blif; strash; write_aiger -s NEW.aig"'
)
_COMPACT = (
    "it is AIGER in the compact form of berkeley-abc alone, of which that makes AIGER: "
    'berkeley-abc -c "read_aiger OLD.aig; write_aiger -s NEW.aig"'
)
_PACKED = {
    b"\x1f\x8b": "gunzip", b"BZh": "bunzip2", b"\xfd7zXZ": "unxz", b"\x28\xb5\x2f\xfd": "unzstd", b"PK\x03\x04": "unzip",
}


def _first_word(text: str, *comments: str) -> str:
    """The first word of a text, past blank lines and comments of these beginnings."""
    lines = (line.lstrip() for line in text.split("\n"))
    said = next((line for line in lines if line and not line.startswith(comments)), "")
    return re.match(r"[0-9A-Za-z.`_]*", said)[0]


def _looks_like(data: bytes) -> Optional[str]:
    """What bytes are that are neither a tagged file nor AIGER, and what to run first; None where they are nothing known."""
    program = next((program for begin, program in _PACKED.items() if data.startswith(begin)), None)
    if program:
        return f"it is compressed: unpack it by {program} first"
    if data.startswith(b"aig2 "):
        return _COMPACT
    text = data[:4096].decode(errors="replace")
    if _first_word(text, "#") in (".model", ".inputs", ".names"):
        return _BLIF
    verilog = _first_word(text, "//", "/*", "*", "(*")
    return _VERILOG if verilog in ("module", "`timescale", "`default_nettype", "`include", "`define") else None


class _FileReader:
    """Finds the place where a tagged file is refused."""

    LENGTHS = {1: 12, 2: 12, 3: 8, 4: 4, 5: 0, 6: 4}

    #: Where the library refuses what this reader goes past, which is nowhere.
    strict = None

    def __init__(self, file: bytes) -> None:
        self.file, self.at, self.field = file, 0, ""

    def fault(self, number: int, why: str) -> _Fault:
        return _Fault(Place(number, None, self.at, self.field, why))

    def short(self, due: int, what: str) -> _Fault:
        return self.fault(1, f"{_told_many(len(self.file) - self.at, 'byte')} left, and {what} has {due}")

    def next(self, field: str, *due: int) -> Tuple[int, List[int]]:
        """The tag and the numbers of the field that is next, one of these tags being due; the place goes past it with the next."""
        self.field = field
        head = self.file[self.at : self.at + 3]
        if len(head) < 3:
            raise self.short(3, "the head of a field")
        tag, length = head[0], 256 * head[1] + head[2]
        if tag not in due or length != self.LENGTHS[tag]:
            wanted = " or ".join(f"{one:02x} of length {self.LENGTHS[one]}" for one in due)
            other = _looks_like(self.file) if self.at == 0 else None
            raise self.fault(2, other or f"tag {tag:02x} of length {length} stands there, and {wanted} is due")
        payload = self.file[self.at + 3 : self.at + 3 + length]
        if len(payload) < length:
            raise self.short(3 + length, "the field")
        return tag, [int.from_bytes(payload[at : at + 4], "big") for at in range(0, length, 4)]

    def words(self, highest: int, words: List[int], alone: bool) -> None:
        """Tests the literals of a field, and goes past it."""
        for at, literal in enumerate(words, 1):
            if literal // 2 > highest:
                raise self.fault(5, _too_high(literal, "it" if alone else f"word {at} of node {highest + 1}", highest))
        self.at += 3 + 4 * len(words)

    def locks(self, inputs: int, nodes: int) -> None:
        last = None
        while True:
            tag, words = self.next("a lock or the end", 6, 5)
            if tag == 5:
                self.at += 3
                return
            self.lock(words[0], last, inputs, nodes)
            last = words[0]
            self.at += 7

    def lock(self, index: int, last: Optional[int], inputs: int, nodes: int) -> None:
        self.field = "a lock"
        if not inputs < index <= inputs + nodes:
            known = f"nodes are {inputs + 1} to {inputs + nodes}" if nodes else "there are no nodes"
            raise self.fault(13, f"it has index {index}, and {known}")
        if last is not None and index <= last:
            raise self.fault(13, f"it has index {index} after {last}, and indices must rise")

    def walk(self) -> None:
        _, (inputs, nodes, outputs) = self.next("the head", 1)
        over = _over_limit(inputs, nodes, outputs, "node")
        if over:
            raise self.fault(3, over)
        self.at += 15
        for at in range(1, nodes + 1):
            self.words(inputs + at - 1, self.next(f"node {at} of {nodes}", 2, 3)[1], False)
        for at in range(1, outputs + 1):
            self.words(inputs + nodes, self.next(f"output {at} of {outputs}", 4)[1], True)
        self.locks(inputs, nodes)
        more = len(self.file) - self.at
        if more:
            self.field = "after the end field"
            raise self.fault(6, f"{_told_many(more, 'byte')} more, and none is due")


#: What makes latches inputs and outputs; it reads the binary format alone.
_COMB = 'berkeley-abc -c "read_aiger OLD.aig; comb; write_aiger NEW.aig"'
_BINARY_FIRST = 'yosys -p "read_aiger OLD.aag; write_aiger OLD.aig" and '

#: What is told of a file that was put right.
_RETURNS = "its lines end in carriage returns, which are passed over"
_UNENDED = "no newline ends its last line, which is taken all the same"
_COUNTS = "its header is one of AIGER 1.9, whose further counts are all 0"
_NUMBERS = "its numbers have gaps or another order: inputs are numbered in its order, then gates anew"

_ESCAPED = {9: "\\t", 10: "\\n", 13: "\\r", 34: '\\"', 39: "\\'", 92: "\\\\"}


def _front(line: bytes, quote: str = "") -> str:
    """The front of a line, in quotes where some are given."""
    signs = [_ESCAPED.get(byte) or (chr(byte) if 32 <= byte < 127 else f"\\x{byte:02x}") for byte in line[:40]]
    return quote + "".join(signs) + quote + ("..." if len(line) > 40 else "")


class _TextReader:
    """Reads AIGER, binary or ASCII. What only the layout or the numbering of a file makes hard it puts right and notes; `strict` is then
    where the library, which puts nothing right, refuses the text."""

    def __init__(self, data: bytes) -> None:
        self.data, self.at, self.line, self.field = data, 0, 0, ""
        self.mended: Set[str] = set()
        self.strict: Optional[Place] = None

    def fault(self, number: int, why: str) -> _Fault:
        return _Fault(Place(number, self.line, None, self.field, why))

    def mends(self, what: str, number: int, why: str) -> None:
        """Notes what is put right here, and how the library refuses it."""
        self.mended.add(what)
        self.strict = self.strict or self.fault(number, why).place

    def told(self) -> List[str]:
        """What was put right, a line each."""
        return [line for line in (_RETURNS, _UNENDED, _COUNTS, _NUMBERS) if line in self.mended]

    def next(self, field: str) -> bytes:
        """The next line, without its end."""
        self.field, self.line = field, self.line + 1
        if self.at >= len(self.data):
            raise self.fault(10, "the text ends before it")
        end = self.data.find(b"\n", self.at)
        line = self.data[self.at :] if end < 0 else self.data[self.at : end]
        self.at = len(self.data) if end < 0 else end + 1
        if end < 0:
            shown = _front(line, '"')
            self.mends(_UNENDED, 10, f"{shown}, and no newline ends it")
        if line.endswith(b"\r"):
            line = line[:-1]
            shown = _front(line, '"')
            self.mends(_RETURNS, 10, f"{shown}, and a carriage return ends it")
        return line

    def not_due(self, due: str, line: bytes) -> _Fault:
        """That a line is not what is due."""
        cut = self.at == len(self.data) and not self.data.endswith(b"\n")
        shown = _front(line, '"')
        return self.fault(10, f"{due}, and {shown} stands there{', where the text ends' if cut else ''}")

    @staticmethod
    def number(word: bytes) -> Optional[int]:
        """A decimal number below 2 to the 32nd without leading zeros."""
        plain = word.isdigit() and len(word) <= 10 and (word == b"0" or word[:1] != b"0")
        return int(word) if plain and int(word) <= MARK else None

    def numbers(self, field: str, many: int) -> List[int]:
        """The numbers of the next line, so many."""
        line = self.next(field)
        numbers = [number for number in map(self.number, line.split(b" ")) if number is not None]
        if len(numbers) != many or line.count(b" ") != many - 1:
            raise self.not_due("one number is due" if many == 1 else "three numbers are due", line)
        return numbers

    def counts(self, first: str) -> List[int]:
        """The five counts of the header, those after them being 0."""
        line = self.next("the header")
        word, *words = line.split(b" ")
        numbers = [number for number in map(self.number, words) if number is not None]
        due = f'"{first}" and five numbers are due'
        if word != first.encode() or len(numbers) != len(words) or not 5 <= len(numbers) <= 9:
            raise self.not_due(due, line)
        if len(numbers) > 5:
            shown = _front(line, '"')
            self.mends(_COUNTS, 10, f"{due}, and {shown} stands there")
        if any(numbers[5:]):
            what = "bad states, constraints, justice and fairness, of which none can be read"
            raise self.fault(10, f"the counts after the fifth are of {what}")
        return numbers[:5]

    def header(self, first: str) -> Tuple[int, int, int, int]:
        """M, I, O and A."""
        last, inputs, latches, outputs, gates = self.counts(first)
        if latches:
            many, before = "latch" if latches == 1 else "latches", _BINARY_FIRST if first == "aag" else ""
            raise self.fault(11, f"it says {latches} {many}; make each an input and an output first, by {before}{_COMB}")
        both = f"M is {last}, and I + A is {inputs + gates}"
        if last < inputs + gates or (last > inputs + gates and first == "aig"):
            raise self.fault(12, both)
        if last > inputs + gates:
            self.mends(_NUMBERS, 12, both)
        over = _over_limit(inputs, gates, outputs, "gate")
        if over:
            raise self.fault(3, over)
        return last, inputs, outputs, gates

    def own(self, literal: int, due: int, last: int) -> None:
        """Tests a literal that is an input's or a gate's own: even, of an index from 1 to M, and the due one where nothing has gaps."""
        if literal == due:
            return
        both = f"literal {literal} stands there, and {due} is due"
        if literal % 2 or literal == 0 or literal // 2 > last:
            raise self.fault(12, both)
        self.mends(_NUMBERS, 12, both)

    def outputs(self, last: int, many: int) -> List[int]:
        literals = []
        for at in range(1, many + 1):
            literals += self.numbers(f"output {at} of {many}", 1)
            if literals[-1] // 2 > last:
                raise self.fault(5, _too_high(literals[-1], "it", last))
        return literals

    def gate(self, field: str, due: int, last: int) -> List[int]:
        own, *words = self.numbers(field, 3)
        self.own(own, due, last)
        for word, literal in enumerate(words, 1):
            if literal // 2 < own // 2:
                continue
            why = _too_high(literal, f"its word {word}", own // 2 - 1)
            if literal // 2 > last:
                raise self.fault(5, why)
            self.mends(_NUMBERS, 5, why)
        return [own, *words]

    def walk(self) -> "_Circuit":
        """The circuit of a text."""
        last, inputs, outputs, gates = self.header("aag")
        literals = []
        for at in range(1, inputs + 1):
            literals += self.numbers(f"input {at} of {inputs}", 1)
            self.own(literals[-1], 2 * at, last)
        ends = self.outputs(last, outputs)
        ands = [self.gate(f"gate {at} of {gates}", 2 * (inputs + at), last) for at in range(1, gates + 1)]
        return _Circuit(literals, ends, ands)

    def delta(self, start: int, field: str) -> int:
        """A number of seven bits a byte, the lowest first; a byte from 128 on says that more follow."""
        total = 0
        for place in range(5):
            if self.at >= len(self.data):
                raise _Fault(Place(10, None, start, field, "the file ends within it"))
            byte = self.data[self.at]
            self.at += 1
            total |= (byte & 127) << (7 * place)
            if byte < 128 and total <= MARK:
                return total
        raise _Fault(Place(10, None, start, field, "it has a number of more than 32 bits"))

    def binary(self) -> "_Circuit":
        """The circuit of a binary file."""
        last, inputs, outputs, gates = self.header("aig")
        try:
            ends, ands = self.outputs(last, outputs), []
        except _Fault as fault:
            # Of a header whose line ends in a carriage return that is told first.
            raise _Fault(self.strict) if _RETURNS in self.mended and self.strict else fault
        if self.mended & {_RETURNS, _UNENDED}:
            why = "its lines do not end in newlines alone, as after a transfer as text; a binary file must come as it is"
            raise self.fault(10, why)
        for at in range(1, gates + 1):
            start, own, field = self.at, 2 * (inputs + at), f"gate {at} of {gates}"
            first, second = self.delta(start, field), self.delta(start, field)
            if not 0 < first <= own or second > own - first:
                why = f"its words lie {first} and then {second} below its literal {own}, which is too far or not below"
                raise _Fault(Place(5, None, start, field, why))
            ands.append([own, own - first, own - first - second])
        return _Circuit(list(range(2, 2 * inputs + 1, 2)), ends, ands)


class _Circuit:
    """A circuit in the literals of its file: its inputs, its outputs, and of each gate its own literal and the two that it reads."""

    def __init__(self, inputs: List[int], outputs: List[int], gates: List[List[int]]) -> None:
        self.inputs, self.outputs, self.gates = inputs, outputs, gates

    def fault(self, at: int, number: int, why: str) -> _Fault:
        """A fault of an input or, after all of them, a gate, as a text has its lines."""
        inputs, gate = len(self.inputs), at - len(self.inputs)
        if gate < 0:
            return _Fault(Place(number, 2 + at, None, f"input {at + 1} of {inputs}", why))
        return _Fault(Place(number, 2 + at + len(self.outputs), None, f"gate {gate + 1} of {len(self.gates)}", why))

    def defined(self) -> Dict[int, int]:
        """By index of the file which input or gate defines it, inputs first, from 0."""
        defined: Dict[int, int] = {}
        for at, literal in enumerate(self.inputs + [gate[0] for gate in self.gates]):
            if literal // 2 in defined:
                why = f"literal {literal} stands there, and an input or gate before has it already"
                raise self.fault(at, 12, why)
            defined[literal // 2] = at
        return defined

    def number_from(self, gate: int, defined: Dict[int, int], given: List[int], order: List[int]) -> None:
        """Numbers a gate after all that it reads. What is on the way has -1, and what has no number 0."""
        inputs, way = len(self.inputs), [(gate, 0)]
        while way:
            at, word = way.pop()
            if word == 0 and given[inputs + at]:
                continue
            given[inputs + at] = -1
            if word == 2:
                order.append(at)
                given[inputs + at] = inputs + len(order)
                continue
            way.append((at, word + 1))
            literal = self.gates[at][word + 1]
            below = -1 if literal < 2 else defined.get(literal // 2)
            if below is None:
                raise self.fault(inputs + at, 5, _undefined(literal))
            if below < 0 or given[below] > 0:
                continue
            if given[below] < 0:
                why = f"literal {literal} leads back to the gate itself: there is a circle"
                raise self.fault(inputs + at, 5, why)
            way.append((below - inputs, 0))

    def text(self) -> bytes:
        """The plain text: inputs are numbered in their order, then gates, each after those that it reads."""
        inputs, gates, many = len(self.inputs), len(self.gates), len(self.outputs)
        defined, order = self.defined(), []
        given = [*range(1, inputs + 1), *([0] * gates)]
        for gate in range(gates):
            self.number_from(gate, defined, given, order)
        numbers = {index: 2 * given[at] for index, at in defined.items()}
        numbers[0] = 0
        lines = [f"aag {inputs + gates} {inputs} 0 {many} {gates}", *map(str, range(2, 2 * inputs + 1, 2))]
        for at, literal in enumerate(self.outputs):
            if literal // 2 not in numbers:
                place = Place(5, 2 + inputs + at, None, f"output {at + 1} of {many}", _undefined(literal))
                raise _Fault(place)
            lines.append(str(numbers[literal // 2] + literal % 2))
        for at in order:
            lines.append(" ".join(str(numbers[literal // 2] + literal % 2) for literal in self.gates[at]))
        return "\n".join(lines).encode() + b"\n"


def _undefined(literal: int) -> str:
    return f"literal {literal} names index {literal // 2}, which is neither an input's nor a gate's"


def _binary(text: bytes) -> bytes:
    """The binary form of a text that the library wrote."""
    lines = text.decode().split("\n")
    last, inputs, _, outputs, gates = map(int, lines[0].split()[1:])
    first = 1 + inputs + outputs
    binary = bytearray("\n".join([f"aig {last} {inputs} 0 {outputs} {gates}", *lines[1 + inputs : first], ""]).encode())
    for line in lines[first : first + gates]:
        own, x, y = map(int, line.split())
        for number in (own - max(x, y), abs(x - y)):
            while number >= 128:
                binary.append(number & 127 | 128)
                number >>= 7
            binary.append(number)
    return bytes(binary)


class _Symbols:
    """The names that lines of symbols give (`i0 x[0]`, `o2 sum[2]`), which count from 0, up to the first line that is none; and a line for
    each that does not fit, which is left out."""

    MOST_TOLD = 3
    LINE = re.compile(rb"([ilobcjf])([0-9]+)(?: (.*))?", re.DOTALL)

    def __init__(self, text: bytes, inputs: int, outputs: int) -> None:
        self.names: Dict[bytes, Dict[int, str]] = {b"i": {}, b"o": {}}
        self.many, misfits = {b"i": inputs, b"o": outputs}, []
        for line in text.split(b"\n"):
            line = line[:-1] if line.endswith(b"\r") else line
            found = self.LINE.fullmatch(line)
            if not found:
                break
            why = self.put(found[1], found[2], found[3] or b"")
            misfits += [f"the name {_front(line)} is left out: {why}"] if why else []
        more = len(misfits) - self.MOST_TOLD
        self.told = misfits[: self.MOST_TOLD] + ([f"so are {_told_many(more, 'further name')}"] if more > 0 else [])

    def put(self, kind: bytes, digits: bytes, name: bytes) -> Optional[str]:
        """Takes a name, or says why it does not fit."""
        if kind not in self.names:
            return "only inputs and outputs have names here"
        names, many, what = self.names[kind], self.many[kind], "input" if kind == b"i" else "output"
        digits = digits.lstrip(b"0") or b"0"
        at = 1 + int(digits) if len(digits) < 10 else many + 1
        if at > many:
            return f"there {'is' if many == 1 else 'are'} {_told_many(many, what)}"
        try:
            text = name.decode()
        except UnicodeDecodeError:
            return "it is not UTF-8"
        if _no_name(text):
            return _no_name(text)
        if at in names:
            return f"{what} {at} is {names[at]} already"
        names[at] = text
        return None


def _no_name(name: str) -> Optional[str]:
    """Why a text is no name."""
    if not name:
        return "it is empty"
    control = any(sign < " " or "\x7f" <= sign < "\xa0" for sign in name)
    return "it has control characters" if control else None


def _symbols(names: Dict[int, str], kind: str, many: int, what: str) -> str:
    """A line for each name, as symbols of an AIGER file."""
    for at, name in names.items():
        if not 1 <= _number(at, 32, f"each number of {what}_names") <= many:
            raise ValueError(f"there {'is' if many == 1 else 'are'} {_told_many(many, what)}, and {name!r} is a name of {what} {at}")
        if not isinstance(name, str):
            raise TypeError(f"each of {what}_names must be a str, and is a {type(name).__name__}")
        if _no_name(name) or any("\ud800" <= sign <= "\udfff" for sign in name):
            raise ValueError(f"{name!r} cannot be a name: {_no_name(name) or 'it is not UTF-8'}")
    return "".join(f"{kind}{at - 1} {names[at]}\n" for at in sorted(names))


#: The first line of a file of names, which stands beside a tagged file.
_HEAD = b"panjerov names 1\n"


def _sum_of(data: bytes) -> bytes:
    """The line that says by a sum over the bytes of a tagged file (FNV-1a) that names are its."""
    total = 0xCBF29CE484222325
    for byte in data:
        total = (total ^ byte) * 0x100000001B3 & 0xFFFFFFFFFFFFFFFF
    return f"file {total:016x}\n".encode()


def _beside(path: Path) -> Path:
    """The file of names beside another."""
    return path.with_name(path.name + ".names")


def place_of(data: bytes) -> Optional[Place]:
    """Where load refuses these bytes, or import_aiger where they begin with "aag"; None where they are accepted."""
    data, _ = _bytes(data, "data")
    reader = (_TextReader if data.startswith(b"aag") else _FileReader)(data)
    try:
        reader.walk()
    except _Fault as fault:
        return reader.strict or fault.place
    return reader.strict


def _fill(function, data: bytes, tables: _Tables) -> "Graph":
    """The graph that a call fills tables with from bytes."""
    numbers = (_U32 * 3)()
    _call(function, data, len(data), *tables.arrays(), numbers)
    return _graph(numbers[0], tables)


def _filled(function, data: bytes, tables: _Tables) -> "Graph":
    """The same, where what is refused is told with its place, if that is found."""
    try:
        return _fill(function, data, tables)
    except Refused as refused:
        place = place_of(data)
        raise Refused(refused.number, place if place and place.number == refused.number else None) from None


def load(file: bytes) -> "Graph":
    """The graph that a tagged file holds, with its locks. A tagged file has no names; load_file takes those that stand beside it."""
    file, _ = _bytes(file, "file")
    return _filled(_load, file, _room(file))


def _name(graph: "Graph", text: bytes) -> List[str]:
    """Gives a graph the names of lines of symbols; what does not fit, a line each."""
    symbols = _Symbols(text, graph.inputs, len(graph.outputs))
    graph.input_names, graph.output_names = symbols.names[b"i"], symbols.names[b"o"]
    return symbols.told


def _after_gates(text: bytes) -> bytes:
    """What follows the last gate of a text that the library takes."""
    _, _, inputs, _, outputs, gates = text[:64].split(b"\n")[0].split(b" ")
    lines = 1 + int(inputs) + int(outputs) + int(gates)
    return text.split(b"\n", lines)[lines]


def _tell(name: str, told: List[str]) -> None:
    """Warns of what was put right or left out."""
    for line in told:
        warnings.warn(f"{name}: {line}", Mended, stacklevel=3)


def import_aiger(text: bytes) -> "Graph":
    """The graph that an ASCII AIGER text says: a majority of the constant and two literals for each AND, every node free, with the names of
    its symbols. Nothing is put right: read and load_file do that."""
    text, _ = _bytes(text, "text")
    graph = _filled(_import, text, _text_room(text))
    _tell("the text", _name(graph, _after_gates(text)))
    return graph


class Read(NamedTuple):
    """What the bytes of a file hold: a graph with its names, how it stood there ("tagged", "aiger" or "aig", which is binary AIGER), and
    what was put right or left out on the way, a line each."""

    graph: "Graph"
    format: str
    told: List[str]


def _read_aiger(data: bytes) -> Tuple["Graph", List[str]]:
    """The graph of AIGER that the library does not take as it is, with its names."""
    reader = _TextReader(data)
    try:
        text = (reader.binary() if data.startswith(b"aig ") else reader.walk()).text()
    except _Fault as fault:
        raise Refused(fault.place.number, fault.place) from None
    graph = _filled(_import, text, _text_room(text))
    return graph, reader.told() + _name(graph, data[reader.at :])


def read(data: bytes) -> Read:
    """The graph of bytes that are AIGER, binary or ASCII as tools write it, where they begin so, and else a tagged file.

    Of AIGER, carriage returns, a missing last newline, headers of AIGER 1.9 whose further counts are 0, and numbers with gaps or in
    another order are put right. Inputs keep the order of the file.
    """
    data, _ = _bytes(data, "data")
    if data.startswith(b"aig "):
        graph, told = _read_aiger(data)
        return Read(graph, "aig", told)
    if not data.startswith(b"aag"):
        return Read(load(data), "tagged", [])
    try:
        graph = _fill(_import, data, _text_room(data))
        told = _name(graph, _after_gates(data))
    except Refused:
        graph, told = _read_aiger(data)
    return Read(graph, "aiger", told)


def load_file(path: Union[str, "os.PathLike[str]"]) -> "Graph":
    """The graph of a file, which may be what read takes, with its names: those of AIGER's symbols, or those that stand beside a tagged file
    in one of its name with ".names". What is put right or left out is told by a warning, Mended, a line each."""
    path = Path(path)
    data, beside, name = path.read_bytes(), _beside(path), str(path)
    graph, form, told = read(data)
    if form == "tagged" and beside.is_file():
        told, name = _name_beside(graph, beside.read_bytes(), data), str(beside)
    _tell(name, told)
    return graph


def _name_beside(graph: "Graph", text: bytes, file: bytes) -> List[str]:
    """Gives a graph the names that stand beside its file; what does not fit, a line each."""
    if not text.startswith(_HEAD + b"file "):
        return ["it does not begin as a file of names does, and is left out"]
    head = _HEAD + _sum_of(file)
    if not text.startswith(head):
        return ["its names are those of another graph, and are left out"]
    return _name(graph, text[len(head) :])


def _replace(path: Path, data: bytes) -> None:
    """Puts a file with these bytes in the place of what is there. A link stays, and the file that it leads to is replaced; a device or a
    pipe is written to."""
    target = Path(os.path.realpath(path))
    if target.exists():
        # What may not be written is not replaced either.
        with open(target, "r+b" if target.is_file() else "wb") as there:
            if not target.is_file():
                there.write(data)
                return
    new = target.with_name(f".panjerov-{os.getpid()}-{threading.get_ident()}")
    try:
        with open(new, "xb") as file:
            file.write(data)
        if target.exists():
            shutil.copymode(target, new)
        os.replace(new, target)
    finally:
        new.unlink(missing_ok=True)


def _told(kind: int, number: int, own: int, others: int) -> Told:
    """What the three words of a call's answer say."""
    if number == 0 and kind == MAJORITY:
        return Told(number, Majority(own))
    return Told(number, own if number == 0 and kind == FIND else Saving(own, others))


def replay(
    file: bytes, calls: Iterable[Sequence[int]], indices: Iterable[int] = (), moves: Union[bytes, Iterable[int]] = b""
) -> Tuple["Graph", List[Told]]:
    """The graph that a tagged file holds after a list of calls, each of which gets its locks, and what each call answers.

    A call is its kind (NODE, PAIR, TREE, SETTLE or RESISTIVE), a node and a word; those that a kind does not want are not looked at.
    Of the kind MANY it is the kind, a start and a count: that part of indices and of moves is made, as Graph.many does. Of the kind
    MAJORITY it is the kind, a node and a start: the node is made a majority of three of indices from there on, as Graph.majority does.
    FIND is Graph.find. A call that is refused changes nothing, and the list goes on.
    """
    file, length = _bytes(file, "file")
    listed = [tuple(call) for call in calls]
    if any(len(call) != 3 for call in listed):
        raise ValueError("each of calls must be a kind, a node and a word")
    words, count = _numbers([word for call in listed for word in call], _U32, "calls")
    many = [*_numbers(indices, _U32, "indices"), *_moves(moves)]
    tables = _room(file)
    scratch_words, answer_words = 8 * len(tables.locks), 3 * len(listed)
    scratch, answers, numbers = _array(_U32, scratch_words), _array(_I64, answer_words), (_U32 * 3)()
    room = [scratch, scratch_words, answers, answer_words]
    _call(_replay, file, length, words, count, *tables.arrays(), *many, *room, numbers)
    told = [_told(call[0], *answers[3 * at : 3 * at + 3]) for at, call in enumerate(listed)]
    graph = _graph(numbers[0], tables)
    graph._cut(numbers[1])
    return graph, told


class Graph:
    """A graph of majorities and XORs.

    `nodes` has three literals a node, a third MARK making it an XOR; `outputs` has one literal an output. A literal is
    2 * index, plus 1 if complemented; index 0 is the constant false, inputs follow, then nodes. `locked` are the indices of nodes
    that no call may turn; the others are free. `input_names` and `output_names` are the names that inputs and outputs have, by their
    numbers, which count from 1; no call looks at them, and two graphs that differ in names alone are equal.
    """

    inputs: int
    input_names: Dict[int, str]
    output_names: Dict[int, str]

    def __init__(self, inputs: int, nodes: Iterable[int], outputs: Iterable[int], locked: Iterable[int] = ()) -> None:
        self.inputs = _number(inputs, 32, "inputs")
        self._nodes, self._outputs = Literals(nodes, "nodes"), Literals(outputs, "outputs")
        if len(self._nodes) % 3 != 0:
            raise ValueError("nodes must have three words a node")
        # A byte a node, as it is lent. Nodes that are put there later have none until a call or a lock asks for it.
        self._locks = array("B", bytes(len(self._nodes) // 3))
        for index in locked:
            self._locks[self._node(index) - self.inputs - 1] = 1
        self.input_names, self.output_names = {}, {}

    @property
    def nodes(self) -> Literals:
        """The literals of the nodes. They are shown as they are, so that a call changes what this has given before."""
        return self._nodes

    @nodes.setter
    def nodes(self, literals: Iterable[int]) -> None:
        if literals is not self._nodes:
            self._nodes = Literals(literals, "nodes")

    @property
    def outputs(self) -> Literals:
        """The literals of the outputs, shown as those of the nodes are."""
        return self._outputs

    @outputs.setter
    def outputs(self, literals: Iterable[int]) -> None:
        if literals is not self._outputs:
            self._outputs = Literals(literals, "outputs")

    def _sizes(self) -> str:
        """How many inputs, nodes and outputs there are."""
        sizes = [(self.inputs, "input"), (len(self._nodes) // 3, "node"), (len(self._outputs), "output")]
        return ", ".join(_told_many(many, what) for many, what in sizes)

    def __repr__(self) -> str:
        if len(self._nodes) + len(self._outputs) > _MOST_SHOWN:
            return f"<Graph: {self._sizes()}, {len(self.locked)} locked>"
        locked = f", {self.locked}" if any(self._locks) else ""
        return f"Graph({self.inputs}, {self.nodes}, {self.outputs}{locked})"

    def _repr_svg_(self) -> Optional[str]:
        """A picture for notebooks, by Graphviz; None, so that the text is shown, where its program dot is not there or there is too much."""
        if shutil.which("dot") is None or self.inputs + len(self._nodes) // 3 + len(self._outputs) > _MOST_DRAWN:
            return None
        try:
            done = subprocess.run(["dot", "-Tsvg"], input=_dot(self), capture_output=True, text=True, timeout=4, check=True)
        except (OSError, subprocess.SubprocessError):
            return None
        return done.stdout[done.stdout.find("<svg") :]

    def __eq__(self, other: object) -> bool:
        if not isinstance(other, Graph):
            return NotImplemented
        same = (self.inputs, self._nodes, self._outputs) == (other.inputs, other._nodes, other._outputs)
        return same and self.locked == other.locked

    def __copy__(self) -> "Graph":
        # Tables of its own: calls change them in place.
        tables = _Tables(Literals(self._nodes, "nodes"), Literals(self._outputs, "outputs"), self._locks[:])
        return _graph(self.inputs, tables)._named(self.input_names, self.output_names)

    def _named(self, inputs: Dict[int, str], outputs: Dict[int, str]) -> "Graph":
        """This graph, with names of its own."""
        self.input_names, self.output_names = dict(inputs), dict(outputs)
        return self

    def copy(self) -> "Graph":
        """A graph of its own with the same literals, locks and names."""
        return self.__copy__()

    def roots(self) -> List[int]:
        """The indices of the roots, rising: of all nodes but those that have just one reader and that in the node table."""
        self.complemented_edges()
        first, last = self.inputs + 1, self.inputs + len(self._nodes) // 3
        readers, read_out = Counter(self._nodes.indices), set(self._outputs.indices)
        return [index for index in range(first, last + 1) if readers[index] != 1 or index in read_out]

    def _has(self, index: int) -> bool:
        """Whether this is the index of a node."""
        return self.inputs < index <= self.inputs + len(self._nodes) // 3

    def _node(self, index: int) -> int:
        """The index as an int, if it is that of a node."""
        number = _number(index, 32, "each of locked")
        if not self._has(number):
            raise ValueError(f"each of locked must be the index of a node, and is {number}")
        return number

    def _fit_locks(self, nodes: int) -> None:
        """Makes the locks as many as the nodes."""
        if len(self._locks) < nodes:
            self._locks.frombytes(bytes(nodes - len(self._locks)))
        elif len(self._locks) > nodes:
            for index in self.locked:
                self._node(index)
            del self._locks[nodes:]

    def _lent(self) -> list:
        """I, N, O, both tables with their bits and the locks, as every call takes them."""
        count, left = divmod(len(self._nodes), 3)
        if left != 0:
            raise ValueError("nodes must have three words a node")
        self._fit_locks(count)
        sizes = [("inputs", self.inputs), ("the number of nodes", count), ("the number of outputs", len(self._outputs))]
        numbers = [_number(value, 32, what) for what, value in sizes]
        return numbers + _Tables(self._nodes, self._outputs, self._locks).arrays()

    def _lock_place(self, index: int) -> int:
        """Where the lock of the node of this index stands; what is no node's is refused as a node call refuses it."""
        number = _number(index, 32, "index")
        if not self._has(number):
            raise Refused(7)
        place = number - self.inputs - 1
        if place >= len(self._locks):
            self._fit_locks(place + 1)
        return place

    @property
    def locked(self) -> List[int]:
        """The indices of the locked nodes, rising."""
        return [self.inputs + 1 + at for at, byte in enumerate(self._locks) if byte]

    def lock(self, index: int) -> None:
        """Locks the node of this index, locked or not: no call turns it from then on."""
        self._locks[self._lock_place(index)] = 1

    def unlock(self, index: int) -> None:
        """Frees the node of this index, locked or not."""
        self._locks[self._lock_place(index)] = 0

    def is_locked(self, index: int) -> bool:
        """Whether the node of this index is locked."""
        return self._locks[self._lock_place(index)] == 1

    def write(self) -> bytes:
        """The graph's tagged file, which has its locks."""
        lent = self._lent()
        room = 18 + 22 * lent[1] + 7 * lent[2]
        buffer, length = _array(ctypes.c_uint8, room), _SIZE()
        _call(_write, *lent, buffer, room, ctypes.byref(length))
        return ctypes.string_at(buffer, length.value)

    def export_aiger(self, binary: bool = False, symbols: bool = True) -> bytes:
        """The graph as AIGER, ASCII or binary: four ANDs for each majority, three for each XOR, and then its names, unless there are to be
        no symbols. It says nothing of locks."""
        # A graph over the limits is refused before room is looked at, and gets none.
        self.complemented_edges()
        named = self._symbols() if symbols else b""
        lent = self._lent()
        inputs, nodes, outputs = lent[:3]
        room = 30 + 5 * inputs + 84 * nodes + 7 * outputs
        scratch, buffer, length = _array(_U32, nodes), _array(ctypes.c_uint8, room), _SIZE()
        _call(_export, *lent, scratch, nodes, buffer, room, ctypes.byref(length))
        text = ctypes.string_at(buffer, length.value)
        return (_binary(text) if binary else text) + named

    def _symbols(self) -> bytes:
        """A line for each name. A name of an input or output that is not there raises ValueError, as does what cannot be a name."""
        inputs = _symbols(self.input_names, "i", self.inputs, "input")
        return (inputs + _symbols(self.output_names, "o", len(self._outputs), "output")).encode()

    def save_file(self, path: Union[str, "os.PathLike[str]"], symbols: bool = True) -> None:
        """Writes the graph to a file: as AIGER where its name ends in .aag or .aig, which is binary, and else as a tagged file, with its
        names beside it in one of its name with ".names". Without symbols no names are written. A file is replaced as a whole or not at
        all."""
        path = Path(path)
        ending = path.suffix.lower()
        if ending in (".v", ".dot", ".svg", ".png"):
            raise ValueError(f"a file that ends in {ending} is written by `panjerov export`; here it may end in .aag, .aig or .mig")
        if ending in (".aag", ".aig"):
            _replace(path, self.export_aiger(ending == ".aig", symbols))
            return
        file, named, beside = self.write(), self._symbols() if symbols else b"", _beside(path)
        _replace(path, file)
        if named and path.is_file():
            _replace(beside, _HEAD + _sum_of(file) + named)
        elif beside.is_file() and beside.read_bytes().startswith(_HEAD.rstrip()):
            # Those of the graph that stood here before.
            beside.unlink()

    def join(self, second: "Graph") -> "Graph":
        """This graph joined with a second: output k of this one drives input k of the second. It has this graph's inputs, both lists of
        nodes in order with their locks, and the second's outputs; each has the second's value on this graph's outputs. Names are those of
        this graph's inputs and of the second's outputs."""
        other, lent = _second(second), self._lent()
        tables, numbers = _tables(lent[1] + other[1], other[2]), (_U32 * 3)()
        _call(_join, *lent, *other, *tables.arrays(), numbers)
        return _graph(numbers[0], tables)._named(self.input_names, second.output_names)

    def evaluate(self, input_words: Sequence[int]) -> List[int]:
        """The outputs' words of 64 bits for one such word an input: each bit place is an assignment of its own."""
        words, count = _numbers(input_words, _U64, "input_words")
        lent = self._lent()
        scratch, results = _array(_U64, lent[1]), _array(_U64, lent[2])
        _call(_evaluate, *lent, words, count, scratch, lent[1], results, lent[2])
        return results[: lent[2]]

    def assignment_for(self, wanted: Union[str, bytes, Iterable[int]]) -> Optional[int]:
        """The least assignment under which the outputs are as wanted, or None exactly where there is none. Its lowest bit is input 1. An
        output is wanted by 0, 1, or 2 for either; in text x stands for either. More than 16 inputs are refused by 17."""
        given, found = _wanted(wanted), (_U32 * 2)()
        lent = self._lent()
        _call(_assignment, *lent, *given, _array(_U64, lent[1]), lent[1], found)
        return found[1] if found[0] else None

    def complemented_edges(self) -> int:
        """How many edges are complemented, those from the constant among them."""
        count = _U32()
        _call(_count, *self._lent(), ctypes.byref(count))
        return count.value

    def node_call(self, node: int) -> Saving:
        """Makes the best move of one node, given by its index; what it saves."""
        number, saving = _number(node, 32, "node"), (_I64 * 2)()
        _call(_node, *self._lent(), number, saving)
        return Saving(*saving)

    def pair_call(self, node: int, word: int) -> Saving:
        """Makes the best moves of a node and of the one that its word (1 to 3) names; what they save."""
        numbers, saving = [_number(node, 32, "node"), _number(word, 32, "word")], (_I64 * 2)()
        _call(_pair, *self._lent(), *numbers, saving)
        return Saving(*saving)

    def trial(self, node: int, word: int, named_move: int, node_move: int) -> int:
        """What a move at the node that a word (1 to 3) names and one at the node would save; less than 0 where they lose, 0 for a word that
        names no node. A move that a node's kind lacks is refused by 15, one other than 0 at a locked node by 16."""
        given = [("node", node), ("word", word), ("named_move", named_move), ("node_move", node_move)]
        numbers, gain = [_number(value, 32, what) for what, value in given], _I64()
        _call(_trial, *self._lent(), *numbers, ctypes.byref(gain))
        return gain.value

    def tree_call(self, root: int) -> Saving:
        """Makes the best moves of the tree of a root; what they save."""
        number, saving = _number(root, 32, "root"), (_I64 * 2)()
        lent = self._lent()
        room = 8 * lent[1]
        _call(_tree, *lent, number, _array(_U32, room), room, saving)
        return Saving(*saving)

    def preview(self, root: int) -> Preview:
        """What tree_call would save and which moves it would make; the graph stays as it is."""
        number, saving = _number(root, 32, "root"), (_I64 * 2)()
        lent = self._lent()
        moves, room = _array(ctypes.c_uint8, lent[1]), 8 * lent[1]
        _call(_preview, *lent, number, moves, lent[1], _array(_U32, room), room, saving)
        return Preview(Saving(*saving), ctypes.string_at(moves, lent[1]))

    def resistive_call(self, root: int) -> Saving:
        """Makes the moves of the tree of a root after which most of its majorities have just one complemented input, an edge from the
        constant being one; of these moves those that leave fewer complemented edges. The root's readers do not turn. What they save, all
        of it own, and perhaps less than 0."""
        number, saving = _number(root, 32, "root"), (_I64 * 2)()
        lent = self._lent()
        room = 8 * lent[1]
        _call(_resistive, *lent, number, _array(_U32, room), room, saving)
        return Saving(*saving)

    def many(self, indices: Iterable[int], moves: Union[bytes, Iterable[int]]) -> int:
        """Makes many moves, all of them or none: at each node of indices, which rise, the move at the same place. What they save, less
        than 0 where they lose. The moves of a Preview are made by the indices of all nodes."""
        listed, saving = [*_numbers(indices, _U32, "indices"), *_moves(moves)], _I64()
        _call(_many, *self._lent(), *listed, ctypes.byref(saving))
        return saving.value

    def compare(self, second: "Graph") -> Compared:
        """The moves that lead from this graph to another of the same wiring, or what differs first. A locked node's move is told like
        any."""
        other, lent = _second(second), self._lent()
        moves, difference = _array(ctypes.c_uint8, lent[1]), (_U32 * 2)()
        _call(_compare, *lent, *other, moves, lent[1], difference)
        if difference[0] == 0:
            return Compared(ctypes.string_at(moves, lent[1]))
        return Compared(None, Difference(difference[0]), difference[1])

    def majority(self, node: int, first: int, second: int, third: int) -> Majority:
        """Makes a node one majority of three lower indices, rising and none of them 0, where its value is one's, with words complemented
        as needed; else nothing changes. Every index keeps its value. Refused by 7 for no node or no such three, by 16 for a locked one."""
        given = [("node", node), ("first", first), ("second", second), ("third", third)]
        numbers, answer = [_number(value, 32, what) for what, value in given], _U32()
        lent = self._lent()
        room = 8 * lent[1]
        _call(_majority, *lent, *numbers, _array(_U32, room), room, ctypes.byref(answer))
        return Majority(answer.value)

    def find(self) -> int:
        """Finds hidden majorities: each free node by rising index is made the first majority, if there is one, of three indices within
        three words of it. Then free nodes that nothing reads are dropped, and the rest renumbered in order with their locks. Every output
        keeps its value. How many nodes there are then."""
        lent, nodes = self._lent(), _U32()
        room = 8 * lent[1]
        _call(_find, *lent, _array(_U32, room), room, ctypes.byref(nodes))
        # What is lent must be gone before an array can shrink.
        del lent
        self._cut(nodes.value)
        return nodes.value

    def _cut(self, nodes: int) -> None:
        """Takes out what the finder has freed, where so many nodes are left."""
        self._nodes._cut(3 * nodes)
        del self._locks[nodes:]

    def settle(self) -> Settled:
        """Makes rounds of tree, node and pair calls until one saves nothing."""
        lent, figures, savings = self._lent(), (_U32 * 3)(), (_I64 * 2)()
        room = 8 * lent[1]
        _call(_settle, *lent, _array(_U32, room), room, figures, savings)
        return Settled(*figures, *savings)


#: The most literals that are shown one by one, and the most inputs, nodes and outputs that are drawn.
_MOST_SHOWN = 60
_MOST_DRAWN = 600


def _dot(graph: Graph) -> str:
    """The graph in the language of Graphviz: inputs below, a dot on each complemented edge, the constant at each reader."""
    lines = ["digraph graph_ {", "rankdir=BT; node [shape=box, style=filled, fillcolor=white]; edge [arrowhead=none];"]
    lines += [f'x{at} [label="input {at}"];' for at in range(1, graph.inputs + 1)]
    literals, first = list(graph.nodes), graph.inputs + 1
    boxes = [(f"x{first + at // 3}", literals[at : at + 3]) for at in range(0, len(literals), 3)]
    for name, words in boxes:
        kind, colour = ("XOR", "#fbdf9d") if words[2] == MARK else ("majority", "#dcebf7")
        locked = ", penwidth=3" if graph.is_locked(int(name[1:])) else ""
        lines.append(f'{name} [label="{kind} {name[1:]}", fillcolor="{colour}"{locked}];')
    outputs = [(f"o{at}", [literal]) for at, literal in enumerate(graph.outputs, 1)]
    lines += [f'{name} [label="output {name[1:]}"];' for name, _ in outputs]
    for name, words in boxes + outputs:
        for word, literal in enumerate(word for word in words if word != MARK):
            source = f"x{literal // 2}" if literal > 1 else f"{name}_{word}"
            if literal <= 1:
                lines.append(f'{source} [label="0", shape=circle, width=0.2, fixedsize=true];')
            lines.append(f"{source} -> {name}{' [arrowhead=dot]' if literal % 2 else ''};")
    return "\n".join(lines + ["}"])


def _second(graph: Graph) -> list:
    """A second graph, as a call on two takes it."""
    if not isinstance(graph, Graph):
        raise TypeError(f"second must be a Graph, and is a {type(graph).__name__}")
    return graph._lent()


class Class:
    """The record of a class: up to MOST_GRAPHS graphs settled one after another.

    `words` are CLASS_WORDS numbers of 64 bits, the record's own. They may be kept, and a class begun with them again; what no class comes
    to is refused.
    """

    def __init__(self, words: Iterable[int] = (0,) * CLASS_WORDS) -> None:
        given, count = _numbers(words, _U64, "words")
        self._book = array("Q", given[:count])

    @property
    def words(self) -> List[int]:
        """The words of the record."""
        return list(self._book)

    def enter(self, graph: Graph) -> Settled:
        """Settles a graph and enters its figures. A refused graph is not entered."""
        lent, figures, savings = graph._lent(), (_U32 * 3)(), (_I64 * 2)()
        room = 8 * lent[1]
        _call(_class, *lent, _array(_U32, room), room, self._book, figures, savings)
        return Settled(*figures, *savings)

    def _figures(self, latest: int) -> Figures:
        figures, improvement = (_U64 * 6)(), (_I64 * 2)()
        _call(_class_figures, self._book, latest, figures, improvement)
        return Figures(*figures, *improvement)

    def all(self) -> Figures:
        """The figures of all graphs that were entered."""
        return self._figures(0)

    def latest(self) -> Figures:
        """The figures of the latest 16 graphs, or of all while they are fewer."""
        return self._figures(1)
