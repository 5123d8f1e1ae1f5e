"""Tables of irreducible representations of supersolvable groups, built and checked by the library `chieftables`.

    accept(text)              nothing, or raises Refusal
    measure(text)             the words that a build of the text wants
    commutative(text)         whether the group of the text is commutative; nothing is built
    build(text)               the Table of a presentation text
    build_packed(text)        its words alone, as an array of 32-bit numbers
    check(text, words)        nothing, or raises Refusal: words as a table of the text, whoever made them
    read_table(text)          the words of a table text; what they say is not judged
    write_table(words)        the table text of words
    Table.checked(text, words)     a Table of words that pass

A text is bytes, or a str of ASCII. A refusal is raised as Refusal, with its number and a sentence. Words are lists of numbers, and
calls take any sequence of them; an array("I") is handed over as it is, without a copy. Table.array and Representation.dense give NumPy arrays where NumPy is there.

The library is a shared object, libchieftables.so, in target/staticlib, or the file that CHIEFTABLES_SO names. In the top folder
of the repository these make it:

    scripts/library
    bindings/python/shared
"""

import array
import ctypes
import os
from collections import namedtuple

LINE = 8
"""Words of a line: level, rep, deg, gen, ref, col, row, exp."""

_NAMES = 34
_WIDEST = 80

SENTENCES = {
    11: "the presentation text is not in the form",
    12: "the p of a line with i = j is not prime",
    13: "there are more than 14 generators, or the order is above 16,384",
    14: "an exponent is not below its prime, a word has a generator that it may not have, or a p is not 0 where i < j",
    15: "the presentation is not consistent: two of its normal forms are equal",
    16: "the buffer is shorter than the call wants",
    20: "the table text is not in the form",
    21: "the words are not the lines of a table",
    22: "a relation fails",
    23: "a restriction differs from the blocks that are listed",
    24: "an intertwiner fails, or leads to another degree",
    25: "a basis index is not reached, or two are not separated",
    26: "the squares of the degrees do not add up to the order",
}
"""What each refusal says."""


class Refusal(ValueError):
    """A call refused: `number` says which refusal, `sentence` what it says."""

    def __init__(self, number):
        self.number = number
        self.sentence = SENTENCES[number]
        super().__init__(f"{number}: {self.sentence}")

    def __reduce__(self):
        return (Refusal, (self.number,))


class LibraryMissing(OSError):
    """The shared object is not there; the message says which commands make it."""


class _Counted(ctypes.Structure):
    _fields_ = [("answer", ctypes.c_uint32), ("count", ctypes.c_size_t)]


class _Verdict(ctypes.Structure):
    _fields_ = [("answer", ctypes.c_uint32), ("yes", ctypes.c_uint32)]


def _path():
    top = os.path.join(os.path.dirname(os.path.abspath(__file__)), "..", "..")
    return os.environ.get("CHIEFTABLES_SO") or os.path.normpath(os.path.join(top, "target", "staticlib", "libchieftables.so"))


def _load():
    path = _path()
    if not os.path.exists(path):
        commands = "`scripts/library`, then `bindings/python/shared` make it"
        raise LibraryMissing(f"{path} is missing: {commands}; CHIEFTABLES_SO names another file")
    library = ctypes.CDLL(path)
    size, byte, word = ctypes.c_size_t, ctypes.POINTER(ctypes.c_uint8), ctypes.POINTER(ctypes.c_uint32)
    calls = {
        "accept": (ctypes.c_uint32, [byte, size]),
        "measure": (_Counted, [byte, size]),
        "commutative": (_Verdict, [byte, size]),
        "build": (_Counted, [byte, size, word, size]),
        "check": (ctypes.c_uint32, [byte, size, word, size]),
        "read_table": (_Counted, [byte, size, word, size]),
        "write_table": (_Counted, [word, size, byte, size]),
    }
    for name, (result, arguments) in calls.items():
        call = getattr(library, "chieftables_" + name)
        call.restype, call.argtypes = result, arguments
    return library


_library = None


def _call(name):
    """The call of the library, which is loaded at the first one."""
    global _library
    if _library is None:
        _library = _load()
    return getattr(_library, "chieftables_" + name)


def _bytes(text):
    """A text as what the library reads, and its length."""
    data = text.encode("ascii", "replace") if isinstance(text, str) else bytes(text)
    return (ctypes.c_uint8 * max(1, len(data))).from_buffer_copy(data or b"\0"), len(data)


def _words(words):
    """Words as what the library reads, and how many they are. A number that no word holds is refused as it would be in a table."""
    if isinstance(words, array.array) and words.typecode == "I" and words:
        return (ctypes.c_uint32 * len(words)).from_buffer(words), len(words)
    words = list(words)
    if any(not 0 <= word < 2**32 for word in words):
        raise Refusal(21)
    return (ctypes.c_uint32 * max(1, len(words)))(*words), len(words)


def _answer(number):
    if number:
        raise Refusal(number)


def _count(counted):
    _answer(counted.answer)
    return counted.count


def accept(text):
    """Nothing; raises the Refusal of a presentation text that is not accepted."""
    _answer(_call("accept")(*_bytes(text)))


def measure(text):
    """The words that a build of the presentation text wants."""
    return _count(_call("measure")(*_bytes(text)))


def commutative(text):
    """Whether the group of the presentation text is commutative: every representation of the last level has degree 1."""
    told = _call("commutative")(*_bytes(text))
    _answer(told.answer)
    return told.yes == 1


def build(text):
    """The Table of the presentation text."""
    return Table(build_packed(text))


def build_packed(text):
    """The words of the table of the presentation text, as array("I")."""
    wants = measure(text)
    words = array.array("I", bytes(4 * wants))
    lines = _count(_call("build")(*_bytes(text), *_words(words)))
    return words[: LINE * lines]


def check(text, words):
    """Nothing; raises the Refusal of the text, or of the words as a table of it."""
    _answer(_call("check")(*_bytes(text), *_words(words)))


def read_table(text):
    """The words of a table text, as a list."""
    data, length = _bytes(text)
    have = LINE * max(0, bytes(data)[:length].count(b"\n") - 1)
    words = (ctypes.c_uint32 * max(1, have))()
    lines = _count(_call("read_table")(data, length, words, have))
    return words[: LINE * lines]


def write_table(words):
    """The table text of words, as bytes."""
    data, length = _words(words)
    room = _NAMES + _WIDEST * (length // LINE)
    out = (ctypes.c_uint8 * room)()
    count = _count(_call("write_table")(data, length, out, room))
    return bytes(memoryview(out)[:count])


Column = namedtuple("Column", "row exponent reference")
"""A basis vector goes to basis vector `row` times the root of unity to `exponent`. `reference` is the representation of the level
below whose block has the column; of an intertwiner it is the one that it leads to."""


class Table:
    """A table that was built, or that passed the check."""

    def __init__(self, words):
        """The words are to be those of a table: `build` and `Table.checked` see to that."""
        self.words = list(words)
        self.generators = self.words[-LINE + 3]
        self.levels = []
        line = 0
        while LINE * line < len(self.words):
            level, number, degree = self.words[LINE * line : LINE * line + 3]
            if level > len(self.levels):
                self.levels.append([])
            self.levels[level - 1].append(Representation(self, level, number, degree, line))
            line += self.generators * degree

    @classmethod
    def checked(cls, text, words):
        """The words as a table of the presentation text, if they pass."""
        words = list(words)
        check(text, words)
        return cls(words)

    @property
    def order(self):
        """The order of the group, which exponents are modulo."""
        return sum(rep.degree**2 for rep in self.levels[-1])

    def level(self, number):
        """The representations of a level, from 1 on."""
        if not 1 <= number <= self.generators:
            raise IndexError(f"levels are 1 to {self.generators}")
        return self.levels[number - 1]

    def array(self):
        """The lines as a NumPy array, eight numbers each."""
        import numpy

        return numpy.array(self.words, dtype=numpy.uint32).reshape(-1, LINE)


class Representation:
    """A representation: a matrix for each generator of its level, and an intertwiner for each generator above."""

    def __init__(self, table, level, number, degree, first):
        self.table, self.level, self.number, self.degree, self._first = table, level, number, degree, first

    def matrix(self, generator):
        """The columns of a generator's matrix, from 1 on; above the level it is the intertwiner."""
        if not 1 <= generator <= self.table.generators:
            raise IndexError(f"generators are 1 to {self.table.generators}")
        start = self._first + (generator - 1) * self.degree
        words = self.table.words
        return [Column(*(words[LINE * line + place] for place in (6, 7, 4))) for line in range(start, start + self.degree)]

    def blocks(self):
        """The representations of the level below that it restricts to, block after block; on level 1 it is number 0."""
        columns, blocks, at = self.matrix(1), [], 0
        while at < self.degree:
            blocks.append(columns[at].reference)
            at += self.table.levels[self.level - 2][columns[at].reference].degree if self.level > 1 else 1
        return blocks

    def dense(self, generator):
        """A generator's matrix as a NumPy array of complex numbers."""
        import numpy

        matrix = numpy.zeros((self.degree, self.degree), dtype=complex)
        for number, column in enumerate(self.matrix(generator)):
            matrix[column.row, number] = numpy.exp(2j * numpy.pi * column.exponent / self.table.order)
        return matrix
