"""Multiplication tables of finite semigroups: checks, invariants, parts, embeddings, isomorphisms, CSV text.

Every answer comes from a library that is proved for every input; this module only hands numbers over.

>>> from tickdrizzle import Table
>>> swap = Table([[1, 2], [2, 1]])
>>> everything = Table.transformations(2)
>>> list(swap.embeddings(everything))
[(2, 3)]
>>> Table([[1, 2], [2, 3]])
Traceback (most recent call last):
tickdrizzle.Refusal: cell 4 is no element of the table (question 3)

A table of order n has the elements 1 to n; the cell in row i, column j is the product i·j. A map is a tuple with one image for each
element of its source. Elements count from 1.

Threads: a table is never changed, a call keeps no state and lets other Python threads run, so any number of threads may ask the same
tables. A search cannot be interrupted while it runs; the searches with a limit end within so many trials.

The library is libtickdrizzle.so.1: the file that the environment variable TICKDRIZZLE_LIBRARY names, else the one beside this module,
else the one that the system's loader finds.
"""

from __future__ import annotations

import ctypes
import enum
import operator
import os
from dataclasses import dataclass
from pathlib import Path
from typing import TYPE_CHECKING, Any, Callable, Iterable, Iterator, NamedTuple, Sequence, SupportsIndex, Union, overload

if TYPE_CHECKING:
    import numpy

__version__ = "1.0.0"

__all__ = [
    "ANSWERS", "GREATEST_DEGREE", "GREATEST_ORDER", "LONGEST_NAME", "LONGEST_TEXT", "MORE", "MOST_CELLS", "MOST_COPIES", "MOST_NAMES", "MOST_SCRATCH",
    "STACK", "IndexPeriod", "LimitedSearch", "More", "MapCheck", "MapOutcome", "Names", "Outcome", "Part", "Profile", "Question", "Refusal", "Side",
    "Table", "scratch_size",
]  # fmt: skip

# ---- Limits, as the C header names them.

STACK = 1_000_000
"""Stack bytes that are enough for any call, as measured."""
GREATEST_ORDER = 120
"""The greatest order of a table."""
GREATEST_DEGREE = 3
"""The greatest degree of a table of transformations."""
MOST_CELLS = 14_400
"""The cells of a table of the greatest order."""
MOST_SCRATCH = 1_800
"""The scratch bytes of a search between tables of the greatest order."""
LONGEST_TEXT = 57_720
"""The text of a table of the greatest order whose cells have three digits each."""
MOST_NAMES = 120
"""The most names on a sheet."""
LONGEST_NAME = 40
"""The most bytes of a name."""
MOST_COPIES = 65_535
"""The greatest number of copies that is counted."""
ANSWERS = 16
"""How many numbers an answer has."""

_LONGEST_SHEET = MOST_NAMES * (3 + 1 + 2 * LONGEST_NAME + 2 + 2)


def scratch_size(source_order: int, target_order: int) -> int:
    """The scratch bytes that a search between tables of these orders asks for: a bit for each pair."""
    return (source_order * target_order + 7) // 8


# ---- Questions and refusals.


class Question(enum.IntEnum):
    """A question that a call asks, by its number; the text stands in `text`.

    >>> Question.ASSOCIATIVITY.value, Question.ASSOCIATIVITY.text
    (4, 'is (i.j).k = i.(j.k) for all i, j, k?')
    """

    text: str
    sentence: str

    def __new__(cls, number: int, text: str, sentence: str) -> Question:
        question = int.__new__(cls, number)
        question._value_ = number
        question.text = text
        question.sentence = sentence
        return question

    ORDER = 1, "is the order 1 to 120?", "the order is not 1 to 120"
    CELL_COUNT = 2, "are there exactly n * n cells?", "there are not exactly order × order cells"
    CELL_RANGE = 3, "is every cell 1 to n?", "cell {0} is no element of the table"
    ASSOCIATIVITY = 4, "is (i.j).k = i.(j.k) for all i, j, k?", "({0}·{1})·{2} is not {0}·({1}·{2})"
    MAP_LENGTH = 5, "has the map exactly one byte for each source element?", "the map does not have exactly one byte for each source element"
    SCRATCH_LENGTH = (
        6,
        "has the scratch buffer at least a bit for each pair, source order * target order / 8 bytes rounded up?",
        "the scratch buffer does not have a bit for each pair of elements",
    )
    ELEMENT = 7, "is the element 1 to n?", "the element is not in the table"
    DEGREE = 8, "is the degree 1 to 3?", "the degree is not 1 to 3"
    TABLE_ROOM = 9, "has the buffer room for the table of transformations?", "the buffer has no room for the table of transformations"
    TEXT_LENGTH = 20, "is the text 1 to 57720 bytes long?", "the text is not 1 to 57,720 bytes long"
    TEXT_BYTE = (
        21,
        "is every byte a digit, a comma or part of a CR LF pair?",
        "byte {0} is not a digit, a comma or part of a CR LF pair",
    )
    FIELD_LENGTH = 23, "is each field 1 to 3 bytes long?", "a field is empty or has more than three digits"
    FIELD_START = 24, "is its first byte other than 0?", "a field starts with 0"
    FIELD_RANGE = 25, "is it at most 120?", "a field is above 120"
    SQUARE = (
        26,
        "are there as many records as the first has fields, each with that many?",
        "there are not as many records as the first has fields, each with that many",
    )
    CELL_ROOM = 27, "has each buffer room for what is loaded?", "the buffer has no room for the cells"
    TEXT_ROOM = 28, "has the buffer room for the text?", "the buffer has no room for the text"
    SHEET = 40, "is the sheet one or more records of two fields?", "after {0} bytes the text is no longer a sheet of two fields a record"
    NAME = 41, "is the name 1 to 40 bytes from 20 to 7E?", "name {0} is not 1 to 40 bytes from 20 to 7E"
    NAME_NUMBER = 42, "is the number the next and at most 120?", "the number of record {0} is not the next, or above 120"
    GENERATOR = 50, "is every entry of the list 1 to n?", "an entry of the list is no element of the table"
    GENERATION = 51, "does the list generate all n elements?", "the list does not generate all elements"
    CHOSEN = 60, "is the list not empty and every entry 1 to n?", "the list is empty, or an entry is no element of the table"
    PART_ROOM = 61, "has the buffer room for the cells of the part?", "the buffer has no room for the cells of the part"
    ELEMENTS_ROOM = 62, "has the buffer room for the elements of the part?", "the buffer has no room for the elements of the part"
    PAIRS_LENGTH = (
        70,
        "have the pairs at least a bit for each pair, source order * target order / 8 bytes rounded up?",
        "the pairs do not have a bit for each pair of elements",
    )
    POSITION_ROOM = 80, "has the buffer room for three positions of each element?", "the buffer has no room for three positions of each element"


class Side(enum.IntEnum):
    """The table that a refusal names, in a call with two tables."""

    SOURCE = 1
    TARGET = 2


_QUESTIONS = {int(question): question for question in Question}

# How many values a refusal by a question carries.
_CARRIED = {
    Question.CELL_RANGE: 1, Question.ASSOCIATIVITY: 3, Question.TEXT_BYTE: 1, Question.SHEET: 1, Question.NAME: 1, Question.NAME_NUMBER: 1,
}  # fmt: skip


class Refusal(ValueError):
    """The earliest question that failed.

    `number` is the question's number and `question` the question, `place` the values that go with it, such as the cell or the three
    elements, `side` the table that it is about where there are two, `sentence` what is wrong.

    >>> try:
    ...     Table([[2, 1], [1, 1]])
    ... except Refusal as refusal:
    ...     refusal.number, refusal.place, refusal.sentence
    (4, (1, 1, 2), '(1·1)·2 is not 1·(1·2)')
    """

    number: int
    question: Question
    place: tuple[int, ...]
    side: Side | None
    sentence: str

    def __init__(self, number: int, place: tuple[int, ...] = (), side: Side | None = None) -> None:
        self.question = _QUESTIONS[number]
        self.number, self.place, self.side = number, place, side
        self.sentence = self.question.sentence.format(*place)
        if self.question is Question.NAME_NUMBER and place == (0,):
            self.sentence = "there are not 1 to 120 names"
        super().__init__(number, place, side)

    def __str__(self) -> str:
        side = "" if self.side is None else f"the {self.side.name.lower()}: "
        return f"{side}{self.sentence} (question {self.number})"


# ---- The library's calls.

# The arguments of each call: r bytes that are read, w bytes that are written, n a number, l a limit of trials.
_SEARCH = "rnrnww"
_CALLS = {
    "check_table": "rn",
    "index_period": "rnn",
    "profile": "rnn",
    "check_map": "rnrnr",
    "check_generated": "rnr",
    "subsemigroup": "rnrww",
    "first_embedding": _SEARCH,
    "next_embedding": _SEARCH,
    "first_isomorphism": _SEARCH,
    "next_isomorphism": _SEARCH,
    "first_reversed_isomorphism": _SEARCH,
    "next_reversed_isomorphism": _SEARCH,
    "transformations": "nw",
    "load": "rw",
    "save": "rnw",
    "first_embedding_within": _SEARCH + "l",
    "first_isomorphism_within": _SEARCH + "l",
    "first_reversed_isomorphism_within": _SEARCH + "l",
    "first_embedding_among": "rnrnrww",
    "next_embedding_among": "rnrnrww",
    "least_degree": "rnw",
    "load_names": "rww",
    "save_names": "rrw",
    "copies": "rnrnw",
}

_TYPES: dict[str, list[Any]] = {
    "r": [ctypes.c_char_p, ctypes.c_size_t],
    "w": [ctypes.c_char_p, ctypes.c_size_t],
    "n": [ctypes.c_size_t],
    "l": [ctypes.c_uint32],
}

_Answer = ctypes.c_uint64 * ANSWERS


def _open() -> ctypes.CDLL:
    """The shared library, its calls with their types."""
    beside = Path(__file__).with_name("libtickdrizzle.so.1")
    name = os.environ.get("TICKDRIZZLE_LIBRARY") or (str(beside) if beside.exists() else "libtickdrizzle.so.1")
    try:
        library = ctypes.CDLL(name)
    except OSError as error:
        raise ImportError(f"{error}; install libtickdrizzle.so.1, or name it in TICKDRIZZLE_LIBRARY") from None
    for call, arguments in _CALLS.items():
        function = library[f"tickdrizzle_{call}"]
        function.argtypes = [*(part for kind in arguments for part in _TYPES[kind]), ctypes.POINTER(ctypes.c_uint64)]
        function.restype = None
        setattr(library, call, function)
    return library


_LIBRARY = _open()

_GREATEST_NUMBER = 2**64 - 1
_GREATEST_LIMIT = 2**32 - 1


def _number(number: SupportsIndex) -> int:
    """A number as it is handed over. One that does not fit is none that any question accepts, and neither is the one that stands in."""
    number = operator.index(number)
    return number if 0 <= number <= _GREATEST_NUMBER else _GREATEST_NUMBER


def _limit(limit: SupportsIndex) -> int:
    limit = operator.index(limit)
    if not 0 <= limit <= _GREATEST_LIMIT:
        raise ValueError(f"the limit is not 0 to {_GREATEST_LIMIT:,}")
    return limit


def _bytes(entries: Iterable[SupportsIndex]) -> bytes:
    """Elements as bytes. What does not fit in a byte is no element, and neither is 0, which stands in."""
    if isinstance(entries, (bytes, bytearray)):
        return bytes(entries)
    numbers = (operator.index(entry) for entry in entries)
    return bytes(number if 0 <= number <= 255 else 0 for number in numbers)


def _call(name: str, *arguments: Union[bytes, bytearray, int]) -> tuple[int, ...]:
    """Makes a call: bytes are read, a bytearray is written, numbers are handed over. The sixteen numbers of the answer.

    Each buffer is handed over as a copy of its own, so that none overlaps another and no pointer is NULL.
    """
    values: list[Any] = []
    written: list[tuple[bytearray, Any]] = []
    for argument in arguments:
        if isinstance(argument, int):
            values.append(argument)
        elif isinstance(argument, bytes):
            values += [argument, len(argument)]
        else:
            buffer = ctypes.create_string_buffer(bytes(argument), len(argument) + 1)
            written.append((argument, buffer))
            values += [buffer, len(argument)]
    answer = _Answer()
    getattr(_LIBRARY, name)(*values, answer)
    for argument, buffer in written:
        argument[:] = buffer.raw[: len(argument)]
    return tuple(answer)


def _asked(name: str, *arguments: Union[bytes, bytearray, int]) -> tuple[int, ...]:
    """Makes a call; the values of its answer. Raises its refusal."""
    number, side, *values = _call(name, *arguments)
    if number != 0:
        raise Refusal(number, tuple(values[: _CARRIED.get(_QUESTIONS[number], 0)]), Side(side) if side else None)
    return tuple(values)


# ---- Answers.


@dataclass(frozen=True)
class IndexPeriod:
    """Index, period and idempotent power of an element."""

    index: int
    period: int
    idempotent: int


@dataclass(frozen=True)
class Profile:
    """The profile of an element. Every isomorphism keeps its counts, and takes its idempotent power to that of the image."""

    index: int
    period: int
    idempotent: int
    frequency: int
    diagonal: int
    row: int
    column: int
    commuting: int


class MapOutcome(enum.IntEnum):
    """What a map check says."""

    HOLDS = 0
    OUTSIDE = 1
    EQUAL_IMAGES = 2
    WRONG_PRODUCT = 3


class MapCheck(NamedTuple):
    """That a map is an embedding, or its earliest fault with the elements it is about. True exactly if it is an embedding."""

    outcome: MapOutcome
    elements: tuple[int, ...]

    def __bool__(self) -> bool:
        return self.outcome is MapOutcome.HOLDS


class Outcome(enum.IntEnum):
    """What a search with a limit says."""

    NONE = 0
    FOUND = 1
    STOPPED = 2


class LimitedSearch(NamedTuple):
    """What a search with a limit says: the outcome, the exact number of trials unless it stopped, the map where it is found."""

    outcome: Outcome
    trials: int | None
    map: tuple[int, ...] | None


class More(enum.Enum):
    """The answer that there are more copies than are counted."""

    MORE = "more"


MORE = More.MORE
"""There are more copies than `MOST_COPIES`."""


class Part(NamedTuple):
    """A part of a table that holds every product of its own members."""

    table: Table
    """The part, renumbered from 1."""
    elements: tuple[int, ...]
    """Its elements in the whole table, in rising order: an embedding of the part."""


# ---- Tables.


class Table:
    """The multiplication table of a finite semigroup, checked once.

    Takes rows: lists, tuples, or a two-dimensional numpy array of integers.

    >>> swap = Table([[1, 2], [2, 1]])
    >>> swap.order, swap[2, 2], swap.rows
    (2, 1, ((1, 2), (2, 1)))
    >>> swap == Table.from_csv(b"1,2\\r\\n2,1\\r\\n")
    True
    >>> Table([[1, 2], [2]])
    Traceback (most recent call last):
    ValueError: row 2 has length 1, not 2
    """

    __slots__ = ("_cells", "_order")

    _cells: bytes
    _order: int

    def __init__(self, rows: Sequence[Sequence[SupportsIndex]] | numpy.ndarray[Any, Any]) -> None:
        order = len(rows)
        for place, row in enumerate(rows, 1):
            if len(row) != order:
                raise ValueError(f"row {place} has length {len(row)}, not {order}")
        cells = _bytes(cell for row in rows for cell in row)
        _asked("check_table", cells, _number(order))
        self._cells, self._order = cells, order

    @classmethod
    def _accepted(cls, cells: bytes, order: int) -> Table:
        table = cls.__new__(cls)
        table._cells, table._order = cells, order
        return table

    @classmethod
    def from_cells(cls, cells: Iterable[SupportsIndex], order: SupportsIndex) -> Table:
        """The table with these cells, row after row.

        >>> Table.from_cells([1, 2, 2], 2)
        Traceback (most recent call last):
        tickdrizzle.Refusal: there are not exactly order × order cells (question 2)
        """
        cells, order = _bytes(cells), _number(order)
        _asked("check_table", cells, order)
        return cls._accepted(cells, order)

    @classmethod
    def generated(cls, cells: Iterable[SupportsIndex], order: SupportsIndex, generators: Iterable[SupportsIndex]) -> Table:
        """The table with these cells, given a list of elements of which all others are products. Fewer triples are looked at; the same
        tables are accepted.

        >>> Table.generated([1, 2, 2, 1], 2, [2]) == Table([[1, 2], [2, 1]])
        True
        >>> Table.generated([1, 2, 2, 1], 2, [1])
        Traceback (most recent call last):
        tickdrizzle.Refusal: the list does not generate all elements (question 51)
        """
        cells, order = _bytes(cells), _number(order)
        _asked("check_generated", cells, order, _bytes(generators))
        return cls._accepted(cells, order)

    @classmethod
    def transformations(cls, degree: SupportsIndex) -> Table:
        """The table of all transformations of 1, 2 or 3 points, numbered in list order and composed from left to right.

        >>> Table.transformations(3).order
        27
        """
        cells = bytearray(MOST_CELLS)
        order, *_ = _asked("transformations", _number(degree), cells)
        return cls._accepted(bytes(cells[: order * order]), order)

    @classmethod
    def from_csv(cls, text: bytes | str) -> Table:
        """The table in a CSV text: records closed by CR LF, the last one or not, no header, no quotes.

        >>> Table.from_csv("1,2\\r\\n2,x")
        Traceback (most recent call last):
        tickdrizzle.Refusal: byte 7 is not a digit, a comma or part of a CR LF pair (question 21)
        """
        cells = bytearray(MOST_CELLS)
        order, *_ = _asked("load", text.encode() if isinstance(text, str) else bytes(text), cells)
        return cls.from_cells(bytes(cells[: order * order]), order)

    @classmethod
    def load(cls, path: str | os.PathLike[str]) -> Table:
        """The table in a CSV file."""
        return cls.from_csv(Path(path).read_bytes())

    def to_csv(self) -> bytes:
        """The CSV text of the table.

        >>> Table([[1, 2], [2, 1]]).to_csv()
        b'1,2\\r\\n2,1\\r\\n'
        """
        text = bytearray(LONGEST_TEXT)
        length, *_ = _asked("save", self._cells, self._order, text)
        return bytes(text[:length])

    def save(self, path: str | os.PathLike[str]) -> None:
        """Writes the table to a CSV file."""
        Path(path).write_bytes(self.to_csv())

    @property
    def order(self) -> int:
        """The number of elements."""
        return self._order

    @property
    def cells(self) -> bytes:
        """The cells, row after row, a byte each."""
        return self._cells

    @property
    def rows(self) -> tuple[tuple[int, ...], ...]:
        """The rows."""
        return tuple(tuple(self._cells[start : start + self._order]) for start in range(0, len(self._cells), self._order))

    def __getitem__(self, factors: tuple[SupportsIndex, SupportsIndex]) -> int:
        """The product i·j, as `table[i, j]`."""
        i, j = (operator.index(factor) for factor in factors)
        if not (1 <= i <= self._order and 1 <= j <= self._order):
            raise IndexError(f"{i} or {j} is not 1 to {self._order}")
        return self._cells[(i - 1) * self._order + (j - 1)]

    def __array__(self, dtype: Any = None, copy: bool | None = None) -> numpy.ndarray[Any, Any]:
        """The rows as a numpy array, which is always a copy: `numpy.array(table)`."""
        import numpy

        if copy is False:
            raise ValueError("the array of a table is a copy")
        return numpy.array(self.rows, dtype=dtype or numpy.uint8)

    def __eq__(self, other: object) -> bool:
        return isinstance(other, Table) and self._cells == other._cells

    def __hash__(self) -> int:
        return hash(self._cells)

    def __repr__(self) -> str:
        return f"Table({[list(row) for row in self.rows]})"

    def index_period(self, element: SupportsIndex) -> IndexPeriod:
        """Index, period and idempotent power of an element.

        >>> Table([[1, 2], [2, 1]]).index_period(2)
        IndexPeriod(index=1, period=2, idempotent=1)
        """
        return IndexPeriod(*_asked("index_period", self._cells, self._order, _number(element))[:3])

    def profile(self, element: SupportsIndex) -> Profile:
        """The profile of an element.

        >>> Table([[1, 2], [2, 1]]).profile(2).commuting
        2
        """
        return Profile(*_asked("profile", self._cells, self._order, _number(element))[:8])

    def check_map(self, target: Table, images: Iterable[SupportsIndex]) -> MapCheck:
        """Whether a map is an embedding of this table in the target, or its earliest fault.

        >>> swap, everything = Table([[1, 2], [2, 1]]), Table.transformations(2)
        >>> bool(swap.check_map(everything, (2, 3)))
        True
        >>> swap.check_map(everything, (1, 3))
        MapCheck(outcome=<MapOutcome.WRONG_PRODUCT: 3>, elements=(1, 2))
        """
        outcome, *elements = _asked("check_map", *self._lent(target), _bytes(images))
        return MapCheck(MapOutcome(outcome), tuple(element for element in elements if element))

    def part(self, chosen: Iterable[SupportsIndex]) -> Part:
        """The smallest part that holds the chosen elements and every product of its own members.

        >>> Table.transformations(2).part([3])
        Part(table=Table([[1, 2], [2, 1]]), elements=(2, 3))
        """
        cells, elements = bytearray(MOST_CELLS), bytearray(GREATEST_ORDER)
        order, *_ = _asked("subsemigroup", self._cells, self._order, _bytes(chosen), cells, elements)
        return Part(Table._accepted(bytes(cells[: order * order]), order), tuple(elements[:order]))

    def positions(self) -> tuple[tuple[int, ...], ...] | None:
        """The fewest rest positions, 1 to 3: for each element in turn where it takes each of them, under the first embedding in a table
        of transformations; None where three are not enough.

        >>> Table([[1, 2], [2, 1]]).positions()
        ((1, 2), (2, 1))
        """
        positions = bytearray(self._order * GREATEST_DEGREE)
        degree, *_ = _asked("least_degree", self._cells, self._order, positions)
        if degree == 0:
            return None
        return tuple(tuple(positions[start : start + degree]) for start in range(0, self._order * degree, degree))

    def degree(self) -> int | None:
        """The least degree, 1 to 3, whose table of transformations holds an embedding of this table; None where there is none.

        >>> Table([[1, 2], [2, 1]]).degree(), Table([[1] * 4] * 4).degree()
        (2, None)
        """
        positions = self.positions()
        return None if positions is None else len(positions[0])

    def copies(self, target: Table) -> int | More:
        """The number of different copies of this table in the target, of the image sets of its embeddings; `MORE` where there are more
        than 65,535.

        >>> Table([[1]]).copies(Table.transformations(2))
        3
        """
        outcome, number, *_ = _asked("copies", *self._lent(target), self._scratch(target))
        return MORE if outcome else number

    def embeddings(self, target: Table) -> Iterator[tuple[int, ...]]:
        """Every embedding of this table in the target, earliest first.

        >>> right = Table([[1, 2], [1, 2]])
        >>> list(right.embeddings(Table.transformations(2)))
        [(1, 4), (4, 1)]
        """
        return self._maps(target, "embedding")

    def embeddings_among(self, target: Table, allowed: Callable[[int, int], bool]) -> Iterator[tuple[int, ...]]:
        """Every embedding of this table in the target for which `allowed` holds of each element and its image, earliest first.

        >>> left = Table([[1, 1], [2, 2]])
        >>> list(left.embeddings_among(left, lambda i, j: i != 1 or j == 2))
        [(2, 1)]
        """
        pairs = bytearray(scratch_size(self._order, target._order))
        for i in range(self._order):
            for j in range(target._order):
                place, bit = divmod(i * target._order + j, 8)
                pairs[place] |= bool(allowed(i + 1, j + 1)) << bit
        return self._maps(target, "embedding", bytes(pairs))

    def isomorphisms(self, target: Table) -> Iterator[tuple[int, ...]]:
        """Every isomorphism of this table onto the target, earliest first.

        >>> left = Table([[1, 1], [2, 2]])
        >>> list(left.isomorphisms(left))
        [(1, 2), (2, 1)]
        """
        return self._maps(target, "isomorphism")

    def reversed_isomorphisms(self, target: Table) -> Iterator[tuple[int, ...]]:
        """Every reversed isomorphism of this table onto the target, earliest first: one to one, onto, and the image of i·j is the image of
        j times the image of i.

        >>> left, right = Table([[1, 1], [2, 2]]), Table([[1, 2], [1, 2]])
        >>> next(left.isomorphisms(right), None), next(left.reversed_isomorphisms(right))
        (None, (1, 2))
        """
        return self._maps(target, "reversed_isomorphism")

    def embedding_within(self, target: Table, limit: SupportsIndex) -> LimitedSearch:
        """The earliest embedding of this table in the target within so many trials.

        >>> swap, everything = Table([[1, 2], [2, 1]]), Table.transformations(2)
        >>> swap.embedding_within(everything, 4)
        LimitedSearch(outcome=<Outcome.FOUND: 1>, trials=4, map=(2, 3))
        >>> swap.embedding_within(everything, 3)
        LimitedSearch(outcome=<Outcome.STOPPED: 2>, trials=None, map=None)
        """
        return self._within(target, "embedding", limit)

    def isomorphism_within(self, target: Table, limit: SupportsIndex) -> LimitedSearch:
        """The earliest isomorphism of this table onto the target within so many trials.

        >>> left, right = Table([[1, 1], [2, 2]]), Table([[1, 2], [1, 2]])
        >>> left.isomorphism_within(right, 100)
        LimitedSearch(outcome=<Outcome.NONE: 0>, trials=0, map=None)
        """
        return self._within(target, "isomorphism", limit)

    def reversed_isomorphism_within(self, target: Table, limit: SupportsIndex) -> LimitedSearch:
        """The earliest reversed isomorphism of this table onto the target within so many trials.

        >>> left, right = Table([[1, 1], [2, 2]]), Table([[1, 2], [1, 2]])
        >>> left.reversed_isomorphism_within(right, 2)
        LimitedSearch(outcome=<Outcome.FOUND: 1>, trials=2, map=(1, 2))
        """
        return self._within(target, "reversed_isomorphism", limit)

    def _lent(self, target: Table) -> tuple[bytes, int, bytes, int]:
        return self._cells, self._order, target._cells, target._order

    def _scratch(self, target: Table) -> bytearray:
        return bytearray(scratch_size(self._order, target._order))

    def _maps(self, target: Table, kind: str, *pairs: bytes) -> Iterator[tuple[int, ...]]:
        """All maps of a kind; with pairs, among them."""
        images, search, among = bytearray(self._order), "first", "_among" * len(pairs)
        while _asked(f"{search}_{kind}{among}", *self._lent(target), *pairs, images, self._scratch(target))[0] == Outcome.FOUND:
            yield tuple(images)
            search = "next"

    def _within(self, target: Table, kind: str, limit: SupportsIndex) -> LimitedSearch:
        images = bytearray(self._order)
        said, trials, *_ = _asked(f"first_{kind}_within", *self._lent(target), images, self._scratch(target), _limit(limit))
        outcome = Outcome(said)
        return LimitedSearch(outcome, None if outcome is Outcome.STOPPED else trials, tuple(images) if outcome is Outcome.FOUND else None)


# ---- Names.


class Names(Sequence[str]):
    """The names of the elements 1, 2 and so on: 1 to 120 names, each 1 to 40 bytes of printable ASCII.

    >>> names = Names(["dim", "stop, go"])
    >>> names.to_csv()
    b'1,dim\\r\\n2,"stop, go"\\r\\n'
    >>> Names.from_csv(names.to_csv()).of(2)
    'stop, go'
    >>> Names(["dim", ""])
    Traceback (most recent call last):
    tickdrizzle.Refusal: name 2 is not 1 to 40 bytes from 20 to 7E (question 41)
    """

    __slots__ = ("_names",)

    _names: tuple[str, ...]

    def __init__(self, names: Iterable[str]) -> None:
        self._names = tuple(names)
        self.to_csv()

    @classmethod
    def from_csv(cls, text: bytes | str) -> Names:
        """The names on a sheet: CSV text with one record for each name, its number, rising by one from 1, and the name."""
        names, lengths = bytearray(MOST_NAMES * LONGEST_NAME), bytearray(MOST_NAMES)
        count, *_ = _asked("load_names", text.encode() if isinstance(text, str) else bytes(text), names, lengths)
        ends = [sum(lengths[: place + 1]) for place in range(count)]
        return cls(names[end - length : end].decode("ascii") for end, length in zip(ends, lengths))

    @classmethod
    def load(cls, path: str | os.PathLike[str]) -> Names:
        """The names on a sheet in a file."""
        return cls.from_csv(Path(path).read_bytes())

    def to_csv(self) -> bytes:
        """The sheet of the names: exactly those with a comma or a quote mark are quoted."""
        encoded = [name.encode() for name in self._names]
        # A name that is too long for a length byte is refused by the length 255 as well.
        lengths = bytes(min(len(name), 255) for name in encoded)
        text = bytearray(_LONGEST_SHEET)
        length, *_ = _asked("save_names", b"".join(encoded), lengths, text)
        return bytes(text[:length])

    def save(self, path: str | os.PathLike[str]) -> None:
        """Writes the sheet of the names to a file."""
        Path(path).write_bytes(self.to_csv())

    def of(self, element: SupportsIndex) -> str:
        """The name of an element, counted from 1."""
        place = operator.index(element)
        if not 1 <= place <= len(self._names):
            raise IndexError(f"{place} is not 1 to {len(self._names)}")
        return self._names[place - 1]

    @overload
    def __getitem__(self, place: int) -> str: ...

    @overload
    def __getitem__(self, place: slice) -> tuple[str, ...]: ...

    def __getitem__(self, place: int | slice) -> str | tuple[str, ...]:
        return self._names[place]

    def __len__(self) -> int:
        return len(self._names)

    def __eq__(self, other: object) -> bool:
        return isinstance(other, Names) and self._names == other._names

    def __hash__(self) -> int:
        return hash(self._names)

    def __repr__(self) -> str:
        return f"Names({list(self._names)})"
