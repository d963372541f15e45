"""The proved root finder: roots of polynomials over GF(2^m), m = 4, 8 or 11, claims of roots, a corrector and an
encoder of blocks, and job files.

    >>> import locator
    >>> locator.roots(4, [6, 7, 0, 1])              # z^3 + 7z + 6, the constant first
    [1, 2, 3]
    >>> locator.solve(4, [2, 0, 1])                 # z^2 + 2: one root, double
    Solved(roots=[5], multiplicities=[2], steps=0)
    >>> locator.roots(5, [1, 1])
    Traceback (most recent call last):
    locator.Refused: there is no field of this degree (1)

The calls are those of liblocator, whose code is proved to do what include/locator.h says; lists go in and come out,
and what is turned away is an exception with its number. Everything here but those calls is tested and not proved:
this module itself, `filled`, `data` and `read`.

The library is looked for in this order: the file or folder that LOCATOR_LIB names, what tools/library --shared builds
in the repository that this file stands in, and what the system's loader finds (tools/install puts it there).
"""
from __future__ import annotations

import ctypes
import ctypes.util
import enum
import os
import pathlib
import platform
from typing import Iterable, Iterator, NamedTuple, Optional, Sequence

__all__ = [
    "VERSION", "FIELDS", "SLOTS", "STORED_SLOTS", "ROOTS", "COEFFICIENTS", "ELEMENTS", "WORD", "RECORD",
    "Outcome", "Convention", "Refused", "Quadratic", "Solved", "Space", "Claim", "Corrected", "Record", "Table",
    "product", "inverse", "position", "quadratic", "roots", "solve", "search", "affine",
    "prove", "check", "correct", "encode", "filled", "data", "write", "read", "salvage",
]  # fmt: skip

VERSION = "0.1.0"

FIELDS = (4, 8, 11)
"""The degrees of the fields."""
SLOTS = 196
"""The slots of a new work table."""
STORED_SLOTS = 100
"""The slots of a work table that was stored when polynomials had a degree of at most 32."""
ROOTS = 64
"""The most distinct roots of a polynomial, and the most of a record."""
COEFFICIENTS = 65
"""The most coefficients of a polynomial."""
ELEMENTS = 2048
"""The most roots of an affine polynomial."""
WORD = 256
"""The bytes of a block corrector's word."""
RECORD = 135
"""The most bytes of a record that `write` makes."""


class Outcome(enum.IntEnum):
    """What a call or a record of a job file gives: 0, or the number under which it is turned away."""

    ACCEPTED = 0
    FIELD = 1
    EMPTY = 2
    LONG = 3
    ELEMENT = 4
    ALL_ZERO = 5
    CUTOFF = 6
    ROOM = 7
    UNSOUND = 8
    STUCK = 9
    NOT_DONE = 10
    MARK = 11
    SHORT = 12
    OF_ZERO = 13
    COUNT = 20
    CONVENTION = 21
    BLOCK = 22
    STRENGTH = 23
    FAR = 24
    ORDER = 25

    @property
    def reason(self) -> str:
        """What it means: the text that locator_reason gives in C."""
        return _REASONS[self]


_REASONS = {
    Outcome.ACCEPTED: "accepted",
    Outcome.FIELD: "there is no field of this degree",
    Outcome.EMPTY: "there are no coefficients",
    Outcome.LONG: "there are more than 65 coefficients, or 64 roots of a record",
    Outcome.ELEMENT: "an element, a coefficient or a root is 2^m or more",
    Outcome.ALL_ZERO: "every coefficient is 0",
    Outcome.CUTOFF: "the cutoff is above 3",
    Outcome.ROOM: "a buffer is too small, or a table has neither 196 nor 100 slots",
    Outcome.UNSOUND: "the table is not sound",
    Outcome.STUCK: "the table cannot be stepped",
    Outcome.NOT_DONE: "the table is not done",
    Outcome.MARK: "a record does not begin with its mark",
    Outcome.SHORT: "a record ends early",
    Outcome.OF_ZERO: "0 has no inverse and no position",
    Outcome.COUNT: "an affine polynomial has not m coefficients",
    Outcome.CONVENTION: "the convention is neither 0 nor 1",
    Outcome.BLOCK: "the word has not 256 bytes, or its last bit is set",
    Outcome.STRENGTH: "the strength is not 1 to 8",
    Outcome.FAR: "no codeword is within the strength",
    Outcome.ORDER: "the roots of a record are not strictly ascending",
}


class Refused(ValueError):
    """An input that a call turns away. `number` is the number, `outcome` its name."""

    def __init__(self, number: int):
        self.outcome = Outcome(number)
        self.number = int(number)
        super().__init__(f"{self.outcome.reason} ({number})")

    def __reduce__(self):
        return type(self), (self.number,)


class Convention(enum.IntEnum):
    """How a locator is built from the bad bits, with X = 2^place for each."""

    GOPPA = 0
    """The product of (z + X), whose roots are the X."""
    RECORDERS = 1
    """The product of (1 + X z), whose roots are the inverses of the X."""


class Quadratic(NamedTuple):
    """The distinct roots of z^2 + a z + b, the lower first; `doubled` where there is one, which is then double."""

    roots: list[int]
    doubled: bool


class Solved(NamedTuple):
    """The distinct roots, ascending, the multiplicity of each at the same place, and how many splitting steps there
    are."""

    roots: list[int]
    multiplicities: list[int]
    steps: int


class Space(NamedTuple):
    """The roots of an affine polynomial, ascending: 2^dimension of them, or none, with `dimension` None."""

    dimension: Optional[int]
    roots: list[int]


class Corrected(NamedTuple):
    """The codeword, and how many bits of the word were wrong."""

    word: bytes
    flips: int


# ---- the library


class _Value(ctypes.Structure):
    _fields_ = [("outcome", ctypes.c_uint16), ("value", ctypes.c_uint16)]


class _Pair(ctypes.Structure):
    _fields_ = [(name, ctypes.c_uint16) for name in ("outcome", "count", "lower", "upper", "doubled")]


class _Found(ctypes.Structure):
    _fields_ = [(name, ctypes.c_uint16) for name in ("outcome", "count", "steps")]


class _Salvaged(ctypes.Structure):
    _fields_ = [("outcome", ctypes.c_uint16), ("length", ctypes.c_size_t)]


_U16, _SIZE = ctypes.c_uint16, ctypes.c_size_t
_LIST, _BYTES = ctypes.POINTER(ctypes.c_uint16), ctypes.POINTER(ctypes.c_uint8)
_CALLS = {
    "product": (_Value, _U16, _U16, _U16),
    "inverse": (_Value, _U16, _U16),
    "position": (_Value, _U16, _U16, _U16),
    "quadratic": (_Pair, _U16, _U16, _U16),
    "solve": (_Found, _U16, _LIST, _SIZE, _U16, _LIST, _SIZE, _LIST, _SIZE),
    "search": (_Found, _U16, _LIST, _SIZE, _LIST, _SIZE, _LIST, _SIZE),
    "affine": (_Found, _U16, _LIST, _SIZE, _U16, _LIST, _SIZE),
    "begin": (_U16, _U16, _LIST, _SIZE, _U16, _LIST, _SIZE),
    "step": (_Value, _LIST, _SIZE),
    "finish": (_Found, _LIST, _SIZE, _LIST, _SIZE),
    "correct": (_Value, _U16, _BYTES, _SIZE),
    "encode": (_Value, _U16, _BYTES, _SIZE),
    "check": (_Value, _U16, _LIST, _SIZE, _LIST, _SIZE, _LIST, _SIZE, _LIST, _SIZE, _LIST, _SIZE, _LIST, _SIZE),
    "prove": (_Value, _U16, _LIST, _SIZE, _LIST, _SIZE, _LIST, _SIZE, _LIST, _SIZE, _LIST, _SIZE, _LIST, _SIZE),
    "salvage": (_Salvaged, _BYTES, _SIZE, _BYTES, _SIZE),
    "write": (_Value, _U16, _U16, _LIST, _SIZE, _BYTES, _SIZE),
}
_NAME = f"liblocator.so.{VERSION.split('.')[0]}"


def _candidates() -> Iterator[str]:
    """Where the library may be, the likeliest first."""
    named = os.environ.get("LOCATOR_LIB")
    if named:
        yield str(pathlib.Path(named) / _NAME if pathlib.Path(named).is_dir() else named)
        return
    machine = {"x86_64": "x86-64", "AMD64": "x86-64"}.get(platform.machine(), platform.machine())
    built = pathlib.Path(__file__).resolve().parent.parent.parent / "target" / machine / _NAME
    if built.is_file():
        yield str(built)
    yield _NAME
    found = ctypes.util.find_library("locator")
    if found:
        yield found


def _load() -> ctypes.CDLL:
    why = "it is nowhere"
    for name in _candidates():
        try:
            library = ctypes.CDLL(name)
        except OSError as error:
            why = str(error)
            continue
        for call, (result, *words) in _CALLS.items():
            function = getattr(library, f"locator_{call}")
            function.restype, function.argtypes = result, words
        return library
    how = "run tools/library --shared in the repository, or tools/install, or set LOCATOR_LIB to its file"
    raise ImportError(f"{_NAME} cannot be loaded ({why}): {how}")


_library = _load()


def _number(x: int) -> int:
    """A number that 16 bits hold. ctypes would cut a greater one off in silence."""
    if not 0 <= x <= 0xFFFF:
        raise OverflowError(f"{x} is not a number of 16 bits")
    return x


def _list(numbers: Iterable[int]) -> ctypes.Array:
    held = [_number(x) for x in numbers]
    return (ctypes.c_uint16 * len(held))(*held)


def _room(slots: int) -> ctypes.Array:
    return (ctypes.c_uint16 * slots)()


def _words(*lists: ctypes.Array) -> Iterator[object]:
    """Each list, and behind it how many elements it has, as the calls take them."""
    for one in lists:
        yield one
        yield len(one)


def _top(polynomial: ctypes.Array) -> list[int]:
    """The coefficients without zeros at the top; the constant stays."""
    n = len(polynomial)
    while n > 1 and polynomial[n - 1] == 0:
        n -= 1
    return polynomial[:n]


def _lent(data: bytes) -> ctypes.Array:
    held = bytes(data)
    return (ctypes.c_uint8 * len(held)).from_buffer_copy(held)


def _accepted(outcome: int) -> None:
    if outcome:
        raise Refused(outcome)


def _value(result: _Value) -> int:
    _accepted(result.outcome)
    return result.value


# ---- elements


def product(m: int, a: int, b: int) -> int:
    """The product of two elements of the field of 2^m. Refused: 1, 4."""
    return _value(_library.locator_product(_number(m), _number(a), _number(b)))


def inverse(m: int, a: int) -> int:
    """The x with a x = 1. Refused: 1, 4, 13."""
    return _value(_library.locator_inverse(_number(m), _number(a)))


def position(m: int, root: int, convention: Convention) -> int:
    """The place, 0 to 2^m - 2, of the bad bit that a root of a locator stands for. Refused: 1, 21, 4, 13.

    The places mean something only where the locator has as many distinct roots as its degree."""
    return _value(_library.locator_position(_number(m), _number(root), _number(convention)))


def quadratic(m: int, a: int, b: int) -> Quadratic:
    """The distinct roots of z^2 + a z + b. Refused: 1, 4."""
    pair = _library.locator_quadratic(_number(m), _number(a), _number(b))
    _accepted(pair.outcome)
    return Quadratic([pair.lower, pair.upper][: pair.count], bool(pair.doubled))


# ---- polynomials


def solve(m: int, coefficients: Iterable[int], cutoff: int = 0) -> Solved:
    """All distinct roots with their multiplicities, by splitting along the trace. Refused: 1 to 6.

    The constant comes first; the cutoff is 1, 2 or 3, or 0 for the house default, and only the steps depend on it. A
    decoder must compare the number of roots with the degree of its locator: with fewer, the word has more bad bits
    than its code corrects."""
    given, found, often = _list(coefficients), _room(ROOTS), _room(ROOTS)
    told = _library.locator_solve(_number(m), given, len(given), _number(cutoff), found, ROOTS, often, ROOTS)
    _accepted(told.outcome)
    return Solved(found[: told.count], often[: told.count], told.steps)


def roots(m: int, coefficients: Iterable[int]) -> list[int]:
    """All distinct roots, ascending: `solve` without the rest. Refused: 1 to 5."""
    return solve(m, coefficients).roots


def search(m: int, coefficients: Iterable[int]) -> Solved:
    """What `solve` gives, by trying every element; it takes no steps. Refused: 1 to 5."""
    given, found, often = _list(coefficients), _room(ROOTS), _room(ROOTS)
    told = _library.locator_search(_number(m), given, len(given), found, ROOTS, often, ROOTS)
    _accepted(told.outcome)
    return Solved(found[: told.count], often[: told.count], told.steps)


def affine(m: int, coefficients: Iterable[int], constant: int) -> Space:
    """The roots of constant + c[0] z + c[1] z^2 + c[2] z^4 + .. + c[m-1] z^(2^(m-1)), by elimination.
    Refused: 1, 20, 4.

        >>> affine(4, [1, 1, 0, 0], 6)
        Space(dimension=1, roots=[2, 3])
    """
    given, found = _list(coefficients), _room(ELEMENTS)
    told = _library.locator_affine(_number(m), given, len(given), _number(constant), found, ELEMENTS)
    _accepted(told.outcome)
    return Space(told.steps if told.count else None, found[: told.count])


# ---- claims


class Claim(NamedTuple):
    """A claim about a polynomial f: its roots, ascending, and the multiplicity of each; the cofactor h that is left
    of f without them; and u and v with u h + v w = 1, where w is the remainder of z^(2^m) + z by h, or 0 if h is
    constant."""

    roots: Sequence[int]
    multiplicities: Sequence[int]
    h: Sequence[int]
    u: Sequence[int]
    v: Sequence[int]


def prove(m: int, coefficients: Iterable[int]) -> Claim:
    """Finds the roots and makes the claim about them that `check` accepts, without zeros at the top. Refused: 1 to 5.

        >>> prove(4, [6, 7, 0, 1])
        Claim(roots=[1, 2, 3], multiplicities=[1, 1, 1], h=[1], u=[1], v=[0])
    """
    given, lists = _list(coefficients), [_room(ROOTS) for _ in range(2)] + [_room(COEFFICIENTS) for _ in range(3)]
    count = _value(_library.locator_prove(_number(m), *_words(given, *lists)))
    return Claim(*(one[:count] for one in lists[:2]), *(_top(one) for one in lists[2:]))


def check(m: int, coefficients: Iterable[int], claim: Claim) -> bool:
    """Whether a partner's claim is right: then its list is complete. Nothing is searched, and the partner need not be
    trusted. Refused: 1 to 5.

        >>> claim = prove(4, [6, 7, 0, 1])
        >>> check(4, [6, 7, 0, 1], claim)
        True
        >>> check(4, [6, 7, 0, 1], claim._replace(roots=[1, 2], multiplicities=[1, 1]))
        False
    """
    lists = [_list(one) for one in (coefficients, *claim)]
    return bool(_value(_library.locator_check(_number(m), *_words(*lists))))


# ---- work tables


class Table:
    """A work table: the factors of a polynomial, split step by step.

        >>> table = Table(4, [6, 7, 0, 1], cutoff=1)
        >>> while table.step(): print(table.factors)
        [(1, [6, 7, 0])]
        [(2, [6, 7, 0])]
        [(3, [1]), (3, [6, 1])]
        [(3, [1]), (4, [2]), (4, [3])]
        >>> table.finish()
        [1, 2, 3]
    """

    def __init__(self, m: int, coefficients: Iterable[int], cutoff: int = 0):
        """Begins a table. Refused: 1 to 6."""
        given, self._slots = _list(coefficients), _room(SLOTS)
        _accepted(_library.locator_begin(_number(m), given, len(given), _number(cutoff), self._slots, SLOTS))

    @classmethod
    def of(cls, slots: Sequence[int]) -> Table:
        """A table that holds these slots, whatever they are: `step` and `finish` refuse what is no table. Those of a
        stored table, STORED_SLOTS, are stepped and finished like those of a new one, SLOTS."""
        table = cls.__new__(cls)
        table._slots = _list(slots)
        return table

    @property
    def slots(self) -> list[int]:
        """The slots, as docs/RULES.md section 4 lays them out."""
        return list(self._slots)

    @property
    def factors(self) -> list[tuple[int, list[int]]]:
        """The factors: of each its level, and its coefficients below the leading 1, the constant first. Of a table
        that is not sound this means nothing."""
        told, at = [], 4
        for _ in range(self._slots[2]):
            level, degree = self._slots[at : at + 2]
            told.append((level, self._slots[at + 2 : at + 2 + degree]))
            at += 2 + degree
        return told

    @property
    def steps(self) -> int:
        """How many steps were taken."""
        return self._slots[3]

    def step(self) -> bool:
        """Splits the first factor above the cutoff; False where there is none, and the table is done.
        Refused: 7, 8, 9."""
        stepped = _library.locator_step(self._slots, len(self._slots))
        _accepted(stepped.outcome)
        return not stepped.value

    def finish(self) -> list[int]:
        """The roots of a table that is done, ascending. Refused: 7, 8, 10."""
        found = _room(ROOTS)
        told = _library.locator_finish(self._slots, len(self._slots), found, ROOTS)
        _accepted(told.outcome)
        return found[: told.count]

    def __repr__(self) -> str:
        return f"Table.of({self.slots})"


# ---- blocks


def correct(strength: int, word: bytes) -> Corrected:
    """The codeword of this strength, 1 to 8, that differs from the word in at most so many bits. Refused: 22, 23, 24.

    24 is given exactly if there is none. The word itself stays as it is."""
    held = _lent(word)
    told = _library.locator_correct(_number(strength), held, len(held))
    _accepted(told.outcome)
    return Corrected(bytes(held), told.value)


def encode(strength: int, word: bytes) -> bytes:
    """The codeword of this strength, 1 to 8, with the data of the word, its bits from 11 t on; what the check bits in
    front of them hold does not matter. Refused: 22, 23. The word itself stays as it is.

        >>> word = encode(2, filled(2, b"locator"))
        >>> damaged = bytes([word[0] ^ 5]) + word[1:]
        >>> correct(2, damaged) == (word, 2)
        True
        >>> data(2, word)[:7]
        b'locator'
    """
    held = _lent(word)
    _value(_library.locator_encode(_number(strength), held, len(held)))
    return bytes(held)


def _most(strength: int) -> int:
    """How many whole bytes of data a word of this strength has room for."""
    if not 1 <= strength <= 8:
        raise Refused(Outcome.STRENGTH)
    return (2047 - 11 * strength) // 8


def filled(strength: int, payload: bytes) -> bytes:
    """A word for `encode` with these bytes as its data, zeros behind them, and check bits of 0: at most 254 bytes at
    strength 1, and 244 at strength 8."""
    if len(payload) > _most(strength):
        raise ValueError(f"{len(payload)} bytes, and a word of strength {strength} has room for {_most(strength)}")
    return (int.from_bytes(payload, "little") << 11 * strength).to_bytes(WORD, "little")


def data(strength: int, word: bytes) -> bytes:
    """The bytes of data of a word, as `filled` puts them there: all that it has room for."""
    if len(word) != WORD:
        raise Refused(Outcome.BLOCK)
    most = _most(strength)
    return (int.from_bytes(word, "little") >> 11 * strength & (1 << 8 * most) - 1).to_bytes(most, "little")


# ---- job files


class Record(NamedTuple):
    """A record of a job file: its outcome, and where that is 0 its field, the cutoff as it states it, and its
    coefficients."""

    outcome: Outcome
    m: int = 0
    cutoff: int = 0
    coefficients: Sequence[int] = ()

    def solve(self) -> Solved:
        """What `solve` gives of it. Refused: its own outcome."""
        _accepted(self.outcome)
        return solve(self.m, self.coefficients, self.cutoff)


def write(m: int, roots: Iterable[int], cutoff: int = 0) -> bytes:
    """The job record of the monic polynomial with exactly these roots, 0 to 64 and strictly ascending, each simple.
    Refused: 1, 3, 4, 25, 6.

        >>> write(4, [1, 2, 3], cutoff=1).hex(" ")
        '4c 52 04 01 04 06 00 07 00 00 00 01 00'
    """
    given, room = _list(roots), (ctypes.c_uint8 * RECORD)()
    told = _library.locator_write(_number(m), _number(cutoff), given, len(given), room, RECORD)
    return bytes(room[: _value(told)])


def read(file: bytes) -> Iterator[Record]:
    """The records of a job file, in order, as docs/RULES.md section 5 reads them: refused ones too, with their
    outcome; 11 or 12 is the last. The bytes are taken apart here, which is tested and not proved; the outcomes 1 to 6
    are the library's.

        >>> [record.solve().roots for record in read(write(4, [1, 2, 3]) + write(11, [700]))]
        [[1, 2, 3], [700]]
    """
    at = 0
    while at < len(file):
        if len(file) - at == 1:
            yield Record(Outcome.SHORT)
            return
        if file[at : at + 2] != b"LR":
            yield Record(Outcome.MARK)
            return
        if len(file) < at + 5 or len(file) < at + 5 + 2 * file[at + 4]:
            yield Record(Outcome.SHORT)
            return
        m, cutoff, n = file[at + 2 : at + 5]
        given = [int.from_bytes(file[at + 5 + 2 * k : at + 7 + 2 * k], "little") for k in range(n)]
        try:
            Table(m, given, cutoff)
        except Refused as refused:
            yield Record(refused.outcome)
        else:
            yield Record(Outcome.ACCEPTED, m, cutoff, given)
        at += 5 + 2 * n


def salvage(file: bytes) -> bytes:
    """What can be kept of a damaged job file: its acceptable records, unaltered and in order."""
    held = _lent(file)
    kept = (ctypes.c_uint8 * len(held))()
    told = _library.locator_salvage(held, len(held), kept, len(held))
    _accepted(told.outcome)
    return bytes(kept[: told.length])
