"""Braid words, keys, E-multiplication and verdicts for WalnutDSA at strengths 128 and 256, over the proved library.

Every function takes any bytes. It gives its value, or raises Refusal with the number of the first question that the
input fails; verdict alone gives the number. The library takes bytes, and some arrays of a fixed
length. So a number that is no byte, or an array of another length, raises ValueError. Text in place of bytes raises
TypeError. What keys, words and move lists look like stands in walnut.h, under FILES.

Many words verify for one digest, so a word's bytes are no identity of a slip.

Loads libwalnut.so.1 from the folder that the environment variable WALNUT_LIB_DIR names. If it is not set, loads it from
beside this file, else from the system's folders. Another library or version raises OSError. Exception: the patch may be
newer.
"""

import ctypes
import enum
import operator
import os
from typing import Any, Iterable, List, Optional, Tuple, TypeVar, Union

__version__ = "1.1.1"

__all__ = [
    "Answer", "Bytes", "DIGEST_BYTES", "Field", "GF256", "GF32", "Half", "KEY_BYTES", "Key", "LARGE_DIGEST_BYTES",
    "LARGE_KEY_BYTES", "LETTERS", "Letter", "MOVES", "MOVES_BYTES", "Move", "Pair", "REMOVE", "Refusal", "SHELF_BYTES",
    "SPREAD_LENGTH", "STACK_BYTES", "STORED_BYTES", "SWAP", "Shelf", "TEXTS", "TURN", "WORD_BYTES", "cloaks", "codes",
    "crossings", "encode_digest", "file_entries", "first_half", "free_reduce", "from_y", "handle_reduce", "insert",
    "letter_code", "letter_text", "place", "product", "read_key", "read_moves", "read_word", "reciprocal",
    "replace_pair", "restore", "rewrite", "second_half", "shorten", "shorter", "spelled", "store", "text", "to_y",
    "verdict", "verify", "version", "words_ending", "write_key", "write_moves", "write_word",
]

# walnut.h: begin; tools/interface writes these lines
from ctypes import POINTER, Structure, c_bool, c_char_p, c_int32, c_size_t, c_uint16, c_uint32, c_uint8

# bytes of a key file over the field with 32 elements
KEY_BYTES = 83
# bytes of a key file over the field with 256 elements
LARGE_KEY_BYTES = 128
# bytes of the digest that goes with a key of 83 bytes
DIGEST_BYTES = 32
# bytes of the digest that goes with a key of 128 bytes
LARGE_DIGEST_BYTES = 64
# bytes of the longest word file; an output for words must have at least as many
WORD_BYTES = 5002
# bytes of the longest stored form; an output for stored forms must have at least as many
STORED_BYTES = 5006
# bytes of the longest move list
MOVES_BYTES = 12290
# the most letters of a word
LETTERS = 10000
# the most moves of a list
MOVES = 4096
# the most letters of the words that walnut_words_ending counts
SPREAD_LENGTH = 12
# bytes of a key shelf
SHELF_BYTES = 1036
# bytes of stack that a call may take
STACK_BYTES = 98304


class _Element(Structure):
    """An element of a field. On a refusal it is 0."""

    _fields_ = [("answer", c_uint8), ("value", c_uint8)]


class _Word(Structure):
    """The number of letters of a word. On a refusal it is 0."""

    _fields_ = [("answer", c_uint8), ("letters", c_size_t)]


class _Written(Structure):
    """The number of bytes written to the front of the output. On a refusal it is 0. Bytes after them do not change."""

    _fields_ = [("answer", c_uint8), ("bytes", c_size_t)]


class _Handles(Structure):
    """The number of bytes written to the front of the output, and whether the word there has a handle. On a refusal
    they are 0 and false. Bytes after them do not change."""

    _fields_ = [("answer", c_uint8), ("bytes", c_size_t), ("left", c_bool)]


class _Choice(Structure):
    """Which of two files is the shorter: 1 for the first, 2 for the second. On a refusal it is 0."""

    _fields_ = [("answer", c_uint8), ("which", c_uint8)]


class _Cloak(Structure):
    """Whether a word cloaks. On a refusal it is false."""

    _fields_ = [("answer", c_uint8), ("yes", c_bool)]


class _Crossing(Structure):
    """The signed number of crossings of two strands. On a refusal it is 0."""

    _fields_ = [("answer", c_uint8), ("crossings", c_int32)]


class _Count(Structure):
    """The number of words that end in a list. On a refusal it is 0."""

    _fields_ = [("answer", c_uint8), ("words", c_uint32)]


class _Pair(Structure):
    """A matrix, with its entries as WALNUT_PLACE says, a list of labels, and the inverse list: positions[a] is the
    position of label a in the list, counted from 1. In a pair of the caller's own, positions[labels[i]] must be i + 1
    for each i from 0 to 7."""

    _fields_ = [("matrix", c_uint8 * 64), ("labels", c_uint8 * 8), ("positions", c_uint8 * 8)]


class _Key(Structure):
    """A key: its field, its T-values, the pair Pub(S), and `second`, the matrix of Pub(S'). On a refusal the field is
    the one with 32 elements, and all numbers are 0."""

    _fields_ = [
        ("answer", c_uint8),
        ("large", c_bool),
        ("t_values", c_uint8 * 8),
        ("pair", _Pair),
        ("second", c_uint8 * 64),
    ]


class _Half(Structure):
    """The first half of a verdict: the field, the T-values, the pair Pub(S), and `target`, the matrix that a signature
    must reach."""

    _fields_ = [("large", c_bool), ("t_values", c_uint8 * 8), ("pair", _Pair), ("target", c_uint8 * 64)]


class _Halved(Structure):
    """A half. On a refusal its field is the one with 32 elements, and all its numbers are 0."""

    _fields_ = [("answer", c_uint8), ("half", _Half)]


class _Shelf(Structure):
    """The keys of two publishers and their charged letters, as FILES says. All zeros are the empty shelf."""

    _fields_ = [("bytes", c_uint8 * 1036)]


# of each exported function: what it gives, then what it takes
_FUNCTIONS: Any = {
    "walnut_version": (c_uint32,),
    "walnut_product": (_Element, c_bool, c_uint8, c_uint8),
    "walnut_reciprocal": (_Element, c_bool, c_uint8),
    "walnut_start": (_Pair,),
    "walnut_multiply": (c_uint8, POINTER(_Pair), c_bool, c_char_p, c_uint8),
    "walnut_read_key": (_Key, c_char_p, c_size_t),
    "walnut_file_entries": (None, c_char_p, POINTER(c_uint8)),
    "walnut_write_key": (c_uint8, c_bool, c_char_p, c_char_p, c_char_p, c_char_p, POINTER(c_uint8), c_size_t),
    "walnut_read_word": (_Word, c_char_p, c_size_t),
    "walnut_write_word": (_Written, c_char_p, c_size_t, POINTER(c_uint8), c_size_t),
    "walnut_encode_digest": (_Written, c_char_p, c_size_t, POINTER(c_uint8), c_size_t),
    "walnut_free_reduce": (_Written, c_char_p, c_size_t, POINTER(c_uint8), c_size_t),
    "walnut_store": (_Written, c_char_p, c_size_t, POINTER(c_uint8), c_size_t),
    "walnut_restore": (_Written, c_char_p, c_size_t, POINTER(c_uint8), c_size_t),
    "walnut_to_y": (_Written, c_char_p, c_size_t, c_char_p, c_size_t, POINTER(c_uint8), c_size_t),
    "walnut_from_y": (_Written, c_char_p, c_size_t, c_char_p, c_size_t, POINTER(c_uint8), c_size_t),
    "walnut_replace_pair": (_Written, c_char_p, c_size_t, c_size_t, POINTER(c_uint8), c_size_t),
    "walnut_rewrite": (_Written, c_char_p, c_size_t, c_char_p, c_size_t, POINTER(c_uint8), c_size_t),
    "walnut_handle_reduce": (_Handles, c_char_p, c_size_t, c_uint16, POINTER(c_uint8), c_size_t),
    "walnut_shorter": (_Choice, c_char_p, c_size_t, c_char_p, c_size_t),
    "walnut_shorten": (_Written, c_char_p, c_size_t, c_uint16, POINTER(c_uint8), c_size_t),
    "walnut_verify": (c_uint8, c_char_p, c_size_t, c_char_p, c_size_t, c_char_p, c_size_t),
    "walnut_first_half": (_Halved, c_char_p, c_size_t, c_char_p, c_size_t),
    "walnut_second_half": (c_uint8, _Half, c_char_p, c_size_t),
    "walnut_cloaks": (_Cloak, c_char_p, c_size_t, c_char_p, c_size_t, c_char_p, c_size_t),
    "walnut_crossings": (_Crossing, c_char_p, c_size_t, c_uint8, c_uint8),
    "walnut_words_ending": (_Count, c_size_t, c_char_p, c_size_t),
    "walnut_shelf_load": (c_uint8, POINTER(_Shelf), c_size_t, c_size_t, c_char_p, c_size_t),
    "walnut_shelf_clear": (c_uint8, POINTER(_Shelf), c_size_t, c_size_t),
    "walnut_shelf_judge": (c_uint8, POINTER(_Shelf), c_size_t, c_size_t, c_char_p, c_size_t, c_char_p, c_size_t),
    "walnut_shelf_round": (c_uint8, POINTER(_Shelf), c_size_t),
}
# walnut.h: end

# bytes, or numbers that are bytes
Bytes = Union[bytes, bytearray, memoryview, Iterable[int]]
# a letter as its code, or as text: b1 to b7, b1^-1 to b7^-1
Letter = Union[int, str]
# a move's place and its kind
Move = Tuple[int, int]


class Field(enum.Enum):
    """One of the two fields: how the library takes it (`large`), and the bytes of its key files and of its digests."""

    GF32 = (False, KEY_BYTES, DIGEST_BYTES)
    GF256 = (True, LARGE_KEY_BYTES, LARGE_DIGEST_BYTES)

    def __init__(self, large: bool, key_bytes: int, digest_bytes: int) -> None:
        self.large = large
        self.key_bytes = key_bytes
        self.digest_bytes = digest_bytes

    def __repr__(self) -> str:
        return f"walnut.{self.name}"


GF32, GF256 = Field.GF32, Field.GF256


class Answer(enum.IntEnum):
    """The names of the answers."""

    # answers.txt: begin; tools/answers writes these lines
    ACCEPTED = 0
    KEY_LENGTH = 1
    STRANDS = 2
    KEY_FIELD = 3
    ZERO = 4
    FIRST_T_VALUES = 5
    LABELS = 6
    KEY_FILLER = 7
    DIGEST_LENGTH = 8
    WORD_SHORT = 9
    TOO_MANY_LETTERS = 10
    WORD_LENGTH = 11
    NO_LETTER = 12
    WORD_FILLER = 13
    MATRICES_DIFFER = 14
    OUTPUT_SHORT = 15
    KEY_OUTPUT_SHORT = 16
    NO_ELEMENT = 17
    MOVES_SHORT = 18
    TOO_MANY_MOVES = 19
    MOVES_LENGTH = 20
    NO_KIND = 21
    PAST_THE_END = 22
    NOT_THE_SHAPE = 23
    WORD_FULL = 24
    LIST = 25
    NO_INVERSE = 26
    TWO_LABELS = 27
    STORED_SIZES = 28
    STORED_BITS = 29
    NO_SUCH_NUMBER = 30
    NO_KEY_HELD = 31
    HANDLES_FULL = 32
    PARTS = 33
    NEW_WORD_FULL = 34
    LENGTH_OR_LIST = 35
    ROUND_FULL = 36
    # answers.txt: end


# what failed, for each answer
TEXTS = {
    # answers.txt: begin; tools/answers writes these lines
    0: "nothing failed: the input is accepted",
    1: "the key file has neither 83 nor 128 bytes",
    2: "the key is not for eight strands",
    3: "the key names the wrong field: 83 bytes need q = 32, 128 bytes need q = 256",
    4: "a T-value is zero, or the reciprocal of zero was asked for",
    5: "the first two T-values are not both 1",
    6: "the list of labels is not 0 to 7, each once, or a pair's positions do not match its list",
    7: "the key's filler bits are not all zero",
    8: "the digest has the wrong length: an 83-byte key needs 32 bytes, a 128-byte key 64",
    9: "the word has fewer than 2 bytes",
    10: "the word's number of letters is over 10,000",
    11: "the word's length does not match its number of letters",
    12: "a code is not a letter",
    13: "the last half byte of an odd word is not 0",
    14: "the matrices differ: the word is not a signature of this digest under this key",
    15: "the output is too small: a word needs 5,002 bytes, a stored form 5,006",
    16: "the output is too small: a key needs 83 bytes, or 128 in the larger field",
    17: "a T-value, matrix entry or operand is outside the field (0 to 31, or 0 to 255)",
    18: "the move list has fewer than 2 bytes",
    19: "the move list states more than 4,096 moves",
    20: "the move list's length is not 2 + 3 times its number of moves",
    21: "a move's kind is unknown: kinds are 1, 2, 3, 16 to 22 and 24 to 30",
    22: "a move, or a pair to replace, reaches past the end of the word",
    23: "the letters at the move's place do not match this kind of move",
    24: "an insertion would leave more than 10,000 letters",
    25: "the list to cloak for is not 8 bytes, 0 to 7 each once",
    26: "a matrix of the key, or of a half, has no inverse",
    27: "a label is over 7, or both labels are equal",
    28: "the stored form has fewer than 6 bytes, or its sizes disagree with its letters or length",
    29: "a generator of the stored form is 7, or its filler bits are not all zero",
    30: "the publisher is not 1 or 2, or the key number is over 3",
    31: "the publisher holds no key under this number",
    32: "a step that takes a handle out would leave more than 10,000 letters",
    33: "the parts are empty, hold a zero or do not sum to 7",
    34: "the new word would have more than 10,000 letters",
    35: "the length is over 12, or the list is not four labels, 0 to 3 each once",
    36: "the slip has more letters than this round has left for its publisher",
    # answers.txt: end
}


def text(answer: int) -> str:
    """What failed, for any answer: also for one that this module does not know."""
    return TEXTS.get(answer, "an answer that this binding does not know")


class Refusal(Exception):
    """The input failed a question. `number` is the answer: never 0, and possibly one that this module does not know."""

    def __init__(self, number: int) -> None:
        super().__init__(number)
        self.number = number

    def __str__(self) -> str:
        return f"{self.number}: {text(self.number)}"

    def __repr__(self) -> str:
        return f"walnut.Refusal({self.number})"


def _library() -> ctypes.CDLL:
    name = "libwalnut.so.1"
    named = os.environ.get("WALNUT_LIB_DIR")
    beside = os.path.join(os.path.dirname(os.path.abspath(__file__)), name)
    if named:
        path = os.path.join(named, name)
    else:
        path = beside if os.path.exists(beside) else name
    try:
        library = ctypes.CDLL(path)
    except OSError as error:
        folder = os.path.dirname(beside)
        looked = f"{named}, which WALNUT_LIB_DIR names" if named else f"{folder} and the system's folders"
        raise OSError(f"{name} was looked for in {looked}: {error}; {_HELP}") from error
    _declare(library, path)
    return library


_HELP = "build it by './library' and name its folder by WALNUT_LIB_DIR, or install the wheel, which has its own"


def _declare(library: ctypes.CDLL, path: str) -> None:
    """Gives the functions their types. Another library, an older one and a newer one are refused."""
    for name, (result, *taken) in _FUNCTIONS.items():
        function = getattr(library, name, None)
        if function is None:
            fault = f"it has no function {name}, so it is another library or an older one"
            raise OSError(f"{path} does not fit walnut {__version__}: {fault}; {_HELP}")
        function.restype, function.argtypes = result, taken
        if name == "walnut_version":
            _compare(function(), path)


def _compare(found: int, path: str) -> None:
    """The patch may be newer. Another minor version may have other functions and structs."""
    major, minor, patch = map(int, __version__.split("."))
    if not 10000 * major + 100 * minor + patch <= found < 10000 * major + 100 * (minor + 1):
        shown = f"{found // 10000}.{found // 100 % 100}.{found % 100}"
        fault = f"it has version {shown}, and {__version__} or a later patch of {major}.{minor} is needed"
        raise OSError(f"{path} does not fit walnut {__version__}: {fault}; {_HELP}")


_lib = _library()

_Value = TypeVar("_Value")


def _granted(answer: int, value: _Value) -> _Value:
    if answer:
        raise Refusal(answer)
    return value


# ---- what is handed in

_HINT = "; bytes.fromhex makes bytes of text in hexadecimal, and open(.., 'rb') reads a file's"


def _bytes(data: Bytes, name: str) -> bytes:
    """The bytes of bytes, or of a row of numbers that are bytes. Text and a single number raise TypeError."""
    if isinstance(data, (bytes, bytearray, memoryview)):
        return bytes(data)
    if isinstance(data, str) or not isinstance(data, Iterable):
        hint = _HINT if isinstance(data, str) else ""
        raise TypeError(f"{name}: bytes are needed, or numbers that are bytes, not {type(data).__name__}{hint}")
    return bytes(_byte(number, name) for number in data)


def _fixed(data: Bytes, length: int, name: str) -> bytes:
    """Bytes that the library takes as a fixed array."""
    data = _bytes(data, name)
    if len(data) != length:
        raise ValueError(f"{name}: {length} numbers are needed, not {len(data)}")
    return data


def _index(number: int, name: str) -> int:
    """A whole number."""
    try:
        return operator.index(number)
    except TypeError:
        raise TypeError(f"{name}: a whole number is needed, not {type(number).__name__}") from None


def _whole(number: int, limit: int, name: str, what: str) -> int:
    """A whole number from 0 to a limit."""
    number = _index(number, name)
    if not 0 <= number <= limit:
        raise ValueError(f"{name}: {number} is no {what}")
    return number


def _byte(number: int, name: str) -> int:
    """A number that the library takes as a byte."""
    return _whole(number, 255, name, "byte")


def _label(number: int, name: str) -> int:
    """A label as a byte. One over 255 becomes 255, which the library refuses as too large."""
    return _byte(min(_index(number, name), 255), name)


def _small(number: int, name: str) -> int:
    """A publisher or a key number as a byte. One over 255 becomes 255, which the library refuses as too large."""
    return _label(number, name)


def _large(field: Field) -> bool:
    """A field as the library takes it."""
    if not isinstance(field, Field):
        raise ValueError(f"{field!r} is no field: GF32 or GF256 is")
    return field.large


def _slices(**parts: Bytes) -> List[Any]:
    """Each part's bytes and their number, one after another."""
    passed: List[Any] = []
    for name, part in parts.items():
        data = _bytes(part, name)
        passed += [data, len(data)]
    return passed


def _file_written(function: Any, room: int, **parts: Bytes) -> bytes:
    """What a writer wrote to an output of `room` bytes."""
    out = (c_uint8 * room)()
    written = function(*_slices(**parts), out, room)
    return _granted(written.answer, bytes(out[: written.bytes]))


def _word_written(function: Any, **parts: Bytes) -> bytes:
    """What a writer of words wrote."""
    return _file_written(function, WORD_BYTES, **parts)


# ---- letters


def letter_text(code: int) -> str:
    """A letter's code as text: b1 to b7 for 0 to 6, b1^-1 to b7^-1 for 8 to 14."""
    code = _byte(code, "code")
    if code > 14 or code == 7:
        raise ValueError(f"{code} is no letter's code: 0 to 6 and 8 to 14 are")
    return f"b{code % 8 + 1}" + ("^-1" if code >= 8 else "")


_CODES = {letter_text(code): code for code in range(15) if code != 7}


def letter_code(letter: Letter) -> int:
    """The code of a letter given as text. A number is returned as it is, and the library checks it."""
    if not isinstance(letter, str):
        return _byte(letter, "letter")
    if letter not in _CODES:
        raise ValueError(f"{letter!r} is no letter: letters are b1 to b7 and b1^-1 to b7^-1")
    return _CODES[letter]


def codes(word: Bytes) -> bytes:
    """The codes of a word file's letters, one to a byte: what write_word takes."""
    file = _bytes(word, "word")
    letters = read_word(file)
    both = bytes(half for byte in file[2:] for half in (byte // 16, byte % 16))
    return both[:letters]


def spelled(word: Bytes) -> str:
    """The letters of a word file as text, with a space between them: b1 b2^-1 .. write_word takes it too."""
    return " ".join(letter_text(code) for code in codes(word))


# ---- moves

REMOVE = 1
SWAP = 2
TURN = 3


def insert(letter: Letter) -> int:
    """The kind of move that inserts a letter and then its inverse."""
    code = letter_code(letter)
    if code not in _CODES.values():
        raise ValueError(f"letter: {code} is no letter's code")
    return 16 + code


def write_moves(moves: Iterable[Move]) -> bytes:
    """The file of (place, kind) of each move: the number of moves, then all places, then all kinds."""
    return _moves_asked(_moves_file(moves))


def read_moves(file: Bytes) -> List[Move]:
    """The (place, kind) of each move of a file, of whatever kinds."""
    data = _moves_asked(_bytes(file, "file"))
    number = len(data) // 3
    places, kinds = data[2 : 2 + 2 * number], data[2 + 2 * number :]
    return [(int.from_bytes(places[2 * k : 2 * k + 2], "big"), kinds[k]) for k in range(number)]


def _moves_file(moves: Iterable[Move]) -> bytes:
    """The file of a move list. If there are more moves than two bytes can count, it states 65,535 moves. So it is
    refused like any list that is too long."""
    if isinstance(moves, str) or not isinstance(moves, Iterable):
        raise TypeError(f"moves: a file's bytes or (place, kind) of each move are needed, not {type(moves).__name__}")
    listed = [_move(move) for move in moves]
    places = b"".join(place.to_bytes(2, "big") for place, _ in listed)
    return min(len(listed), 65535).to_bytes(2, "big") + places + bytes(kind for _, kind in listed)


def _move(move: Move) -> Move:
    try:
        place, kind = move
    except (TypeError, ValueError):
        raise TypeError(f"moves: a move is (place, kind), not {move!r}") from None
    return _whole(place, 65535, "place", "place of two bytes"), _byte(kind, "kind")


def _moves_asked(file: bytes) -> bytes:
    """A move list's file that passes 18, 19 and 20, which the rewriter asks before it looks at a move."""
    try:
        rewrite(bytes(2), file)
    except Refusal as refusal:
        if refusal.number <= Answer.MOVES_LENGTH:
            raise
    return file


# ---- pairs and keys


def place(row: int, column: int) -> int:
    """Where the entry in a row and a column of a matrix stands, both counted from 1 to 8: every matrix lies column by
    column, the first one first."""
    row, column = _index(row, "row"), _index(column, "column")
    if not (1 <= row <= 8 and 1 <= column <= 8):
        raise ValueError(f"rows and columns count from 1 to 8, not {row} and {column}")
    return 8 * (column - 1) + (row - 1)


class Pair:
    """A matrix of 64 entries, column by column (see place), a list of eight labels, and its inverse list: for each
    label its position, counted from 1. Positions that are not given are made from the labels."""

    def __init__(self, matrix: Bytes, labels: Bytes, positions: Optional[Bytes] = None) -> None:
        self.matrix = _fixed(matrix, 64, "matrix")
        self.labels = _fixed(labels, 8, "labels")
        if positions is None:
            positions = [self.labels.rfind(label) + 1 for label in range(8)]
        self.positions = _fixed(positions, 8, "positions")

    @classmethod
    def start(cls) -> "Pair":
        """The starting pair: the identity matrix with the list 0 to 7."""
        return cls._of(_lib.walnut_start())

    @classmethod
    def _of(cls, pair: _Pair) -> "Pair":
        return cls(bytes(pair.matrix), bytes(pair.labels), bytes(pair.positions))

    def _lent(self) -> _Pair:
        matrix, labels = _fixed(self.matrix, 64, "matrix"), _fixed(self.labels, 8, "labels")
        positions = _fixed(self.positions, 8, "positions")
        return _Pair((c_uint8 * 64)(*matrix), (c_uint8 * 8)(*labels), (c_uint8 * 8)(*positions))

    def position(self, label: int) -> int:
        """Where is strand `label`? Its position in the list, from 1 to 8."""
        label = _index(label, "label")
        if not 0 <= label <= 7:
            raise ValueError(f"labels are 0 to 7, not {label}")
        return self.positions[label]

    def multiply(self, field: Field, t_values: Bytes, letter: Letter) -> None:
        """Multiplies a letter into the pair, over a field. On a refusal the pair is as it was."""
        lent = self._lent()
        code = letter_code(letter)
        _granted(_lib.walnut_multiply(lent, _large(field), _fixed(t_values, 8, "t_values"), code), None)
        self.matrix, self.labels, self.positions = bytes(lent.matrix), bytes(lent.labels), bytes(lent.positions)

    def __eq__(self, other: object) -> bool:
        if not isinstance(other, Pair):
            return NotImplemented
        return vars(self) == vars(other)

    def __repr__(self) -> str:
        return f"walnut.Pair({_shown(self.matrix)}, {_shown(self.labels)}, {_shown(self.positions)})"


class Key:
    """A key: its field, its T-values, the pair Pub(S) and the matrix of Pub(S'), column by column too."""

    def __init__(self, field: Field, t_values: Bytes, pair: Pair, second: Bytes) -> None:
        self.field = field
        self.t_values = _fixed(t_values, 8, "t_values")
        self.pair = pair
        self.second = _fixed(second, 64, "second")

    def __eq__(self, other: object) -> bool:
        if not isinstance(other, Key):
            return NotImplemented
        return vars(self) == vars(other)

    def __repr__(self) -> str:
        return f"walnut.Key({self.field!r}, {_shown(self.t_values)}, {self.pair!r}, {_shown(self.second)})"


class Half:
    """What several copies of a slip are judged by, the verdict's first half: the key's field, its T-values, the pair
    Pub(S), and the target, the matrix that a signature must reach."""

    def __init__(self, field: Field, t_values: Bytes, pair: Pair, target: Bytes) -> None:
        self.field = field
        self.t_values = _fixed(t_values, 8, "t_values")
        self.pair = pair
        self.target = _fixed(target, 64, "target")

    def _lent(self) -> _Half:
        t_values, target = _fixed(self.t_values, 8, "t_values"), _fixed(self.target, 64, "target")
        return _Half(_large(self.field), (c_uint8 * 8)(*t_values), self.pair._lent(), (c_uint8 * 64)(*target))

    def __eq__(self, other: object) -> bool:
        if not isinstance(other, Half):
            return NotImplemented
        return vars(self) == vars(other)

    def __repr__(self) -> str:
        return f"walnut.Half({self.field!r}, {_shown(self.t_values)}, {self.pair!r}, {_shown(self.target)})"


class Shelf:
    """The key shelf of two publishers, numbered 1 and 2, each with key numbers 0 to 3, and the letters charged to each.
    bytes(shelf) gives its bytes, and Shelf(data) makes it from any such bytes; without them it is empty. Do not use one
    shelf from two threads at the same time."""

    def __init__(self, data: Optional[Bytes] = None) -> None:
        self._bytes = bytes(SHELF_BYTES) if data is None else _fixed(data, SHELF_BYTES, "data")

    def __bytes__(self) -> bytes:
        return self._bytes

    def load(self, publisher: int, number: int, key: Bytes) -> None:
        """Loads a key file under a publisher's key number, in place of the key there. On a refusal nothing changes."""
        self._call(_lib.walnut_shelf_load, publisher, number, key=key)

    def clear(self, publisher: int, number: int) -> None:
        """Clears a publisher's key number, which may be empty. On a refusal nothing changes."""
        self._call(_lib.walnut_shelf_clear, publisher, number)

    def judge(self, publisher: int, number: int, digest: Bytes, word: Bytes) -> None:
        """Judges a slip by the key under a publisher's key number, as verify does with that key's file, and charges its
        letters to the publisher. They are charged on MATRICES_DIFFER too; on any other refusal nothing changes.
        ROUND_FULL is no verdict."""
        self._call(_lib.walnut_shelf_judge, publisher, number, digest=digest, word=word)

    def round(self, publisher: int) -> None:
        """Starts a new round: no letters are charged to either publisher. On a refusal nothing changes."""
        self._call(_lib.walnut_shelf_round, publisher)

    @property
    def charged(self) -> Tuple[int, int]:
        """The letters charged to publisher 1 and to publisher 2 in this round."""
        return int.from_bytes(self._bytes[-4:-2], "big"), int.from_bytes(self._bytes[-2:], "big")

    def _call(self, function: Any, *numbers: int, **parts: Bytes) -> None:
        lent = _Shelf.from_buffer_copy(self._bytes)
        small = [_small(number, name) for number, name in zip(numbers, ("publisher", "number"))]
        answer = function(lent, *small, *_slices(**parts))
        self._bytes = bytes(lent)
        _granted(answer, None)

    def __eq__(self, other: object) -> bool:
        if not isinstance(other, Shelf):
            return NotImplemented
        return vars(self) == vars(other)

    def __repr__(self) -> str:
        return f"walnut.Shelf({_shown(self._bytes)})"


def _shown(data: bytes) -> str:
    return f"bytes.fromhex('{data.hex()}')"


# ---- the operations


def version() -> int:
    """The version of the library as one number: 10,000 for each major version, 100 for each minor one, 1 for each
    patch."""
    number: int = _lib.walnut_version()
    return number


def product(field: Field, a: int, b: int) -> int:
    """The product of two elements of a field."""
    element = _lib.walnut_product(_large(field), _byte(a, "a"), _byte(b, "b"))
    return _granted(element.answer, int(element.value))


def reciprocal(field: Field, a: int) -> int:
    """The reciprocal of an element other than zero of a field."""
    element = _lib.walnut_reciprocal(_large(field), _byte(a, "a"))
    return _granted(element.answer, int(element.value))


def read_key(file: Bytes) -> Key:
    """The key that a key file holds."""
    key = _lib.walnut_read_key(*_slices(file=file))
    field = GF256 if key.large else GF32
    return _granted(key.answer, Key(field, bytes(key.t_values), Pair._of(key.pair), bytes(key.second)))


def file_entries(matrix: Bytes) -> bytes:
    """The 57 entries that a key file has of a matrix, in the file's order: rows 1 to 7, then the last one of row 8."""
    entries = (c_uint8 * 57)()
    _lib.walnut_file_entries(_fixed(matrix, 64, "matrix"), entries)
    return bytes(entries)


def write_key(field: Field, t_values: Bytes, labels: Bytes, first: Bytes, second: Bytes) -> bytes:
    """The key file over a field of T-values, labels and each matrix's 57 entries."""
    large = _large(field)
    out = (c_uint8 * field.key_bytes)()
    lists = [_fixed(t_values, 8, "t_values"), _fixed(labels, 8, "labels")]
    lists += [_fixed(first, 57, "first"), _fixed(second, 57, "second")]
    return _granted(_lib.walnut_write_key(large, *lists, out, field.key_bytes), bytes(out))


def read_word(file: Bytes) -> int:
    """The number of letters of a word file; codes and spelled give the letters."""
    word = _lib.walnut_read_word(*_slices(file=file))
    return _granted(word.answer, int(word.letters))


def write_word(letters: Union[str, Iterable[Letter]]) -> bytes:
    """The word file of letters: codes, or text like b1 b2^-1, or a row of either."""
    given = letters.split() if isinstance(letters, str) else letters
    if not isinstance(given, Iterable):
        raise TypeError(f"letters: codes or text are needed, not {type(letters).__name__}")
    return _word_written(_lib.walnut_write_word, codes=[letter_code(letter) for letter in given])


def encode_digest(digest: Bytes) -> bytes:
    """The braid of a digest, of 32 bytes or 64, as a word file."""
    return _word_written(_lib.walnut_encode_digest, digest=digest)


def free_reduce(word: Bytes) -> bytes:
    """The freely reduced word of a word file."""
    return _word_written(_lib.walnut_free_reduce, word=word)


def store(word: Bytes) -> bytes:
    """The stored form of a word file."""
    return _file_written(_lib.walnut_store, STORED_BYTES, word=word)


def restore(stored: Bytes) -> bytes:
    """The word file of a stored form."""
    return _word_written(_lib.walnut_restore, stored=stored)


def to_y(word: Bytes, parts: Bytes) -> bytes:
    """The Y word of an Artin word, for parts of 7, such as [4, 3]. Nothing is cancelled."""
    return _word_written(_lib.walnut_to_y, word=word, parts=parts)


def from_y(word: Bytes, parts: Bytes) -> bytes:
    """The Artin word of a Y word, for parts of 7, such as [4, 3]. Nothing is cancelled."""
    return _word_written(_lib.walnut_from_y, word=word, parts=parts)


def replace_pair(word: Bytes, place: int) -> bytes:
    """The Y word with the two letters at a place replaced, for parts 4 and 3, by the first relation of source 000's
    Appendix A that holds them; the word itself if no relation holds them."""
    # a place that the library cannot take is past the end, as any place past the last letter is
    at = _whole(min(_index(place, "place"), LETTERS), LETTERS, "place", "place")
    out = (c_uint8 * WORD_BYTES)()
    written = _lib.walnut_replace_pair(*_slices(word=word), at, out, WORD_BYTES)
    return _granted(written.answer, bytes(out[: written.bytes]))


def rewrite(word: Bytes, moves: Union[bytes, bytearray, memoryview, Iterable[Move]]) -> bytes:
    """The word file that moves leave. `moves` is the bytes of a move list's file, or (place, kind) of each move."""
    file = moves if isinstance(moves, (bytes, bytearray, memoryview)) else _moves_file(moves)
    return _word_written(_lib.walnut_rewrite, word=word, moves=file)


def handle_reduce(word: Bytes, limit: int = 65535) -> Tuple[bytes, bool]:
    """The word file that is left when handles are taken out in at most `limit` steps, and whether a handle is left in
    it. The new word is the same braid, and may be longer: shorter chooses."""
    out = (c_uint8 * WORD_BYTES)()
    steps = _whole(limit, 65535, "limit", "limit of two bytes")
    handles = _lib.walnut_handle_reduce(*_slices(word=word), steps, out, WORD_BYTES)
    return _granted(handles.answer, (bytes(out[: handles.bytes]), handles.left))


def shorter(a: Bytes, b: Bytes) -> bytes:
    """The shorter of two word files, the first on a tie."""
    first, second = _bytes(a, "a"), _bytes(b, "b")
    choice = _lib.walnut_shorter(first, len(first), second, len(second))
    return _granted(choice.answer, second if choice.which == 2 else first)


def shorten(word: Bytes, effort: int = 5) -> bytes:
    """A word file that means what the word means, has at most as many letters, and is freely reduced. The effort is the
    number of steps of the search for each letter: 0 only swaps and cancels, and 5 is usual. With any effort it has at
    most as many letters as effort 0 leaves. The result depends on word and effort alone."""
    out = (c_uint8 * WORD_BYTES)()
    steps = _whole(effort, 65535, "effort", "effort")
    written = _lib.walnut_shorten(*_slices(word=word), steps, out, WORD_BYTES)
    return _granted(written.answer, bytes(out[: written.bytes]))


def verify(key: Bytes, digest: Bytes, word: Bytes) -> None:
    """Returns nothing where the word is a signature of the digest under the key, over the key's field, and raises
    Refusal where not: with 14 if each file is right and the word is no signature."""
    _granted(verdict(key, digest, word), None)


def verdict(key: Bytes, digest: Bytes, word: Bytes) -> int:
    """The verdict's number: 0 where verify returns, else the refusal's. As a condition it is true on a failure."""
    answer: int = _lib.walnut_verify(*_slices(key=key, digest=digest, word=word))
    return answer


def first_half(key: Bytes, digest: Bytes) -> Half:
    """The first half of the verdict, for several copies of a slip: the digest is encoded once."""
    halved = _lib.walnut_first_half(*_slices(key=key, digest=digest))
    half = halved.half
    field = GF256 if half.large else GF32
    return _granted(halved.answer, Half(field, bytes(half.t_values), Pair._of(half.pair), bytes(half.target)))


def second_half(half: Half, word: Bytes) -> None:
    """Judges the word by a half, as verify does. A half that the caller made is first asked 17, 4, 6 and 26."""
    if not isinstance(half, Half):
        raise TypeError(f"half: a Half is needed, not {type(half).__name__}")
    _granted(_lib.walnut_second_half(half._lent(), *_slices(word=word)), None)


def cloaks(key: Bytes, labels: Bytes, word: Bytes) -> bool:
    """Does the word cloak for the list under the key's T-values, over the key's field?"""
    cloak = _lib.walnut_cloaks(*_slices(key=key, labels=labels, word=word))
    return _granted(cloak.answer, bool(cloak.yes))


def crossings(word: Bytes, a: int, b: int) -> int:
    """How often the strands with labels a and b cross in the word, from the list 0 to 7: its generators that swap just
    these two, less its inverse letters that do."""
    crossing = _lib.walnut_crossings(*_slices(word=word), _label(a, "a"), _label(b, "b"))
    return _granted(crossing.answer, int(crossing.crossings))


def words_ending(length: int, labels: Bytes) -> int:
    """How many words of a length, 0 to SPREAD_LENGTH, over b1, b2, b3 and their inverses lead from the list 0 1 2 3 to
    this one: four labels, 0 to 3 each once. The words are not reduced."""
    # a length that the library cannot take is too long, as one over the limit is
    most = SPREAD_LENGTH + 1
    count = _lib.walnut_words_ending(_whole(min(_index(length, "length"), most), most, "length", "length"),
                                     *_slices(labels=labels))
    return _granted(count.answer, int(count.words))
