"""Reads and writes files, and knows where their parts stand. The library alone decides whether a file is accepted."""

import os
import stat

import walnut

# The field for each length of a key file, and the bits of an entry in each field.
FIELDS = {field.key_bytes: field for field in walnut.Field}
BITS = {walnut.GF32: 5, walnut.GF256: 8}

TEXT_BYTES = 1_000_000


class Refused(Exception):
    """A refused file: the answer, and the lines to print. The answer is 0 if no question of the papers fails."""

    def __init__(self, answer, *lines):
        super().__init__(answer, *lines)
        self.answer = answer
        self.lines = lines


def count(number, thing):
    """'1 letter', '2 letters'."""
    return f"{number} {thing}" + ("" if number == 1 else "s")


# ---- files


def read(path, limit):
    """The file's bytes and its size. It reads at most one byte more than the limit, which shows that a file is too
    long."""
    with open(path, "rb") as file:
        data = file.read(limit + 1)
        status = os.fstat(file.fileno())
    return data, max(len(data), status.st_size if stat.S_ISREG(status.st_mode) else 0)


def write(path, data):
    """Writes the file under the name beside it that ./walnut chose, and renames it when it is complete. ./walnut has
    checked that the file may be replaced."""
    beside, made = os.environ["WALNUT_BESIDE"], False
    try:
        with open(beside, "xb") as file:
            made = True
            file.write(data)
            file.flush()
            os.fsync(file.fileno())
        os.replace(beside, path)
        made = False
    except OSError as error:
        raise OSError(error.errno, error.strerror, path) from error
    finally:
        if made:
            os.remove(beside)


# ---- letters and moves


def half(data, place):
    """The half byte at a place. The high half of a byte comes first."""
    byte = data[place // 2]
    return byte % 16 if place % 2 else byte // 16


# The kinds of moves as text. An insertion is 'insert' and a letter.
KINDS = {walnut.REMOVE: "remove", walnut.SWAP: "swap", walnut.TURN: "turn"}
INSERT = walnut.insert(0)


def kind_is_known(kind):
    """Does this kind exist? If not, the library answers 21 before it looks at the word."""
    try:
        walnut.rewrite(bytes(2), [(0, kind)])
    except walnut.Refusal as refusal:
        return refusal.number != walnut.Answer.NO_KIND
    return True


# ---- keys and stored forms


class KeyParts:
    """Where the parts of a key file stand in one field: the first byte of each part, and its number of bytes."""

    def __init__(self, field):
        self.field = field
        self.bits = bits = BITS[field]
        matrix = 7 * bits + 1
        self.size = 2**bits
        self.t_values = (3, bits)
        self.first = (3 + bits, matrix)
        self.labels = (3 + bits + matrix, 3)
        self.second = (6 + bits + matrix, matrix)
        self.filler = 8 * matrix - 57 * bits


class StoredParts:
    """Where the rows of a stored form stand: the first byte of each row, and its number of bytes."""

    def __init__(self, letters):
        signs, generators = (letters + 7) // 8, (3 * letters + 7) // 8
        self.signs = (6, signs)
        self.generators = (6 + signs, generators)


def packed(file, part, bits, count):
    """The first `count` numbers of a part, `bits` bits each. The most significant bit comes first."""
    start, length = part
    value = int.from_bytes(file[start : start + length], "big")
    return [value >> (8 * length - bits * (k + 1)) & (2**bits - 1) for k in range(count)]
