"""Turns text into a file. The text is written as `show` prints it. A `#` begins a comment. If a row begins with a
number and a colon, the number must be the one that `show` would print, so that a missing or repeated row is found."""

import re

import walnut

import files
from files import Refused

KINDS = {text: kind for kind, text in files.KINDS.items()}


def main(what, text, path):
    data, size = files.read(text, files.TEXT_BYTES)
    if size > files.TEXT_BYTES:
        raise Refused(0, f"'{text}' has {size} bytes; a text has at most {files.TEXT_BYTES} bytes")
    files.write(path, {"word": spell_word, "y-word": spell_y_word, "moves": spell_moves}[what](text, data))


def rows(path, data):
    """The rows that are not empty: the line's number, the number before the colon or None, and the words."""
    for number, line in enumerate(data.split(b"\n"), 1):
        try:
            line = line.decode("utf-8")
        except UnicodeDecodeError:
            raise bad(path, number, "this is not UTF-8 text") from None
        told, words = re.fullmatch(r"(?:\s*([0-9]+):)?(.*)", line.split("#")[0], re.DOTALL).groups()
        if told or words.split():
            yield number, told, words.replace("⁻¹", "^-1").split()


def numbered(path, number, told, due, what):
    """Refuses a row if the number before its colon is not the expected number `due`."""
    if told is not None and told.lstrip("0") != str(due).lstrip("0"):
        raise bad(path, number, f"the row begins with {told}:, but {what} {due}; is a row missing or repeated?")


def bad(path, number, why):
    return Refused(0, f"'{path}', line {number}: {why}")


def code(path, number, word, name="b"):
    """The code of a letter, b1 to b7 or y1 to y7. A letter y has the code of the letter b with its number."""
    try:
        return walnut.letter_code("b" + word[1:] if word[0] == name else "")
    except ValueError:
        told = f"'{word}' is not a letter; letters are {name}1 to {name}7 and {name}1^-1 to {name}7^-1"
        told += "; for Y letters: spell word --y" if re.fullmatch(r"y[1-7](\^-1)?", word) else ""
        raise bad(path, number, told) from None


def spell_y_word(path, data):
    return spell_word(path, data, "y")


def spell_word(path, data, name="b"):
    codes = []
    for number, told, words in rows(path, data):
        numbered(path, number, told, len(codes), "its first letter has place")
        codes += [code(path, number, word, name) for word in words]
    try:
        return walnut.write_word(codes)
    except walnut.Refusal as refusal:
        told = f"'{path}' has {len(codes)} letters; a word has at most {walnut.LETTERS}"
        raise Refused(refusal.number, told) from None


def spell_moves(path, data):
    moves = []
    for number, told, words in rows(path, data):
        numbered(path, number, told, len(moves) + 1, "it holds move")
        moves.append(move(path, number, words))
    try:
        return walnut.write_moves(moves)
    except walnut.Refusal as refusal:
        told = f"'{path}' has {len(moves)} moves; a list has at most {walnut.MOVES}"
        raise Refused(refusal.number, told) from None


def move(path, number, words):
    """A move as (place, kind). Its row is 'at PLACE' and then 'remove', 'swap', 'turn' or 'insert LETTER'."""
    if len(words) < 3 or words[0] != "at":
        raise bad(path, number, "a move is: at PLACE remove, at PLACE swap, at PLACE turn, or at PLACE insert LETTER")
    if not re.fullmatch("[0-9]{1,5}", words[1]) or int(words[1]) > 65535:
        raise bad(path, number, f"'{words[1]}' is not a place; places are 0 to 65535")
    place = int(words[1])
    if words[2] in KINDS and len(words) == 3:
        return place, KINDS[words[2]]
    if words[2] == "insert" and len(words) == 4:
        return place, walnut.insert(code(path, number, words[3]))
    raise bad(path, number, f"'{' '.join(words[2:])}' is not a move; moves are remove, swap, turn, and insert LETTER")
