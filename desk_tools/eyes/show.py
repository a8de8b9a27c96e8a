"""Prints words, stored forms, keys, move lists and key shelves as text. For a refused file it prints the first question
that fails, where in the file that is, and what stands there. For a move list that a word refuses, it prints which move
fails."""

import walnut

import files
from files import KeyParts, Refused, count
from walnut import letter_text

# The number of letters in a row of text.
ROW = 10

# In a round each publisher is sure of this number of letters, and as many more go to whoever comes first.
SURE = 10000


def main(what, *paths):
    shows = {"word": show_word, "y-word": show_y_word, "stored": show_stored, "key": show_key, "moves": show_moves}
    {**shows, "shelf": show_shelf}[what](*paths)


def places(first, count):
    """'byte 4', 'bytes 4 to 6'; bytes count from 0."""
    return f"byte {first}" if count == 1 else f"bytes {first} to {first + count - 1}"


# ---- words


def show_word(path):
    codes, size = word(path)[1:]
    print_letters(f"a word of {count(len(codes), 'letter')} in {size} bytes", codes)


def show_y_word(path):
    """A word in Y letters. Which strands a letter crosses depends on the parts, which the file does not hold."""
    codes, size = word(path)[1:]
    told = f"a word of Y letters: {count(len(codes), 'letter')} in {size} bytes"
    print_rows(told, codes, lambda code: letter_text(code).replace("b", "y"))


def print_rows(told, codes, text):
    print(f"# {told}; each row begins with the place of its first letter")
    width = len(str(len(codes)))
    for place in range(0, len(codes), ROW):
        print(f"{place:{width}}: " + " ".join(text(code) for code in codes[place : place + ROW]))


def print_letters(told, codes):
    print_rows(told, codes, letter_text)
    *_, positions = (pair.positions for pair in strands(codes))
    print(f"# strands 0 to 7 end at positions {numbers(positions)}; positions count from 1")


def strands(codes):
    """The pair before each letter and after the last one, from the starting pair on. All T-values are 1, because the
    callers use only the lists."""
    pair = walnut.Pair.start()
    yield pair
    for code in codes:
        pair.multiply(walnut.GF32, bytes([1] * 8), code)
        yield pair


def word(path):
    """An accepted word: its file, the codes of its letters, and the file's size."""
    file, size = files.read(path, walnut.WORD_BYTES)
    try:
        return file, walnut.codes(file), size
    except walnut.Refusal as refusal:
        raise Refused(refusal.number, *word_fault(path, file, size, refusal.number)) from None


def word_fault(path, file, size, answer):
    """Says where a refused word fails, and what stands there."""
    letters = int.from_bytes(file[:2], "big")
    at = f"'{path}', {count(size, 'byte')}, "
    stated = at + f"bytes 0 and 1: {file[:2].hex(' ')}, so it states {count(letters, 'letter')}"
    if answer == 9:
        return [f"'{path}' has {count(size, 'byte')}"]
    if answer == 10:
        return [f"{stated}; a word has at most {walnut.LETTERS}"]
    if answer == 11:
        return [f"{stated} and needs {2 + (letters + 1) // 2} bytes; the file has {size}"]
    if answer == 12:
        place = next(k for k in range(letters) if files.half(file[2:], k) % 8 == 7)
        code, byte = files.half(file[2:], place), 2 + place // 2
        told = f"so the letter at place {place} has the code {code}; 7 and 15 are not letters"
        return [at + f"byte {byte}: {file[byte]:02x}, {told}"]
    return [f"{stated}; byte {size - 1}: {file[-1]:02x}, whose low half is unused and must be 0"]


# ---- stored forms


def show_stored(path):
    file, size = files.read(path, walnut.STORED_BYTES)
    try:
        codes = walnut.codes(walnut.restore(file))
    except walnut.Refusal as refusal:
        raise Refused(refusal.number, *stored_fault(path, file, size, refusal.number)) from None
    parts = files.StoredParts(len(codes))
    rows = f"{count(parts.signs[1], 'byte')} of signs, {count(parts.generators[1], 'byte')} of generators"
    print_letters(f"the stored form of a word of {count(len(codes), 'letter')} in {size} bytes: {rows}", codes)


def stored_fault(path, file, size, answer):
    """Says where a refused stored form fails, and what stands there."""
    if size < 6:
        return [f"'{path}' has {count(size, 'byte')}; a stored form has at least 6"]
    at = f"'{path}', {size} bytes, "
    letters, signs, generators = (int.from_bytes(file[place : place + 2], "big") for place in (0, 2, 4))
    stated = at + f"bytes 0 and 1: {file[:2].hex(' ')}, so it states {count(letters, 'letter')}"
    if answer == 10:
        return [f"{stated}; a word has at most {walnut.LETTERS}"]
    parts = files.StoredParts(letters)
    if answer == 29:
        return [at + line for line in stored_bits(file, parts, letters)]
    if signs != parts.signs[1]:
        return [f"{stated} and needs {parts.signs[1]} bytes of signs; bytes 2 and 3 state {signs}"]
    if generators != parts.generators[1]:
        return [f"{stated} and needs {parts.generators[1]} bytes of generators; bytes 4 and 5 state {generators}"]
    return [f"{stated} and needs {6 + signs + generators} bytes; the file has {size}"]


def stored_bits(file, parts, letters):
    """Says where the first generator 7 stands, and where filler is not zero."""
    numbers = files.packed(file, parts.generators, 3, letters)
    if 7 in numbers:
        place = numbers.index(7)
        first, last = (parts.generators[0] + (3 * place + bit) // 8 for bit in (0, 2))
        told = f"the generator at place {place} is the number 7; 0 to 6 stand for b1 to b7"
        yield f"{places(first, last - first + 1)}: {file[first : last + 1].hex(' ')}, {told}"
    for name, (start, length), bits in (("signs", parts.signs, 1), ("generators", parts.generators, 3)):
        filler = 8 * length - bits * letters
        if length and file[start + length - 1] % 2**filler:
            last = start + length - 1
            yield f"byte {last}: {file[last]:02x}, whose last {count(filler, 'bit')}, after the {name}, must be 0"


# ---- keys


def table(entries):
    """The 57 entries of a key file as eight rows. The file has only the last entry of row 8; the others are 0."""
    rows = [entries[8 * r : 8 * r + 8] for r in range(7)] + [bytes(7) + entries[56:]]
    width = len(str(max(entries)))
    return ["  " + " ".join(f"{entry:{width}}" for entry in row) for row in rows]


def numbers(values):
    return " ".join(map(str, values))


def show_key(path):
    file, size = files.read(path, max(files.FIELDS))
    try:
        key = walnut.read_key(file)
    except walnut.Refusal as refusal:
        raise Refused(refusal.number, *key_fault(path, file, size, refusal.number)) from None
    parts = KeyParts(key.field)
    print(f"a key of {size} bytes: 8 strands, the field with {parts.size} elements")
    print(f"T-values, of the labels 0 to 7: {numbers(key.t_values)}")
    print("matrix of Pub(S):")
    print("\n".join(table(walnut.file_entries(key.pair.matrix))))
    print(f"list of Pub(S): {numbers(key.pair.labels)}")
    print("matrix of Pub(S'):")
    print("\n".join(table(walnut.file_entries(key.second))))


def key_fault(path, file, size, answer):
    """Says where a refused key fails, and what stands there."""
    at = f"'{path}', {count(size, 'byte')}, "
    if answer == 1:
        return [f"'{path}' has {count(size, 'byte')}; a key has {' or '.join(map(str, sorted(files.FIELDS)))} bytes"]
    if answer == 2:
        return [at + f"byte 0 states {file[0]} strands, not 8"]
    parts = KeyParts(files.FIELDS[size])
    if answer == 3:
        q = int.from_bytes(file[1:3], "big")
        return [at + f"bytes 1 and 2 state q = {q}; a key of {size} bytes needs q = {parts.size}"]
    t_values = files.packed(file, parts.t_values, parts.bits, 8)
    labels = files.packed(file, parts.labels, 3, 8)
    if answer in (4, 5):
        return [at + f"{places(*parts.t_values)}: the T-values of the labels 0 to 7 are {numbers(t_values)}"]
    if answer == 6:
        missing = numbers(label for label in range(8) if label not in labels)
        return [at + f"{places(*parts.labels)}: the list is {numbers(labels)}; missing: {missing}"]
    if answer == 7:
        return [at + line for line in fillers(file, parts)]
    return no_inverses(at, file, parts, t_values, labels)


def fillers(file, parts):
    for name, (start, length) in (("Pub(S)", parts.first), ("Pub(S')", parts.second)):
        last = file[start + length - 1]
        if last % 2**parts.filler:
            told = f"whose last {parts.filler} bits, the filler after the matrix of {name}, must be 0"
            yield f"byte {start + length - 1}: {last:02x}, {told}"


def no_inverses(at, file, parts, t_values, labels):
    """Says which matrices have no inverse. To find out, it asks the library to write a key of the matrix and the
    identity."""
    identity = walnut.file_entries(walnut.Pair.start().matrix)
    for name, part in (("Pub(S)", parts.first), ("Pub(S')", parts.second)):
        entries = files.packed(file, part, parts.bits, 57)
        try:
            walnut.write_key(parts.field, t_values, labels, entries, identity)
        except walnut.Refusal:
            zero = "" if any(entries) else "; it is zero"
            yield at + f"{places(*part)}: the matrix of {name} has no inverse{zero}"
            yield from table(bytes(entries))


# ---- key shelves


def show_shelf(path):
    """A line for each key number, and one for the letters charged to each publisher. The line of a
    damaged key has the answer that it gets."""
    file, size = files.read(path, walnut.SHELF_BYTES)
    if size not in (0, walnut.SHELF_BYTES):
        told = f"it has {count(size, 'byte')}, and a shelf has {walnut.SHELF_BYTES}, or none if it is empty"
        raise Refused(0, f"'{path}' is no key shelf: {told}")
    shelf = walnut.Shelf(file) if file else walnut.Shelf()
    for place in range(8):
        slot = bytes(shelf)[129 * place : 129 * place + 129]
        print(f"publisher {place // 4 + 1} number {place % 4}: {held(slot)}")
    for publisher, own, other in zip((1, 2), shelf.charged, reversed(shelf.charged)):
        told = f"{count(own, 'letter')} charged in this round, at most {left(own, other)} more"
        print(f"publisher {publisher}: {told}")


def left(own, other):
    """The most letters that a publisher may still have judged in this round, from its own charge and the other's."""
    over = max(other - SURE, 0)
    return max(2 * SURE - over - own, 0) if over <= SURE else 0


def held(slot):
    """What a slot holds: the length of the key file, and then the file."""
    file = slot[1 : 1 + slot[0]]
    if not file:
        return "no key"
    try:
        key = walnut.read_key(file)
    except walnut.Refusal as refusal:
        return f"a damaged key of {count(len(file), 'byte')}, answer {refusal.number}: load it again"
    return f"a key of {len(file)} bytes, the field with {KeyParts(key.field).size} elements"


# ---- move lists


def show_moves(path, on=None):
    file, size = files.read(path, walnut.MOVES_BYTES)
    try:
        moves = walnut.read_moves(file)
    except walnut.Refusal as refusal:
        raise Refused(refusal.number, list_fault(path, file, size, refusal.number)) from None
    if on is not None:
        made(path, moves, on)
    known = {kind: files.kind_is_known(kind) for _, kind in moves}
    for number, (_, kind) in enumerate(moves, 1):
        if not known[kind]:
            raise Refused(21, unknown_kind(path, moves, number))
    print(f"# a list of {count(len(moves), 'move')} in {size} bytes; each row begins with the number of its move")
    print("# places count from 0, in the word that the earlier moves left")
    width = len(str(len(moves)))
    for number, (place, kind) in enumerate(moves, 1):
        text = f"{number:{width}}: at {place} {move_text(kind)}"
        print(f"{text:32} # {move_told(place, kind)}")


def unknown_kind(path, moves, number):
    place, kind = moves[number - 1]
    at = f"'{path}', {count(2 + 3 * len(moves), 'byte')}, byte {2 + 2 * len(moves) + number - 1}"
    return f"{at}: move {number}, at place {place}, has the unknown kind {kind}"


def made(listed, moves, on):
    """Finds the first move that the library refuses. Each move is made on the word that the move before it left."""
    file = word(on)[0]
    for number, (place, kind) in enumerate(moves, 1):
        try:
            file = walnut.rewrite(file, [(place, kind)])
        except walnut.Refusal as refusal:
            if refusal.number == 21:
                raise Refused(21, unknown_kind(listed, moves, number)) from None
            codes = walnut.codes(file)
            there = " ".join(map(letter_text, codes[place : place + 3])) or "nothing"
            told = f"the word then has {count(len(codes), 'letter')}, and {there} stands at this place"
            first, last = 2 * number, 2 + 2 * len(moves) + number - 1
            at = f"'{listed}', {count(2 + 3 * len(moves), 'byte')}, bytes {first} and {first + 1}, and byte {last}"
            raise Refused(refusal.number, f"{at}: move {number}, at {place} {move_text(kind)}: {told}") from None


def move_text(kind):
    """A kind as the text that `spell` reads."""
    return files.KINDS.get(kind) or f"insert {letter_text(kind - files.INSERT)}"


def move_told(place, kind):
    """What a move does."""
    if kind == 1:
        return f"removes the letters at {place} and {place + 1}, a letter and its inverse"
    if kind == 2:
        return f"swaps the letters at {place} and {place + 1}"
    if kind == 3:
        return f"turns j k j at {place} to {place + 2} into k j k"
    code = kind - files.INSERT
    return f"inserts {letter_text(code)} {letter_text(code ^ 8)} before place {place}"


def list_fault(path, file, size, answer):
    moves = int.from_bytes(file[:2], "big")
    if answer == 18:
        return f"'{path}' has {count(size, 'byte')}"
    at = f"'{path}', {count(size, 'byte')}, "
    stated = at + f"bytes 0 and 1: {file[:2].hex(' ')}, so it states {count(moves, 'move')}"
    if answer == 19:
        return f"{stated}; a list has at most {walnut.MOVES}"
    return f"{stated} and needs {2 + 3 * moves} bytes; the file has {size}"
