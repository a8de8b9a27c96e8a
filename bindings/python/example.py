"""Worked slips: fields, words, pairs, keys, moves, crossings, spreading, cloaking, the verdict, whole and in halves, and
the key shelf, at both strengths."""

import walnut
from walnut import GF32, GF256

T_VALUES = [1, 1, 2, 3, 4, 5, 6, 7]
ORDER = range(8)


def write_key(field, t_values, pair, second):
    """The key file over a field of T-values, the pair Pub(S) and the matrix of Pub(S')."""
    return walnut.write_key(field, t_values, pair.labels, walnut.file_entries(pair.matrix), walnut.file_entries(second))


def text(data):
    return " ".join(f"{byte:02X}" for byte in data)


def row(matrix, number):
    return [matrix[walnut.place(number, column)] for column in range(1, 9)]


def yes_or_no(yes):
    return "yes" if yes else "no"


def answer_of(function, *arguments):
    try:
        function(*arguments)
    except walnut.Refusal as refusal:
        return refusal.number
    return 0


print("16 x 2 =", walnut.product(GF32, 16, 2))
print("31 x 31 =", walnut.product(GF32, 31, 31))
print("the reciprocal of 3 is", walnut.reciprocal(GF32, 3))

word = walnut.write_word("b1 b2^-1 b3 b4 b5^-1 b6 b7^-1")
print("b1 b2^-1 b3 b4 b5^-1 b6 b7^-1 is", text(word))
print("its letters:", walnut.read_word(word))
print("read back:", walnut.spelled(word))

pair = walnut.Pair.start()
pair.multiply(GF32, T_VALUES, 2)
print("row 3 after b3:", *row(pair.matrix, 3))
print("column 4 after b3:", *pair.matrix[24:32])

start = walnut.Pair.start()
key = write_key(GF32, T_VALUES, start, start.matrix)
print("plain T-values pack to", text(key[3:8]))
print("the list 0 to 7 packs to", text(key[44:47]))

# Pub(S) is the starting pair times b3, and Pub(S') has the matrix of b3's inverse
inverse = walnut.Pair.start()
inverse.multiply(GF32, T_VALUES, "b3^-1")
file = write_key(GF32, T_VALUES, pair, inverse.matrix)
print("row 3 after b3 packs to", text(file[18:23]))
held = walnut.read_key(file)
print("a key with b3 and b3' read back:")
print("T-values", *held.t_values)
print("row 3 of Pub(S):", *row(held.pair.matrix, 3))
print("list of Pub(S):", *held.pair.labels)
print("positions of its labels:", *held.pair.positions)
print("strand 2 is at position", held.pair.position(2))
print("row 3 of Pub(S'):", *row(held.second, 3))
back = write_key(held.field, held.t_values, held.pair, held.second)
print("that key, read and written back, is the same:", yes_or_no(back == file))
blank = walnut.Pair.start()
blank.matrix = bytes(64)
print("a key with both matrices zero: answer", answer_of(write_key, GF32, T_VALUES, blank, blank.matrix))

moved = walnut.rewrite(bytes.fromhex("00 03 01 00"), bytes.fromhex("00 01 00 00 03"))
print("00 03 01 00 with kind 3 at place 0 gives", text(moved))
moves = [(0, walnut.TURN), (3, walnut.REMOVE)]
print("kind 3 at place 0 and then kind 1 at place 3 is", text(walnut.write_moves(moves)))
print("on 00 05 01 03 B0 it gives", text(walnut.rewrite(bytes.fromhex("00 05 01 03 B0"), moves)))
print("00 02 08 freely reduced is", text(walnut.free_reduce(bytes.fromhex("00 02 08"))))
print("00 05 01 09 80 shortened is", text(walnut.shorten(bytes.fromhex("00 05 01 09 80"))))
stored = walnut.store(bytes.fromhex("00 07 09 23 C5 E0"))
print("00 07 09 23 C5 E0 stored is", text(stored))
print("restored it is", text(walnut.restore(stored)))
parts = [4, 3]
y_word = walnut.to_y(bytes.fromhex("00 02 01"), parts)
print("00 02 01 in Y letters for parts 4 and 3 is", text(y_word))
print("00 01 A0 in Artin letters for parts 4 and 3 is", text(walnut.from_y(bytes.fromhex("00 01 A0"), parts)))
print("with parts 4 and 4: answer", answer_of(walnut.to_y, bytes(2), [4, 4]))
pair = bytes.fromhex("00 02 6B")
print("the pair at place 0 of 00 02 6B becomes", text(walnut.replace_pair(pair, 0)))
print("the pair at place 1: answer", answer_of(walnut.replace_pair, pair, 1))
print("half byte 6 gives", text(walnut.encode_digest([0x66] * 32)[2:8]))

word = walnut.write_word("b1 b2 b3 b2^-1 b1^-1")
new, left = walnut.handle_reduce(word, 1)
print("b1 b2 b3 b2^-1 b1^-1 in 1 step is", text(new))
print("a handle is left in it:", yes_or_no(left))
new, left = walnut.handle_reduce(word)
print("in 65535 steps it is", text(new))
print("a handle is left in it:", yes_or_no(left))
grows = walnut.write_word(["b1", *["b2"] * 3334, "b1^-1"])
print("b1, 3334 times b2 and b1^-1 in 1 step: answer", answer_of(walnut.handle_reduce, grows, 1))
both = bytes.fromhex("00 03 00 80"), bytes.fromhex("00 01 00")
print("the shorter of 00 03 00 80 and 00 01 00 is", text(walnut.shorter(*both)))

print("strands 0 and 2 cross in b1 b2:", walnut.crossings(walnut.write_word("b1 b2"), 0, 2))
print("strands 1 and 0 cross in b1^-1 b1^-1:", walnut.crossings(walnut.write_word("b1^-1 b1^-1"), 1, 0))
print("strands 0 and 8: answer", answer_of(walnut.crossings, bytes(2), 0, 8))

print("words of length 2 that end in 0 1 2 3:", walnut.words_ending(2, (0, 1, 2, 3)))
print("words of length 2 that end in 1 0 3 2:", walnut.words_ending(2, (1, 0, 3, 2)))
print("words of length 13: answer", answer_of(walnut.words_ending, 13, (0, 1, 2, 3)))

print("b1 b1 cloaks:", yes_or_no(walnut.cloaks(key, ORDER, bytes.fromhex("00 02 00"))))
print("b3 b3 cloaks:", yes_or_no(walnut.cloaks(key, ORDER, bytes.fromhex("00 02 22"))))
insertion = [(1, walnut.insert("b1"))]
print("00 00 with kind 16 at place 1: answer", answer_of(walnut.rewrite, bytes(2), insertion))

signature = bytes.fromhex("00 80") + bytes([0x66]) * 64
print("plain key, zero digest, 00 80 and 64 bytes of 66: answer", answer_of(walnut.verify, key, bytes(32), signature))
print("plain key, zero digest, 00 00: answer", walnut.verdict(key, bytes(32), bytes(2)))

# several copies of a slip: the digest is encoded once, by the first half
half = walnut.first_half(key, bytes(32))
rewritten = walnut.rewrite(signature, [(0, walnut.insert("b1"))])
print("plain key, zero digest, three copies by halves:")
print("00 80 and 64 bytes of 66: answer", answer_of(walnut.second_half, half, signature))
print("the same with kind 16 at place 0: answer", answer_of(walnut.second_half, half, rewritten))
print("00 00: answer", answer_of(walnut.second_half, half, bytes(2)))
blank = walnut.Half(half.field, half.t_values, half.pair, bytes(64))
print("a half with a target of zeros: answer", answer_of(walnut.second_half, blank, signature))
print("a half of 31 zero bytes: answer", answer_of(walnut.first_half, key, bytes(31)))

# the key shelf of two publishers
shelf = walnut.Shelf()
print("publisher 1 loads the plain key under 0: answer", answer_of(shelf.load, 1, 0, key))
print("its slip by this key: answer", answer_of(shelf.judge, 1, 0, bytes(32), signature))
print("publisher 2 has none under 0: answer", answer_of(shelf.judge, 2, 0, bytes(32), signature))
print("there is no number 4: answer", answer_of(shelf.load, 1, 4, key))
print("number 0 begins with", text(bytes(shelf)[:4]))
# each publisher is sure of 10,000 letters in a round, and a further 10,000 go to whoever comes first
long_word = bytes.fromhex("27 10") + bytes(5000)
print("the letters charged to both are", text(bytes(shelf)[-4:]))
print("b1, 10000 times: answer", answer_of(shelf.judge, 1, 0, bytes(32), long_word))
print("the letters charged to both are", text(bytes(shelf)[-4:]))
print("the same again: answer", answer_of(shelf.judge, 1, 0, bytes(32), long_word))
print("publisher 2 starts a new round: answer", answer_of(shelf.round, 2))
print("the letters charged to both are", text(bytes(shelf)[-4:]))
print("publisher 3 starts a new round: answer", answer_of(shelf.round, 3))
print("publisher 1 clears 0: answer", answer_of(shelf.clear, 1, 0))
print("the shelf is empty again:", yes_or_no(shelf == walnut.Shelf(bytes(walnut.SHELF_BYTES))))

# products, keys and verdicts over the field with 256 elements
print("over 256 elements 128 x 2 =", walnut.product(GF256, 128, 2))
print("16 x 2 =", walnut.product(GF256, 16, 2))
print("the reciprocal of 3 is", walnut.reciprocal(GF256, 3))
inverse = walnut.Pair.start()
inverse.multiply(GF256, T_VALUES, 10)
print("row 3 after b3':", *row(inverse.matrix, 3))

key = write_key(GF256, T_VALUES, start, start.matrix)
print(f"the plain key: {len(key)} bytes, from", text(key[:11]))
file = write_key(GF256, T_VALUES, inverse, start.matrix)
print("row 3 after b3' packs to", text(file[27:35]))
held = walnut.read_key(file)
print("row 3 of Pub(S):", *row(held.pair.matrix, 3))
back = write_key(held.field, held.t_values, held.pair, held.second)
print("that key, read and written back, is the same:", yes_or_no(back == file))
print("128 bytes with q = 32: answer", answer_of(walnut.read_key, key[:1] + bytes([0, 32]) + key[3:]))

signature = bytes.fromhex("01 00") + bytes([0x66]) * 128
print("plain key, 64 zero bytes, 01 00 and 128 bytes of 66: answer", walnut.verdict(key, bytes(64), signature))
half = walnut.first_half(key, bytes(64))
print("the same by halves: answer", answer_of(walnut.second_half, half, signature))
print("plain key, 64 zero bytes, 00 00: answer", answer_of(walnut.verify, key, bytes(64), bytes(2)))
print("plain key, 32 zero bytes: answer", walnut.verdict(key, bytes(32), signature))
