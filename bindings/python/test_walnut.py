"""What the binding adds to the library: what verify raises, names and texts of answers, letters, moves, and what is no
input. Results are the papers' slips, or follow from the layout of the files."""

import ast
import concurrent.futures
import copy
import os
import pickle
import subprocess
import sys
import unittest

import walnut
from walnut import GF32, GF256, Answer, Half, Key, Pair, Refusal, Shelf

T_VALUES = [1, 1, 2, 3, 4, 5, 6, 7]
SEVEN = "b1 b2^-1 b3 b4 b5^-1 b6 b7^-1"
SEVEN_FILE = bytes.fromhex("00 07 09 23 C5 E0")
FIVE_FILE = bytes.fromhex("00 05 01 03 B0")


def plain_key(field):
    """Both matrices the identity, and the list 0 to 7."""
    start = Pair.start()
    entries = walnut.file_entries(start.matrix)
    return walnut.write_key(field, T_VALUES, start.labels, entries, entries)


class Case(unittest.TestCase):
    def refused(self, number, function, *arguments):
        with self.assertRaises(Refusal) as caught:
            function(*arguments)
        self.assertEqual(caught.exception.number, number)

    def raised(self, error, words, function, *arguments):
        with self.assertRaises(error) as caught:
            function(*arguments)
        self.assertIn(words, str(caught.exception))


class Verdicts(Case):
    def test_verify_returns_nothing_or_raises(self):
        for field in (GF32, GF256):
            key, digest = plain_key(field), bytes(field.digest_bytes)
            # a half byte 0 is b7 twice, and there are two in a byte
            word = (4 * len(digest)).to_bytes(2, "big") + b"\x66" * (2 * len(digest))
            self.assertIsNone(walnut.verify(key, digest, word))
            self.assertEqual(walnut.verdict(key, digest, word), 0)
            files = [(14, (key, digest, bytes(2))), (1, (key[1:], digest, word)), (8, (key, digest[1:], word))]
            for number, slip in files + [(9, (key, digest, b"")), (1, (b"", b"", b""))]:
                self.refused(number, walnut.verify, *slip)
                self.assertEqual(walnut.verdict(*slip), number)

    def test_halves_judge_copies_as_the_verdict_does(self):
        for field in (GF32, GF256):
            key, digest = plain_key(field), bytes(field.digest_bytes)
            half, start = walnut.first_half(key, digest), Pair.start()
            self.assertEqual((half.field, list(half.t_values), half.pair), (field, T_VALUES, start))
            word = (4 * len(digest)).to_bytes(2, "big") + b"\x66" * (2 * len(digest))
            self.assertIsNone(walnut.second_half(half, word))
            for copied in (bytes(2), b"\0", bytes([0, 1, 0x70]), SEVEN_FILE):
                self.refused(walnut.verdict(key, digest, copied), walnut.second_half, half, copied)
            self.assertIsNone(walnut.second_half(Half(field, T_VALUES, start, start.matrix), bytes(2)))
            self.refused(26, walnut.second_half, Half(field, T_VALUES, start, bytes(64)), b"")
            self.refused(4, walnut.second_half, Half(field, bytes(8), start, bytes(64)), b"")
            self.refused(1, walnut.first_half, key[1:], digest)
            self.refused(8, walnut.first_half, key, digest[1:])
        self.raised(ValueError, "target: 64 numbers are needed, not 63", Half, GF32, T_VALUES, Pair.start(), bytes(63))
        self.raised(TypeError, "half: a Half is needed, not bytes", walnut.second_half, bytes(64), bytes(2))

    def test_any_kind_of_bytes(self):
        key, digest, word = plain_key(GF32), bytes(32), b"\x00\x80" + b"\x66" * 64
        for kind in (bytes, bytearray, memoryview, list, tuple, iter):
            self.assertIsNone(walnut.verify(kind(key), kind(digest), kind(word)))


class Refusals(Case):
    def test_number_text_and_name(self):
        refusal = Refusal(14)
        self.assertEqual(refusal.number, Answer.MATRICES_DIFFER)
        self.assertTrue(str(refusal).startswith("14: the matrices differ"))
        self.assertEqual(repr(refusal), "walnut.Refusal(14)")
        self.assertEqual({answer.value for answer in Answer}, set(walnut.TEXTS))

    def test_an_unknown_number(self):
        self.assertEqual(str(Refusal(255)), "255: an answer that this binding does not know")
        self.assertEqual(walnut.text(255), "an answer that this binding does not know")

    def test_it_pickles_and_copies(self):
        for number in (14, 255):
            for again in (pickle.loads(pickle.dumps(Refusal(number))), copy.deepcopy(Refusal(number))):
                self.assertIs(type(again), Refusal)
                self.assertEqual((again.number, str(again)), (number, str(Refusal(number))))

    def test_a_process_pool_raises_it(self):
        key, digest, word = plain_key(GF32), bytes(32), b"\x00\x80" + b"\x66" * 64
        with concurrent.futures.ProcessPoolExecutor(1) as pool:
            self.refused(14, pool.submit(walnut.verify, key, digest, bytes(2)).result)
            self.assertIsNone(pool.submit(walnut.verify, key, digest, word).result())


class Letters(Case):
    def test_codes_and_text(self):
        codes = bytes([0, 9, 2, 3, 12, 5, 14])
        for letters in (SEVEN, f"\n {SEVEN}\n", SEVEN.split(), codes, list(codes), ["b1", 9, 2, "b4", 12, 5, "b7^-1"]):
            self.assertEqual(walnut.write_word(letters), SEVEN_FILE)
        self.assertEqual(walnut.codes(SEVEN_FILE), codes)
        self.assertEqual(walnut.spelled(SEVEN_FILE), SEVEN)
        for nothing in ("", b"", []):
            self.assertEqual(walnut.write_word(nothing), bytes(2))
        self.assertEqual((walnut.codes(bytes(2)), walnut.spelled(bytes(2))), (b"", ""))

    def test_every_code(self):
        for code in range(256):
            if code in (*range(7), *range(8, 15)):
                self.assertEqual(walnut.letter_code(walnut.letter_text(code)), code)
                self.assertEqual(walnut.codes(walnut.write_word([code])), bytes([code]))
            else:
                self.raised(ValueError, f"{code} is no letter's code", walnut.letter_text, code)
                self.refused(12, walnut.write_word, [code])

    def test_text_that_is_no_letter(self):
        for wrong in ("b0", "b8", "b1^-2", "b1^1", "B1", "b", "1"):
            self.raised(ValueError, f"'{wrong}' is no letter", walnut.write_word, f"b1 {wrong}")
        self.raised(ValueError, "256 is no byte", walnut.write_word, [256])
        self.raised(TypeError, "a whole number is needed, not float", walnut.write_word, [1.0])
        self.raised(TypeError, "codes or text are needed, not int", walnut.write_word, 5)

    def test_letters_of_a_refused_word(self):
        for number, file in ((9, "00"), (10, "27 11"), (11, "00 01"), (12, "00 01 70"), (13, "00 01 01")):
            for function in (walnut.codes, walnut.spelled, walnut.read_word):
                self.refused(number, function, bytes.fromhex(file))

    def test_a_letter_on_a_pair(self):
        by_text, by_code = Pair.start(), Pair.start()
        by_text.multiply(GF32, T_VALUES, "b3^-1")
        by_code.multiply(GF32, T_VALUES, 10)
        self.assertEqual(by_text, by_code)
        self.assertEqual([by_text.matrix[walnut.place(3, column)] for column in (2, 3, 4)], [1, 28, 28])
        self.refused(12, by_text.multiply, GF32, T_VALUES, 7)
        self.assertEqual(by_text, by_code)

    def test_where_a_strand_is(self):
        pair = Pair.start()
        self.assertEqual([pair.position(label) for label in range(8)], [1, 2, 3, 4, 5, 6, 7, 8])
        for letter in ("b3^-1", "b6", "b4", "b1^-1", "b2"):
            pair.multiply(GF32, T_VALUES, letter)
        self.assertEqual(list(pair.labels), [1, 3, 0, 4, 2, 6, 5, 7])
        self.assertEqual([pair.position(label) for label in range(8)], [3, 1, 5, 2, 4, 7, 6, 8])
        self.assertEqual(Pair(pair.matrix, pair.labels), pair)
        stale = Pair(pair.matrix, pair.labels, Pair.start().positions)
        self.refused(6, stale.multiply, GF32, T_VALUES, "b1")
        self.assertEqual(stale.positions, Pair.start().positions)
        self.raised(ValueError, "labels are 0 to 7, not 8", pair.position, 8)


class Crossings(Case):
    def test_by_sign(self):
        # each letter swaps the strands 0 and 1; the others never cross
        for text, number in (("b1 b1", 2), ("b1^-1 b1^-1", -2), ("b1 b1^-1", 0), ("", 0)):
            word = walnut.write_word(text)
            self.assertEqual([walnut.crossings(word, a, b) for a, b in ((0, 1), (1, 0), (0, 7))], [number, number, 0])
            self.refused(27, walnut.crossings, word, 3, 3)
            self.refused(27, walnut.crossings, word, 0, 8)
        self.refused(9, walnut.crossings, b"", 0, 0)
        # a label that is no byte is over 7 too, and is asked after the word; one below 0 is no label
        self.refused(27, walnut.crossings, bytes(2), 0, 256)
        self.refused(9, walnut.crossings, b"", 0, 256)
        self.raised(ValueError, "b: -1 is no byte", walnut.crossings, bytes(2), 0, -1)
        self.raised(TypeError, "word: bytes are needed", walnut.crossings, "0000", 0, 1)
        self.raised(TypeError, "b: a whole number is needed, not str", walnut.crossings, bytes(2), 0, "1")
        self.raised(TypeError, "row: a whole number is needed, not str", walnut.place, "1", 2)


class Shortening(Case):
    def test_efforts(self):
        # b1 b2 b1 b2^-1 b1^-1 is b2, by a turn; b1 b3 b1^-1 is b3, by a swap
        turned, swapped = walnut.write_word("b1 b2 b1 b2^-1 b1^-1"), walnut.write_word("b1 b3 b1^-1")
        self.assertEqual(walnut.spelled(walnut.shorten(turned)), "b2")
        self.assertEqual(walnut.shorten(turned, 0), turned)
        self.assertEqual(walnut.shorten(turned, effort=65535), walnut.write_word("b2"))
        self.assertEqual(walnut.spelled(walnut.shorten(swapped, 0)), "b3")
        self.refused(13, walnut.shorten, bytes.fromhex("00 01 01"))
        for effort in (-1, 65536):
            self.raised(ValueError, f"effort: {effort} is no effort", walnut.shorten, turned, effort)
        self.raised(TypeError, "effort: a whole number is needed, not float", walnut.shorten, turned, 5.0)
        self.raised(TypeError, "word: bytes are needed", walnut.shorten, "0000")


class Spreading(Case):
    def test_words_ending(self):
        # of the 36 words of two letters 12 bring the list back, and 8 exchange both its halves
        numbers = [walnut.words_ending(2, labels) for labels in ((0, 1, 2, 3), (1, 0, 3, 2), bytes((3, 2, 1, 0)))]
        self.assertEqual(numbers, [12, 8, 0])
        self.assertEqual(walnut.words_ending(0, (0, 1, 2, 3)), 1)
        for length in (13, 2**64 + 2, 2**70):
            self.refused(35, walnut.words_ending, length, (0, 1, 2, 3))
        for labels in ((), (0, 1, 2), (0, 1, 2, 2), (0, 1, 2, 4), (0, 1, 2, 3, 4)):
            self.refused(35, walnut.words_ending, 2, labels)
        self.raised(ValueError, "length: -1 is no length", walnut.words_ending, -1, (0, 1, 2, 3))
        self.raised(TypeError, "length: a whole number is needed, not str", walnut.words_ending, "2", (0, 1, 2, 3))
        self.raised(TypeError, "labels: bytes are needed", walnut.words_ending, 2, "0123")


class Handles(Case):
    def test_steps(self):
        # b1 b2 b3 b2^-1 b1^-1 is b1 b3^-1 b2 b3 b1^-1, and then b3^-1 b2^-1 b1 b2 b3
        word = bytes.fromhex("00 05 01 29 80")
        self.assertEqual(walnut.handle_reduce(word, 0), (word, True))
        self.assertEqual(walnut.handle_reduce(word, 1), (bytes.fromhex("00 05 0A 12 80"), True))
        for limit in ((), (2,), (65535,)):
            self.assertEqual(walnut.handle_reduce(word, *limit), (bytes.fromhex("00 05 A9 01 20"), False))

    def test_refusals(self):
        # the step would leave 10,002 letters
        grows = walnut.write_word(["b1", *["b2"] * 3334, "b1^-1"])
        self.refused(32, walnut.handle_reduce, grows, 1)
        self.assertEqual(walnut.handle_reduce(grows, 0), (grows, True))
        self.refused(9, walnut.handle_reduce, b"", 1)
        for limit in (-1, 65536):
            self.raised(ValueError, f"limit: {limit} is no limit", walnut.handle_reduce, bytes(2), limit)
        self.raised(TypeError, "limit: a whole number is needed, not str", walnut.handle_reduce, bytes(2), "1")
        self.raised(TypeError, "word: bytes are needed", walnut.handle_reduce, "b1", 1)

    def test_the_shorter_of_two(self):
        one, two, none = bytes((0, 1, 0)), bytes((0, 1, 16)), bytes(2)
        pairs = [(one, none), (none, one), (two, one), (one, two)]
        self.assertEqual([walnut.shorter(*pair) for pair in pairs], [none, none, two, one])
        self.assertEqual(walnut.shorter([0, 1, 0], iter(none)), none)
        self.refused(9, walnut.shorter, b"", bytes((0, 1)))
        self.refused(11, walnut.shorter, one, bytes((0, 1)))


class Dialect(Case):
    def test_conversions(self):
        word, parts = bytes.fromhex("00 02 01"), [4, 3]
        # b1 b2 is y1 y2^-1 y2 y3^-1
        self.assertEqual(walnut.to_y(word, parts), bytes.fromhex("00 04 09 1A"))
        # y1 y2 is b1 b2 b3 b4 b2 b3 b4
        self.assertEqual(walnut.from_y(word, bytes(parts)), bytes.fromhex("00 07 01 23 12 30"))
        self.assertEqual(walnut.free_reduce(walnut.from_y(walnut.to_y(word, parts), parts)), word)
        for parts in ((), (4, 0, 3), (4, 4), (255, 8)):
            self.refused(33, walnut.to_y, word, parts)
            self.refused(33, walnut.from_y, word, parts)
        self.refused(34, walnut.to_y, walnut.write_word([0] * 5001), [4, 3])
        self.raised(TypeError, "parts: bytes are needed", walnut.to_y, word, "43")

    def test_pairs(self):
        pair = bytes.fromhex("00 02 6B")
        self.assertEqual(walnut.replace_pair(pair, 0), bytes.fromhex("00 02 B6"))
        for place in (1, 2, 10000, 2**64, 2**70):
            self.refused(22, walnut.replace_pair, pair, place)
        self.raised(ValueError, "place: -1 is no place", walnut.replace_pair, pair, -1)


class Moves(Case):
    def test_the_list_of_two_moves(self):
        moves, file = [(0, walnut.TURN), (3, walnut.REMOVE)], bytes([0, 2, 0, 0, 0, 3, 3, 1])
        self.assertEqual(walnut.write_moves(moves), file)
        self.assertEqual(walnut.read_moves(file), moves)
        for given in (moves, file, bytearray(file), iter(moves), [[0, 3], [3, 1]]):
            self.assertEqual(walnut.rewrite(FIVE_FILE, given), bytes.fromhex("00 03 10 10"))

    def test_places_and_kinds(self):
        self.assertEqual([walnut.insert(letter) for letter in ("b1", "b7", "b1^-1", "b7^-1", 14)], [16, 22, 24, 30, 30])
        for letter in (7, 15, 16, 255, 256, -1, "b9"):
            self.raised(ValueError, "is no", walnut.insert, letter)
        file = bytes([0, 2, 1, 2, 0xFF, 0xFF, 2, 200])
        self.assertEqual(walnut.write_moves([(0x0102, walnut.SWAP), (0xFFFF, 200)]), file)
        self.assertEqual(walnut.read_moves(file), [(0x0102, 2), (0xFFFF, 200)])
        self.refused(21, walnut.rewrite, bytes(2), [(0, 200)])

    def test_lists_that_are_refused(self):
        for number, file in ((18, "00"), (19, "10 01"), (20, "00 01 00 00")):
            self.refused(number, walnut.read_moves, bytes.fromhex(file))
        self.assertEqual(len(walnut.write_moves([(0, 16)] * walnut.MOVES)), walnut.MOVES_BYTES)
        for number in (walnut.MOVES + 1, 65535, 65536, 70000):
            self.refused(19, walnut.write_moves, [(0, 16)] * number)
            self.refused(19, walnut.rewrite, bytes(2), [(0, 16)] * number)
            # the word is asked first
            self.refused(9, walnut.rewrite, b"", [(0, 16)] * number)

    def test_what_is_no_move(self):
        for wrong in (5, (1, 2, 3), "b1^-1", bytes(3)):
            self.raised(TypeError, "a move is (place, kind)", walnut.write_moves, [wrong])
        self.raised(TypeError, "a move is (place, kind)", walnut.rewrite, bytes(2), [0, 1, 0, 0, 16])
        self.raised(TypeError, "not str", walnut.rewrite, bytes(2), "00 00")
        self.raised(ValueError, "65536 is no place", walnut.write_moves, [(65536, 1)])
        self.raised(ValueError, "-1 is no place", walnut.write_moves, [(-1, 1)])
        self.raised(ValueError, "256 is no byte", walnut.write_moves, [(0, 256)])


class Inputs(Case):
    def test_text_is_no_bytes(self):
        calls = [
            (walnut.read_key, ("08",), "file"),
            (walnut.read_word, ("0000",), "file"),
            (walnut.codes, ("0000",), "word"),
            (walnut.encode_digest, ("00" * 32,), "digest"),
            (walnut.free_reduce, ("0000",), "word"),
            (walnut.read_moves, ("0000",), "file"),
            (walnut.rewrite, ("0000", bytes(2)), "word"),
            (walnut.verify, ("08", b"", b""), "key"),
            (walnut.verdict, (b"", "00" * 32, b""), "digest"),
            (walnut.verify, (b"", b"", "0000"), "word"),
            (walnut.cloaks, (b"", "01234567", b""), "labels"),
            (walnut.file_entries, ("0" * 64,), "matrix"),
        ]
        for function, arguments, name in calls:
            needed = f"{name}: bytes are needed, or numbers that are bytes, not str"
            self.raised(TypeError, needed, function, *arguments)
            self.raised(TypeError, "bytes.fromhex", function, *arguments)

    def test_numbers_and_lengths(self):
        self.raised(TypeError, "file: bytes are needed, or numbers that are bytes, not int", walnut.read_word, 2)
        self.raised(TypeError, "file: bytes are needed, or numbers that are bytes, not NoneType", walnut.read_key, None)
        self.raised(ValueError, "word: 256 is no byte", walnut.free_reduce, [0, 256])
        self.raised(ValueError, "t_values: 8 numbers are needed, not 7", Pair.start().multiply, GF32, T_VALUES[1:], 0)
        self.raised(ValueError, "a: 256 is no byte", walnut.product, GF32, 256, 0)
        self.raised(ValueError, "True is no field", walnut.product, True, 1, 1)
        self.raised(ValueError, "from 1 to 8", walnut.place, 0, 1)


class Shelves(Case):
    def test_publishers_are_apart(self):
        shelf = Shelf()
        self.assertEqual(bytes(shelf), bytes(walnut.SHELF_BYTES))
        for field, publisher in ((GF32, 1), (GF256, 2)):
            key, digest = plain_key(field), bytes(field.digest_bytes)
            signature = (4 * len(digest)).to_bytes(2, "big") + bytes([0x66]) * (2 * len(digest))
            self.refused(Answer.NO_KEY_HELD, shelf.judge, publisher, 3, digest, signature)
            shelf.load(publisher, 3, key)
            loaded = bytes(shelf)
            self.refused(Answer.MATRICES_DIFFER, shelf.judge, publisher, 3, digest, bytes(2))
            self.assertEqual(bytes(shelf), loaded)
            shelf.judge(publisher, 3, digest, signature)
            # 128 letters are charged to publisher 1, then 256 to publisher 2
            loaded = loaded[:1032] + bytes([0, 128, publisher - 1, 0])
            self.assertEqual(shelf.charged, (128, 256 * (publisher - 1)))
            self.refused(Answer.KEY_LENGTH, shelf.load, publisher, 3, key[1:])
            for nobody, number in ((0, 3), (3, 3), (publisher, 4), (publisher, 2**70), (2**64 + 1, 3)):
                self.refused(Answer.NO_SUCH_NUMBER, shelf.load, nobody, number, key)
                self.refused(Answer.NO_SUCH_NUMBER, shelf.clear, nobody, number)
                self.refused(Answer.NO_SUCH_NUMBER, shelf.judge, nobody, number, digest, signature)
            self.assertEqual(bytes(shelf), loaded)
            # slot 3 or 7, with 129 bytes each
            at = 387 + 516 * (publisher - 1)
            self.assertEqual(loaded[at : at + 1 + len(key)], bytes([len(key)]) + key)
            self.assertEqual(Shelf(loaded), shelf)
        for publisher in (1, 2, 1):
            shelf.clear(publisher, 3)
        self.assertEqual(shelf.charged, (128, 256))
        shelf.round(1)
        self.assertEqual(shelf, Shelf())

    def test_a_round_has_limits(self):
        # b1, 10,000 times, is no signature of zero bytes; its letters are charged all the same
        shelf, word = Shelf(), bytes.fromhex("27 10") + bytes(5000)
        for publisher in (1, 2):
            shelf.load(publisher, 0, plain_key(GF32))
        rows = ((1, word, 14, (10000, 0)), (1, word, 14, (20000, 0)), (1, b"\0\1\0", 36, (20000, 0)))
        rows += ((2, word, 14, (20000, 10000)), (2, b"\0\1\0", 36, (20000, 10000)))
        for publisher, letters, answer, charged in rows:
            self.refused(answer, shelf.judge, publisher, 0, bytes(32), letters)
            self.assertEqual(shelf.charged, charged)
        self.assertEqual(Answer.ROUND_FULL, 36)
        full = bytes(shelf)
        for nobody in (0, 3, 257, 2**64 + 1):
            self.refused(Answer.NO_SUCH_NUMBER, shelf.round, nobody)
        self.assertEqual(bytes(shelf), full)
        shelf.round(2)
        self.assertEqual(bytes(shelf), full[:1032] + bytes(4))

    def test_what_is_no_shelf(self):
        self.raised(ValueError, "data: 1036 numbers are needed, not 1035", Shelf, bytes(1035))
        self.raised(TypeError, "publisher: a whole number is needed, not str", Shelf().clear, "1", 0)
        self.raised(TypeError, "publisher: a whole number is needed, not str", Shelf().round, "1")
        self.raised(ValueError, "number: -1 is no byte", Shelf().clear, 1, -1)
        self.raised(TypeError, "key: bytes are needed", Shelf().load, 1, 0, "00")


class Values(Case):
    def test_reprs_read_back(self):
        key = walnut.read_key(plain_key(GF256))
        for value in (Pair.start(), key, walnut.first_half(plain_key(GF32), bytes(32)), GF32, Refusal(14), Shelf()):
            again = eval(repr(value), {"walnut": walnut})
            self.assertEqual(repr(again), repr(value))
        self.assertEqual(eval(repr(key), {"walnut": walnut}), key)
        self.assertNotEqual(key, walnut.read_key(plain_key(GF32)))
        self.assertIsInstance(key, Key)

    def test_values_pickle(self):
        half = walnut.first_half(plain_key(GF256), bytes(64))
        for value in (Pair.start(), walnut.read_key(plain_key(GF32)), half, GF256, Shelf()):
            self.assertEqual(pickle.loads(pickle.dumps(value)), value)

    def test_a_library_that_is_not_there(self):
        folder = os.path.dirname(os.path.dirname(walnut.__file__))
        environment = {**os.environ, "WALNUT_LIB_DIR": os.devnull, "PYTHONPATH": folder}
        run = subprocess.run([sys.executable, "-c", "import walnut"], env=environment, capture_output=True, text=True)
        self.assertNotEqual(run.returncode, 0)
        self.assertIn(f"libwalnut.so.1 was looked for in {os.devnull}, which WALNUT_LIB_DIR names", run.stderr)
        self.assertIn("build it by './library' and name its folder by WALNUT_LIB_DIR", run.stderr)


    def test_equal_values_have_no_hash(self):
        key = plain_key(GF32)
        for value in (Pair.start(), walnut.read_key(key), walnut.first_half(key, bytes(32)), Shelf()):
            self.raised(TypeError, "unhashable", hash, value)


class Package(Case):
    def test_the_library_has_the_version_of_the_module(self):
        parts = [int(part) for part in walnut.__version__.split(".")]
        self.assertEqual(walnut.version(), 10000 * parts[0] + 100 * parts[1] + parts[2])

    def test_all_names_what_the_module_defines(self):
        with open(walnut.__file__, encoding="utf-8") as file:
            body = ast.parse(file.read()).body
        defined = {one.name for one in body if isinstance(one, (ast.FunctionDef, ast.ClassDef))}
        targets = [target for one in body if isinstance(one, ast.Assign) for target in one.targets]
        defined |= {name.id for target in targets for name in ast.walk(target) if isinstance(name, ast.Name)}
        self.assertEqual(walnut.__all__, sorted(walnut.__all__))
        self.assertEqual(set(walnut.__all__), {name for name in defined if not name.startswith("_")})

    def test_it_is_typed(self):
        """Every function has types. Whether they are right is for mypy to say."""
        self.assertTrue(os.path.exists(os.path.join(os.path.dirname(walnut.__file__), "py.typed")))
        with open(walnut.__file__, encoding="utf-8") as file:
            functions = [one for one in ast.walk(ast.parse(file.read())) if isinstance(one, ast.FunctionDef)]
        for function in functions:
            given = function.args
            taken = [*given.posonlyargs, *given.args, *given.kwonlyargs, given.vararg, given.kwarg]
            bare = [one.arg for one in taken if one and one.annotation is None and one.arg not in ("self", "cls")]
            self.assertEqual((function.name, bare), (function.name, []))
            self.assertIsNotNone(function.returns, function.name)


if __name__ == "__main__":
    unittest.main()
