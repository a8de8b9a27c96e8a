/* Worked slips: fields, words, pairs, keys, moves, crossings, spreading, cloaking, the verdict, whole and in halves, and
   the key shelf, at both strengths. */
#include <inttypes.h>
#include <stdio.h>
#include <string.h>

#include "walnut.h"

static const uint8_t t_values[8] = {1, 1, 2, 3, 4, 5, 6, 7};
static const uint8_t order[8] = {0, 1, 2, 3, 4, 5, 6, 7};
static uint8_t out[WALNUT_WORD_BYTES];

static void print_hex(const char *text, const uint8_t *bytes, size_t n)
{
    printf("%s", text);
    for (size_t i = 0; i < n; i++)
        printf(" %02X", bytes[i]);
    printf("\n");
}

static void print_decimal(const char *text, const uint8_t *numbers, size_t n)
{
    printf("%s", text);
    for (size_t i = 0; i < n; i++)
        printf(" %u", numbers[i]);
    printf("\n");
}

static void print_row(const char *text, const uint8_t matrix[64], int row)
{
    uint8_t entries[8];
    for (int column = 1; column <= 8; column++)
        entries[column - 1] = matrix[WALNUT_PLACE(row, column)];
    print_decimal(text, entries, 8);
}

/* A word file's letters as text. */
static void print_letters(const char *text, const uint8_t *word, size_t letters)
{
    printf("%s", text);
    for (size_t k = 0; k < letters; k++) {
        int code = k % 2 == 0 ? word[2 + k / 2] >> 4 : word[2 + k / 2] & 15;
        printf(" b%d%s", code % 8 + 1, code >= 8 ? "^-1" : "");
    }
    printf("\n");
}

/* Writes the key file over a field of T-values, the pair Pub(S) and the matrix of Pub(S'). */
static uint8_t write_key(bool large, const uint8_t t[8], const walnut_pair *pair, const uint8_t matrix[64],
                         uint8_t *key, size_t n)
{
    uint8_t first[57], second[57];
    walnut_file_entries(pair->matrix, first);
    walnut_file_entries(matrix, second);
    return walnut_write_key(large, t, pair->labels, first, second, key, n);
}

static void print_cloak(const char *text, const uint8_t *key, const uint8_t *word, size_t n)
{
    walnut_cloak cloak = walnut_cloaks(key, WALNUT_KEY_BYTES, order, 8, word, n);
    printf("%s cloaks: %s\n", text, cloak.yes ? "yes" : "no");
}

/* The field with 256 elements: numbers and keys. */
static int larger_keys(uint8_t key[WALNUT_LARGE_KEY_BYTES])
{
    printf("over 256 elements 128 x 2 = %u\n", walnut_product(WALNUT_GF256, 128, 2).value);
    printf("16 x 2 = %u\n", walnut_product(WALNUT_GF256, 16, 2).value);
    printf("the reciprocal of 3 is %u\n", walnut_reciprocal(WALNUT_GF256, 3).value);
    walnut_pair start = walnut_start(), inverse = start;
    if (walnut_multiply(&inverse, WALNUT_GF256, t_values, 10) != 0)
        return 1;
    print_row("row 3 after b3':", inverse.matrix, 3);

    uint8_t file[WALNUT_LARGE_KEY_BYTES], back[WALNUT_LARGE_KEY_BYTES];
    if (write_key(WALNUT_GF256, t_values, &start, start.matrix, key, WALNUT_LARGE_KEY_BYTES) != 0 ||
        write_key(WALNUT_GF256, t_values, &inverse, start.matrix, file, sizeof file) != 0)
        return 1;
    printf("the plain key: %d bytes, from", WALNUT_LARGE_KEY_BYTES);
    print_hex("", key, 11);
    print_hex("row 3 after b3' packs to", file + 27, 8);
    walnut_key held = walnut_read_key(file, sizeof file);
    print_row("row 3 of Pub(S):", held.pair.matrix, 3);
    if (held.answer != 0 || write_key(held.large, held.t_values, &held.pair, held.second, back, sizeof back) != 0)
        return 1;
    printf("that key, read and written back, is the same: %s\n", memcmp(back, file, sizeof file) == 0 ? "yes" : "no");
    memcpy(back, key, sizeof back);
    back[1] = 0;
    back[2] = 32;
    printf("128 bytes with q = 32: answer %u\n", walnut_read_key(back, sizeof back).answer);
    return 0;
}

/* The field with 256 elements: verdicts. */
static int larger_field(void)
{
    uint8_t key[WALNUT_LARGE_KEY_BYTES];
    if (larger_keys(key) != 0)
        return 1;
    const uint8_t digest[WALNUT_LARGE_DIGEST_BYTES] = {0}, none[2] = {0x00, 0x00};
    uint8_t signature[130] = {0x01, 0x00};
    memset(signature + 2, 0x66, 128);
    printf("plain key, 64 zero bytes, 01 00 and 128 bytes of 66: answer %u\n",
           walnut_verify(key, sizeof key, digest, sizeof digest, signature, sizeof signature));
    walnut_halved made = walnut_first_half(key, sizeof key, digest, sizeof digest);
    if (made.answer != 0)
        return 1;
    printf("the same by halves: answer %u\n", walnut_second_half(made.half, signature, sizeof signature));
    printf("plain key, 64 zero bytes, 00 00: answer %u\n",
           walnut_verify(key, sizeof key, digest, sizeof digest, none, sizeof none));
    printf("plain key, 32 zero bytes: answer %u\n",
           walnut_verify(key, sizeof key, digest, WALNUT_DIGEST_BYTES, signature, sizeof signature));
    return 0;
}

/* Fields and words. */
static void words(void)
{
    printf("16 x 2 = %u\n", walnut_product(WALNUT_GF32, 16, 2).value);
    printf("31 x 31 = %u\n", walnut_product(WALNUT_GF32, 31, 31).value);
    printf("the reciprocal of 3 is %u\n", walnut_reciprocal(WALNUT_GF32, 3).value);

    const uint8_t codes[7] = {0, 9, 2, 3, 12, 5, 14};
    walnut_written written = walnut_write_word(codes, sizeof codes, out, sizeof out);
    print_hex("b1 b2^-1 b3 b4 b5^-1 b6 b7^-1 is", out, written.bytes);
    walnut_word word = walnut_read_word(out, written.bytes);
    printf("its letters: %zu\n", word.letters);
    print_letters("read back:", out, word.letters);
}

/* Pairs and keys: gives the plain key, both of whose matrices are the identity. */
static int keys(uint8_t key[WALNUT_KEY_BYTES])
{
    walnut_pair start = walnut_start(), pair = start, inverse = start, blank = start;
    if (walnut_multiply(&pair, WALNUT_GF32, t_values, 2) != 0 ||
        walnut_multiply(&inverse, WALNUT_GF32, t_values, 10) != 0 ||
        write_key(WALNUT_GF32, t_values, &start, start.matrix, key, WALNUT_KEY_BYTES) != 0)
        return 1;
    print_row("row 3 after b3:", pair.matrix, 3);
    print_decimal("column 4 after b3:", pair.matrix + 24, 8);
    print_hex("plain T-values pack to", key + 3, 5);
    print_hex("the list 0 to 7 packs to", key + 44, 3);

    /* Pub(S) is the starting pair times b3, and Pub(S') has the matrix of b3's inverse */
    uint8_t file[WALNUT_KEY_BYTES], back[WALNUT_KEY_BYTES];
    if (write_key(WALNUT_GF32, t_values, &pair, inverse.matrix, file, sizeof file) != 0)
        return 1;
    print_hex("row 3 after b3 packs to", file + 18, 5);
    walnut_key held = walnut_read_key(file, sizeof file);
    printf("a key with b3 and b3' read back:\n");
    print_decimal("T-values", held.t_values, 8);
    print_row("row 3 of Pub(S):", held.pair.matrix, 3);
    print_decimal("list of Pub(S):", held.pair.labels, 8);
    print_decimal("positions of its labels:", held.pair.positions, 8);
    printf("strand 2 is at position %u\n", held.pair.positions[2]);
    print_row("row 3 of Pub(S'):", held.second, 3);
    if (held.answer != 0 || write_key(held.large, held.t_values, &held.pair, held.second, back, sizeof back) != 0)
        return 1;
    printf("that key, read and written back, is the same: %s\n", memcmp(back, file, sizeof file) == 0 ? "yes" : "no");
    memset(blank.matrix, 0, sizeof blank.matrix);
    printf("a key with both matrices zero: answer %u\n",
           write_key(WALNUT_GF32, t_values, &blank, blank.matrix, back, sizeof back));
    return 0;
}

/* Moves, free reduction, stored forms, the Y dialect and digests. */
static int moves(void)
{
    const uint8_t three[4] = {0x00, 0x03, 0x01, 0x00}, turn[5] = {0, 1, 0, 0, 3};
    walnut_written written = walnut_rewrite(three, sizeof three, turn, sizeof turn, out, sizeof out);
    print_hex("00 03 01 00 with kind 3 at place 0 gives", out, written.bytes);
    /* the number of moves, then all places, then all kinds */
    const uint8_t five[5] = {0x00, 0x05, 0x01, 0x03, 0xB0}, two[8] = {0, 2, 0, 0, 0, 3, 3, 1};
    print_hex("kind 3 at place 0 and then kind 1 at place 3 is", two, sizeof two);
    written = walnut_rewrite(five, sizeof five, two, sizeof two, out, sizeof out);
    print_hex("on 00 05 01 03 B0 it gives", out, written.bytes);

    const uint8_t both[3] = {0x00, 0x02, 0x08};
    written = walnut_free_reduce(both, sizeof both, out, sizeof out);
    print_hex("00 02 08 freely reduced is", out, written.bytes);
    /* b1 b2 b1 b2^-1 b1^-1 is the braid b2 */
    const uint8_t turned[5] = {0x00, 0x05, 0x01, 0x09, 0x80};
    written = walnut_shorten(turned, sizeof turned, 5, out, sizeof out);
    print_hex("00 05 01 09 80 shortened is", out, written.bytes);
    const uint8_t seven[6] = {0x00, 0x07, 0x09, 0x23, 0xC5, 0xE0};
    uint8_t shelf[WALNUT_STORED_BYTES];
    written = walnut_store(seven, sizeof seven, shelf, sizeof shelf);
    print_hex("00 07 09 23 C5 E0 stored is", shelf, written.bytes);
    written = walnut_restore(shelf, written.bytes, out, sizeof out);
    print_hex("restored it is", out, written.bytes);
    const uint8_t parts[2] = {4, 3}, fours[2] = {4, 4}, near[3] = {0x00, 0x02, 0x01}, third[3] = {0x00, 0x01, 0xA0};
    const uint8_t pair[3] = {0x00, 0x02, 0x6B}, none[2] = {0, 0};
    written = walnut_to_y(near, sizeof near, parts, sizeof parts, out, sizeof out);
    print_hex("00 02 01 in Y letters for parts 4 and 3 is", out, written.bytes);
    written = walnut_from_y(third, sizeof third, parts, sizeof parts, out, sizeof out);
    print_hex("00 01 A0 in Artin letters for parts 4 and 3 is", out, written.bytes);
    written = walnut_to_y(none, sizeof none, fours, sizeof fours, out, sizeof out);
    printf("with parts 4 and 4: answer %u\n", written.answer);
    written = walnut_replace_pair(pair, sizeof pair, 0, out, sizeof out);
    print_hex("the pair at place 0 of 00 02 6B becomes", out, written.bytes);
    written = walnut_replace_pair(pair, sizeof pair, 1, out, sizeof out);
    printf("the pair at place 1: answer %u\n", written.answer);
    uint8_t sixes[WALNUT_DIGEST_BYTES];
    memset(sixes, 0x66, sizeof sixes);
    if (walnut_encode_digest(sixes, sizeof sixes, out, sizeof out).bytes != 2 + 64 * 6)
        return 1;
    print_hex("half byte 6 gives", out + 2, 6);
    return 0;
}

/* Handles taken out, and the shorter of two words. */
static void handles(void)
{
    /* b1 b2 b3 b2^-1 b1^-1 */
    const uint8_t word[5] = {0x00, 0x05, 0x01, 0x29, 0x80};
    walnut_handles handles = walnut_handle_reduce(word, sizeof word, 1, out, sizeof out);
    print_hex("b1 b2 b3 b2^-1 b1^-1 in 1 step is", out, handles.bytes);
    printf("a handle is left in it: %s\n", handles.left ? "yes" : "no");
    handles = walnut_handle_reduce(word, sizeof word, 65535, out, sizeof out);
    print_hex("in 65535 steps it is", out, handles.bytes);
    printf("a handle is left in it: %s\n", handles.left ? "yes" : "no");

    /* the step would leave 10,002 letters */
    uint8_t codes[3336];
    memset(codes, 1, sizeof codes);
    codes[0] = 0;
    codes[sizeof codes - 1] = 8;
    uint8_t grows[2 + sizeof codes / 2];
    size_t bytes = walnut_write_word(codes, sizeof codes, out, sizeof out).bytes;
    memcpy(grows, out, bytes);
    printf("b1, 3334 times b2 and b1^-1 in 1 step: answer %u\n",
           walnut_handle_reduce(grows, bytes, 1, out, sizeof out).answer);

    const uint8_t three[4] = {0x00, 0x03, 0x00, 0x80}, one[3] = {0x00, 0x01, 0x00};
    if (walnut_shorter(three, sizeof three, one, sizeof one).which == 2)
        print_hex("the shorter of 00 03 00 80 and 00 01 00 is", one, sizeof one);
}

/* How often strands cross. */
static void crossings(void)
{
    const uint8_t two[3] = {0x00, 0x02, 0x01}, inverses[3] = {0x00, 0x02, 0x88}, none[2] = {0x00, 0x00};
    printf("strands 0 and 2 cross in b1 b2: %d\n", walnut_crossings(two, sizeof two, 0, 2).crossings);
    printf("strands 1 and 0 cross in b1^-1 b1^-1: %d\n",
           walnut_crossings(inverses, sizeof inverses, 1, 0).crossings);
    printf("strands 0 and 8: answer %u\n", walnut_crossings(none, sizeof none, 0, 8).answer);
}

/* How words spread over the lists of four labels. */
static void spreading(void)
{
    const uint8_t unmoved[4] = {0, 1, 2, 3}, moved[4] = {1, 0, 3, 2};
    printf("words of length 2 that end in 0 1 2 3: %" PRIu32 "\n", walnut_words_ending(2, unmoved, 4).words);
    printf("words of length 2 that end in 1 0 3 2: %" PRIu32 "\n", walnut_words_ending(2, moved, 4).words);
    printf("words of length 13: answer %u\n", walnut_words_ending(13, unmoved, 4).answer);
}

/* Cloaking, a refused move and verdicts, under the plain key. */
static void verdicts(const uint8_t key[WALNUT_KEY_BYTES])
{
    const uint8_t ones[3] = {0x00, 0x02, 0x00}, threes[3] = {0x00, 0x02, 0x22};
    print_cloak("b1 b1", key, ones, sizeof ones);
    print_cloak("b3 b3", key, threes, sizeof threes);
    const uint8_t none[2] = {0x00, 0x00}, insert[5] = {0, 1, 0, 1, 16};
    printf("00 00 with kind 16 at place 1: answer %u\n",
           walnut_rewrite(none, sizeof none, insert, sizeof insert, out, sizeof out).answer);

    const uint8_t digest[WALNUT_DIGEST_BYTES] = {0};
    uint8_t signature[66] = {0x00, 0x80};
    memset(signature + 2, 0x66, 64);
    printf("plain key, zero digest, 00 80 and 64 bytes of 66: answer %u\n",
           walnut_verify(key, WALNUT_KEY_BYTES, digest, sizeof digest, signature, sizeof signature));
    printf("plain key, zero digest, 00 00: answer %u\n",
           walnut_verify(key, WALNUT_KEY_BYTES, digest, sizeof digest, none, sizeof none));
}

/* Several copies of a slip: the digest is encoded once, by the first half. */
static int copies(const uint8_t key[WALNUT_KEY_BYTES])
{
    const uint8_t digest[WALNUT_DIGEST_BYTES] = {0}, none[2] = {0x00, 0x00}, insert[5] = {0, 1, 0, 0, 16};
    walnut_halved made = walnut_first_half(key, WALNUT_KEY_BYTES, digest, sizeof digest);
    uint8_t signature[66] = {0x00, 0x80};
    memset(signature + 2, 0x66, 64);
    walnut_written written =
        walnut_rewrite(signature, sizeof signature, insert, sizeof insert, out, sizeof out);
    if (made.answer != 0 || written.answer != 0)
        return 1;
    printf("plain key, zero digest, three copies by halves:\n");
    printf("00 80 and 64 bytes of 66: answer %u\n", walnut_second_half(made.half, signature, sizeof signature));
    printf("the same with kind 16 at place 0: answer %u\n", walnut_second_half(made.half, out, written.bytes));
    printf("00 00: answer %u\n", walnut_second_half(made.half, none, sizeof none));
    memset(made.half.target, 0, sizeof made.half.target);
    printf("a half with a target of zeros: answer %u\n",
           walnut_second_half(made.half, signature, sizeof signature));
    printf("a half of 31 zero bytes: answer %u\n", walnut_first_half(key, WALNUT_KEY_BYTES, digest, 31).answer);
    return 0;
}

/* The key shelf of two publishers. */
static void shelves(const uint8_t key[WALNUT_KEY_BYTES])
{
    const uint8_t digest[WALNUT_DIGEST_BYTES] = {0};
    uint8_t signature[66] = {0x00, 0x80};
    memset(signature + 2, 0x66, 64);
    walnut_shelf shelf = {{0}}, empty = shelf;
    uint8_t long_word[WALNUT_WORD_BYTES] = {0x27, 0x10};
    printf("publisher 1 loads the plain key under 0: answer %u\n",
           walnut_shelf_load(&shelf, 1, 0, key, WALNUT_KEY_BYTES));
    printf("its slip by this key: answer %u\n",
           walnut_shelf_judge(&shelf, 1, 0, digest, sizeof digest, signature, sizeof signature));
    printf("publisher 2 has none under 0: answer %u\n",
           walnut_shelf_judge(&shelf, 2, 0, digest, sizeof digest, signature, sizeof signature));
    printf("there is no number 4: answer %u\n", walnut_shelf_load(&shelf, 1, 4, key, WALNUT_KEY_BYTES));
    print_hex("number 0 begins with", shelf.bytes, 4);
    /* each publisher is sure of 10,000 letters in a round, and a further 10,000 go to whoever comes first */
    print_hex("the letters charged to both are", shelf.bytes + WALNUT_SHELF_BYTES - 4, 4);
    printf("b1, 10000 times: answer %u\n",
           walnut_shelf_judge(&shelf, 1, 0, digest, sizeof digest, long_word, sizeof long_word));
    print_hex("the letters charged to both are", shelf.bytes + WALNUT_SHELF_BYTES - 4, 4);
    printf("the same again: answer %u\n",
           walnut_shelf_judge(&shelf, 1, 0, digest, sizeof digest, long_word, sizeof long_word));
    printf("publisher 2 starts a new round: answer %u\n", walnut_shelf_round(&shelf, 2));
    print_hex("the letters charged to both are", shelf.bytes + WALNUT_SHELF_BYTES - 4, 4);
    printf("publisher 3 starts a new round: answer %u\n", walnut_shelf_round(&shelf, 3));
    printf("publisher 1 clears 0: answer %u\n", walnut_shelf_clear(&shelf, 1, 0));
    printf("the shelf is empty again: %s\n", memcmp(&shelf, &empty, sizeof shelf) == 0 ? "yes" : "no");
}

int main(void)
{
    uint8_t key[WALNUT_KEY_BYTES];
    words();
    if (keys(key) != 0 || moves() != 0)
        return 1;
    handles();
    crossings();
    spreading();
    verdicts(key);
    if (copies(key) != 0)
        return 1;
    shelves(key);
    return larger_field();
}
