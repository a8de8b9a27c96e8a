/*
 * walnut: braid words, keys, E-multiplication and verdicts for WalnutDSA on eight strands, at strength 128 (the field
 * with 32 elements) and at strength 256 (the field with 256 elements).
 *
 * EXAMPLE. Is a slip good? Key, digest and signature are the bytes of its three files.
 *
 *     uint8_t answer = walnut_verify(key, key_bytes, digest, digest_bytes, signature, signature_bytes);
 *     if (answer == WALNUT_ANSWER_ACCEPTED)
 *         puts("the slip is good");
 *     else
 *         printf("answer %u: %s\n", answer, walnut_text(answer));
 *
 *     gcc program.c $(pkg-config --cflags --libs walnut) -o program
 *     LD_LIBRARY_PATH=$(pkg-config --variable=libdir walnut) ./program
 *
 * For a library in a folder PREFIX, first export PKG_CONFIG_PATH=PREFIX/lib/pkgconfig. The loader needs LD_LIBRARY_PATH
 * if it does not search the library's folder. The man page walnut(3) has other ways to link.
 *
 * ANSWERS. Every function takes any bytes. Each function asks its questions in the order that its comment lists. The
 * answer is the number of the first question that the input fails, or 0. enum walnut_answer names the numbers, and
 * walnut_text says what failed. On an answer other than 0 no memory of the caller changes, a yes or no is no, and all
 * other results are zero. Exception: walnut_shelf_judge charges a slip's letters on 14 too.
 *
 * POINTERS. A pointer with a length may be null if the length is 0, as the data of an empty std::vector is. Every other
 * pointer must not be null. An output must not overlap an input.
 *
 * CALLS. The library is for Linux on x86-64 (System V calling convention). It allocates nothing and keeps nothing
 * between calls, so several threads may call it at the same time. A call needs up to WALNUT_STACK_BYTES of stack.
 *
 * SLIPS. Many words verify for one digest, and a rewritten word has other bytes. So do not identify a slip by the bytes
 * of its signature; use its digest.
 *
 * FILES
 *
 * This is the full text of the file formats. Numbers of several bytes have their high byte first. Bits are packed from
 * the most significant one. Bytes are written in hexadecimal.
 *
 * WORD, also called signature. 2 bytes hold the number of letters, at most 10,000. The letters' codes follow, two to a
 * byte, the earlier one in the high half. If the number of letters is odd, the last half byte is 0. So a word has 2 to
 * 5,002 bytes. The high bit of a code is 1 for an inverse. The other three bits are the generator's number less one:
 *
 *     code    0   1   2   3   4   5   6     8      9      10     11     12     13     14         7 and 15
 *     letter  b1  b2  b3  b4  b5  b6  b7    b1^-1  b2^-1  b3^-1  b4^-1  b5^-1  b6^-1  b7^-1      are not letters
 *
 *     00 07 09 23 C5 E0                     7 letters: b1 b2^-1 b3 b4 b5^-1 b6 b7^-1, and half a byte 0
 *
 * Y WORD. A word in the Y generators y1 to y7 of source 000. Its file has the form of a word's file. A letter y_i has
 * the code of b_i, and the inverse of y_i has the code of the inverse of b_i. Which braid it stands for depends on
 * parts of 7, which are not in the file.
 *
 * STORED FORM of a word, with signs and generators apart. Three numbers of 2 bytes hold the number of letters, at most
 * 10,000, the bytes of signs and the bytes of generators. The signs follow, one bit a letter, 1 for an inverse. Then
 * come the generators' numbers less one, three bits a letter. Zero bits fill the last byte of the signs and the last
 * byte of the generators. So a stored form has 6 to 5,006 bytes.
 *
 *     00 07  00 01  00 03  4A  05 39 70     the 7 letters above: 1 byte of signs, 0100101 and a zero bit; 3 bytes of
 *                                           generators, 000 001 010 011 100 101 110 and three zero bits
 *
 * MOVE LIST. 2 bytes hold the number of moves, at most 4,096. Then come all places, 2 bytes each, and then all kinds, 1
 * byte each. A move list has 2 bytes and 3 for each move, so 2 to 12,290 bytes. A place counts letters from 0, in the
 * word that the earlier moves left.
 *
 *     kind 1         removes a letter and the inverse right after it
 *     kind 2         swaps two adjacent letters whose generators differ by at least 2
 *     kind 3         turns j k j into k j k; the generators differ by 1, and all three letters have one sign
 *     kind 16 + c    inserts the letter with code c, and then its inverse, before the place: 16 to 22 and 24 to 30
 *
 *     00 02  00 00  00 03  03  01           2 moves, at places 0 and 3, of kinds 3 and 1: the first turns
 *                                           b1 b2 b1 b4 b4^-1 into b2 b1 b2 b4 b4^-1, the second leaves b2 b1 b2
 *
 * KEY. A key has 83 bytes in the field with 32 elements, where an entry has 5 bits. It has 128 bytes in the field with
 * 256 elements, where an entry has 8 bits. Both matrices must have an inverse.
 *
 *     of 83        of 128        hold
 *     0            0             08, the number of strands
 *     1, 2         1, 2          the number of elements of the field: 00 20, or 01 00
 *     3 to 7       3 to 10       eight T-values, an entry each, for the labels 0 to 7; none is 0, the first two are 1
 *     8 to 43      11 to 67      the matrix of Pub(S), 57 entries: rows 1 to 7 whole, then the last entry of row 8. The
 *                                other entries of row 8 are 0. In the 83 bytes three zero bits follow.
 *     44 to 46     68 to 70      the list of Pub(S): eight labels of 3 bits, 0 to 7 each once
 *     47 to 82     71 to 127     the matrix of Pub(S'), packed like the first
 *
 *     T-values 1 1 2 3 4 5 6 7 in 5 bits each are 08 44 32 14 C7; the list 0 to 7 is 05 39 77
 *
 * DIGEST. The hash of what is signed: 32 bytes with an 83-byte key, 64 with a 128-byte key. It is the hash itself, not
 * its hexadecimal text.
 *
 * SHELF. The keys of two publishers, numbered 1 and 2, and the letters charged to each in this round. Each publisher
 * has its own key numbers, 0 to 3. A shelf has 1,036 bytes: eight slots of 129 bytes, first the four of publisher 1, and
 * 2 bytes each for the letters charged to publisher 1 and to publisher 2. A slot has 1 byte for the length of the key
 * file that it holds, 0 if it holds none, then the file, then zeros. All zeros are the empty shelf. Every content is a
 * shelf: a length over 128 counts as 128. If a slot holds a file that is no key, a slip that is judged by it gets the
 * answer of the key's questions.
 *
 *     number 2 of publisher 2 begins at byte 129 * (4 * (2 - 1) + 2) = 774
 *     the letters charged to publisher 2 are bytes 1034 and 1035
 *
 * A shelf is plain bytes, without pointers. Copy it, and keep it in a file or in flash as it is. It belongs to one caller
 * at a time: threads must not call with the same shelf at the same time. Its bytes are no secret. They are no protection
 * either: whoever can write them can change the keys and the charges.
 */
#ifndef WALNUT_H
#define WALNUT_H

#include <stdbool.h>
#include <stddef.h>
#include <stdint.h>

#ifdef __cplusplus
extern "C" {
#endif

/* The version of this header and of its library. The first number is also the number after libwalnut.so. */
#define WALNUT_VERSION_MAJOR 1
#define WALNUT_VERSION_MINOR 1
#define WALNUT_VERSION_PATCH 1

/* The version as one number, as walnut_version gives it: 10203 is 1.2.3. */
#define WALNUT_VERSION (10000 * WALNUT_VERSION_MAJOR + 100 * WALNUT_VERSION_MINOR + WALNUT_VERSION_PATCH)

/* Marks a function whose result must be used. A compiler that knows the mark warns if a caller drops the result. */
#if defined(__GNUC__)
#define WALNUT_MUST_USE __attribute__((warn_unused_result))
#else
#define WALNUT_MUST_USE
#endif

/* The names of the answers. An answer is a uint8_t, so that a number without a name is an answer too. */
enum walnut_answer {
    /* answers.txt: begin; tools/answers writes these lines */
    WALNUT_ANSWER_ACCEPTED = 0,
    WALNUT_ANSWER_KEY_LENGTH = 1,
    WALNUT_ANSWER_STRANDS = 2,
    WALNUT_ANSWER_KEY_FIELD = 3,
    WALNUT_ANSWER_ZERO = 4,
    WALNUT_ANSWER_FIRST_T_VALUES = 5,
    WALNUT_ANSWER_LABELS = 6,
    WALNUT_ANSWER_KEY_FILLER = 7,
    WALNUT_ANSWER_DIGEST_LENGTH = 8,
    WALNUT_ANSWER_WORD_SHORT = 9,
    WALNUT_ANSWER_TOO_MANY_LETTERS = 10,
    WALNUT_ANSWER_WORD_LENGTH = 11,
    WALNUT_ANSWER_NO_LETTER = 12,
    WALNUT_ANSWER_WORD_FILLER = 13,
    WALNUT_ANSWER_MATRICES_DIFFER = 14,
    WALNUT_ANSWER_OUTPUT_SHORT = 15,
    WALNUT_ANSWER_KEY_OUTPUT_SHORT = 16,
    WALNUT_ANSWER_NO_ELEMENT = 17,
    WALNUT_ANSWER_MOVES_SHORT = 18,
    WALNUT_ANSWER_TOO_MANY_MOVES = 19,
    WALNUT_ANSWER_MOVES_LENGTH = 20,
    WALNUT_ANSWER_NO_KIND = 21,
    WALNUT_ANSWER_PAST_THE_END = 22,
    WALNUT_ANSWER_NOT_THE_SHAPE = 23,
    WALNUT_ANSWER_WORD_FULL = 24,
    WALNUT_ANSWER_LIST = 25,
    WALNUT_ANSWER_NO_INVERSE = 26,
    WALNUT_ANSWER_TWO_LABELS = 27,
    WALNUT_ANSWER_STORED_SIZES = 28,
    WALNUT_ANSWER_STORED_BITS = 29,
    WALNUT_ANSWER_NO_SUCH_NUMBER = 30,
    WALNUT_ANSWER_NO_KEY_HELD = 31,
    WALNUT_ANSWER_HANDLES_FULL = 32,
    WALNUT_ANSWER_PARTS = 33,
    WALNUT_ANSWER_NEW_WORD_FULL = 34,
    WALNUT_ANSWER_LENGTH_OR_LIST = 35,
    WALNUT_ANSWER_ROUND_FULL = 36
    /* answers.txt: end */
};

/* What failed. Every answer has a text, also one without a name. */
static inline const char *walnut_text(uint8_t answer)
{
    switch (answer) {
    /* answers.txt: begin; tools/answers writes these lines */
    case 0: return "nothing failed: the input is accepted";
    case 1: return "the key file has neither 83 nor 128 bytes";
    case 2: return "the key is not for eight strands";
    case 3: return "the key names the wrong field: 83 bytes need q = 32, 128 bytes need q = 256";
    case 4: return "a T-value is zero, or the reciprocal of zero was asked for";
    case 5: return "the first two T-values are not both 1";
    case 6: return "the list of labels is not 0 to 7, each once, or a pair's positions do not match its list";
    case 7: return "the key's filler bits are not all zero";
    case 8: return "the digest has the wrong length: an 83-byte key needs 32 bytes, a 128-byte key 64";
    case 9: return "the word has fewer than 2 bytes";
    case 10: return "the word's number of letters is over 10,000";
    case 11: return "the word's length does not match its number of letters";
    case 12: return "a code is not a letter";
    case 13: return "the last half byte of an odd word is not 0";
    case 14: return "the matrices differ: the word is not a signature of this digest under this key";
    case 15: return "the output is too small: a word needs 5,002 bytes, a stored form 5,006";
    case 16: return "the output is too small: a key needs 83 bytes, or 128 in the larger field";
    case 17: return "a T-value, matrix entry or operand is outside the field (0 to 31, or 0 to 255)";
    case 18: return "the move list has fewer than 2 bytes";
    case 19: return "the move list states more than 4,096 moves";
    case 20: return "the move list's length is not 2 + 3 times its number of moves";
    case 21: return "a move's kind is unknown: kinds are 1, 2, 3, 16 to 22 and 24 to 30";
    case 22: return "a move, or a pair to replace, reaches past the end of the word";
    case 23: return "the letters at the move's place do not match this kind of move";
    case 24: return "an insertion would leave more than 10,000 letters";
    case 25: return "the list to cloak for is not 8 bytes, 0 to 7 each once";
    case 26: return "a matrix of the key, or of a half, has no inverse";
    case 27: return "a label is over 7, or both labels are equal";
    case 28: return "the stored form has fewer than 6 bytes, or its sizes disagree with its letters or length";
    case 29: return "a generator of the stored form is 7, or its filler bits are not all zero";
    case 30: return "the publisher is not 1 or 2, or the key number is over 3";
    case 31: return "the publisher holds no key under this number";
    case 32: return "a step that takes a handle out would leave more than 10,000 letters";
    case 33: return "the parts are empty, hold a zero or do not sum to 7";
    case 34: return "the new word would have more than 10,000 letters";
    case 35: return "the length is over 12, or the list is not four labels, 0 to 3 each once";
    case 36: return "the slip has more letters than this round has left for its publisher";
    /* answers.txt: end */
    default: return "an answer that this header does not know";
    }
}

/* The two fields, as values of a parameter or a member `large`. The polynomial of the field with 32 elements is
   x^5 + x^2 + 1; that of the field with 256 elements is x^8 + x^4 + x^3 + x^2 + 1. In the larger field the answers 7
   and 17 never occur, because its keys have no filler and every byte is an element. */
#define WALNUT_GF32 false
#define WALNUT_GF256 true

/* Sizes and limits. The bindings repeat them, with these comments. */
#define WALNUT_KEY_BYTES 83 /* bytes of a key file over the field with 32 elements */
#define WALNUT_LARGE_KEY_BYTES 128 /* bytes of a key file over the field with 256 elements */
#define WALNUT_DIGEST_BYTES 32 /* bytes of the digest that goes with a key of 83 bytes */
#define WALNUT_LARGE_DIGEST_BYTES 64 /* bytes of the digest that goes with a key of 128 bytes */
#define WALNUT_WORD_BYTES 5002 /* bytes of the longest word file; an output for words must have at least as many */
#define WALNUT_STORED_BYTES 5006 /* bytes of the longest stored form; an output for stored forms must have at least as many */
#define WALNUT_MOVES_BYTES 12290 /* bytes of the longest move list */
#define WALNUT_LETTERS 10000 /* the most letters of a word */
#define WALNUT_MOVES 4096 /* the most moves of a list */
#define WALNUT_SPREAD_LENGTH 12 /* the most letters of the words that walnut_words_ending counts */
#define WALNUT_SHELF_BYTES 1036 /* bytes of a key shelf */
#define WALNUT_STACK_BYTES 98304 /* bytes of stack that a call may take */

/* An element of a field. On a refusal it is 0. */
typedef struct { uint8_t answer; uint8_t value; } walnut_element;

/* The number of letters of a word. On a refusal it is 0. */
typedef struct { uint8_t answer; size_t letters; } walnut_word;

/* The number of bytes written to the front of the output. On a refusal it is 0. Bytes after them do not change. */
typedef struct { uint8_t answer; size_t bytes; } walnut_written;

/* The number of bytes written to the front of the output, and whether the word there has a handle. On a refusal they
   are 0 and false. Bytes after them do not change. */
typedef struct { uint8_t answer; size_t bytes; bool left; } walnut_handles;

/* Which of two files is the shorter: 1 for the first, 2 for the second. On a refusal it is 0. */
typedef struct { uint8_t answer; uint8_t which; } walnut_choice;

/* Whether a word cloaks. On a refusal it is false. */
typedef struct { uint8_t answer; bool yes; } walnut_cloak;

/* The signed number of crossings of two strands. On a refusal it is 0. */
typedef struct { uint8_t answer; int32_t crossings; } walnut_crossing;

/* The number of words that end in a list. On a refusal it is 0. */
typedef struct { uint8_t answer; uint32_t words; } walnut_count;

/* The place of an entry in a matrix. Row and column count from 1. Every matrix lies column by column, the first column
   first. */
#define WALNUT_PLACE(row, column) (8 * ((column) - 1) + ((row) - 1))

/* A matrix, with its entries as WALNUT_PLACE says, a list of labels, and the inverse list: positions[a] is the position
   of label a in the list, counted from 1. In a pair of the caller's own, positions[labels[i]] must be i + 1 for each i
   from 0 to 7. */
typedef struct { uint8_t matrix[64]; uint8_t labels[8]; uint8_t positions[8]; } walnut_pair;

/* A key: its field, its T-values, the pair Pub(S), and `second`, the matrix of Pub(S'). On a refusal the field is the
   one with 32 elements, and all numbers are 0. */
typedef struct {
    uint8_t answer;
    bool large;
    uint8_t t_values[8];
    walnut_pair pair;
    uint8_t second[64];
} walnut_key;

/* The first half of a verdict: the field, the T-values, the pair Pub(S), and `target`, the matrix that a signature must
   reach. */
typedef struct {
    bool large;
    uint8_t t_values[8];
    walnut_pair pair;
    uint8_t target[64];
} walnut_half;

/* A half. On a refusal its field is the one with 32 elements, and all its numbers are 0. */
typedef struct { uint8_t answer; walnut_half half; } walnut_halved;

/* The keys of two publishers and their charged letters, as FILES says. All zeros are the empty shelf. */
typedef struct { uint8_t bytes[WALNUT_SHELF_BYTES]; } walnut_shelf;

/* Gives the version of the library that the program runs with: 10,000 for each major version, 100 for each minor one, 1
   for each patch. It may differ from WALNUT_VERSION, which is that of the header that the program was built with. There
   is no answer. Changes nothing. */
WALNUT_MUST_USE uint32_t walnut_version(void);

/* Multiplies two elements of the field that `large` names. Answers: 17, 0. Changes nothing. */
WALNUT_MUST_USE walnut_element walnut_product(bool large, uint8_t a, uint8_t b);

/* Gives the reciprocal of an element, which must not be 0. Answers: 17, 4, 0. Changes nothing. */
WALNUT_MUST_USE walnut_element walnut_reciprocal(bool large, uint8_t a);

/* Gives the starting pair: the identity matrix with the list 0 to 7. There is no answer. Changes nothing. */
WALNUT_MUST_USE walnut_pair walnut_start(void);

/* Multiplies a letter, given by its code, into *pair. Answers: 17, 4, 6, 12, 0. Changes *pair on 0 only. */
WALNUT_MUST_USE uint8_t walnut_multiply(walnut_pair *pair, bool large, const uint8_t t_values[8], uint8_t letter);

/* Reads a key file. Its length tells its field, and q must agree. Answers: 1, 2, 3, 4, 5, 6, 7, 26, 0. Changes
   nothing. */
WALNUT_MUST_USE walnut_key walnut_read_key(const uint8_t *file, size_t len);

/* Copies the 57 entries of a matrix that a key file holds, in the file's order: rows 1 to 7 whole, then the last entry
   of row 8. There is no answer. Changes the 57 entries. */
void walnut_file_entries(const uint8_t matrix[64], uint8_t entries[57]);

/* Writes a key file from T-values, labels and the 57 entries of each matrix, as walnut_file_entries gives them.
   Answers: 16, 17, 4, 5, 6, 26, 0. Changes the first 83 bytes of out, or 128 in the larger field, on 0 only. */
WALNUT_MUST_USE uint8_t walnut_write_key(bool large, const uint8_t t_values[8], const uint8_t labels[8],
                                         const uint8_t first[57], const uint8_t second[57], uint8_t *out, size_t len);

/* Reads a word file and gives its number of letters. Answers: 9, 10, 11, 12, 13, 0. Changes nothing. */
WALNUT_MUST_USE walnut_word walnut_read_word(const uint8_t *file, size_t len);

/* Writes the word file of n codes, one to a byte. Answers: 15, 10, 12, 0. Changes the reported bytes of out, on 0
   only. */
WALNUT_MUST_USE walnut_written walnut_write_word(const uint8_t *codes, size_t n, uint8_t *out, size_t len);

/* Writes the braid of a digest of 32 or 64 bytes as a word file, and cancels nothing. Answers: 15, 8, 0. Changes the
   reported bytes of out, on 0 only. */
WALNUT_MUST_USE walnut_written walnut_encode_digest(const uint8_t *digest, size_t n, uint8_t *out, size_t len);

/* Reduces a word file freely and writes the result. Answers: 15, 9, 10, 11, 12, 13, 0. Changes the reported bytes of
   out, on 0 only. */
WALNUT_MUST_USE walnut_written walnut_free_reduce(const uint8_t *word, size_t n, uint8_t *out, size_t len);

/* Writes the stored form of a word file. The output must have at least 5,006 bytes. Answers: 15, 9, 10, 11, 12, 13, 0.
   Changes the reported bytes of out, on 0 only. */
WALNUT_MUST_USE walnut_written walnut_store(const uint8_t *word, size_t n, uint8_t *out, size_t len);

/* Writes the word file of a stored form. Answers: 15, 28, 10, 28, 29, 0. Changes the reported bytes of out, on 0
   only. */
WALNUT_MUST_USE walnut_written walnut_restore(const uint8_t *stored, size_t n, uint8_t *out, size_t len);

/* Turns a word file from Artin to Y generators, for parts of 7, one part to a byte, and writes the Y word without free
   reduction. Answers: 15, 9, 10, 11, 12, 13, 33, 34, 0. Changes the reported bytes of out, on 0 only. */
WALNUT_MUST_USE walnut_written walnut_to_y(const uint8_t *word, size_t n, const uint8_t *parts, size_t pn,
                                           uint8_t *out, size_t len);

/* Turns a word file from Y to Artin generators, for parts of 7, one part to a byte, and writes the Artin word without
   free reduction. Answers: 15, 9, 10, 11, 12, 13, 33, 34, 0. Changes the reported bytes of out, on 0 only. */
WALNUT_MUST_USE walnut_written walnut_from_y(const uint8_t *word, size_t n, const uint8_t *parts, size_t pn,
                                             uint8_t *out, size_t len);

/* Replaces the two letters at a place of a Y word, for parts 4 and 3, by the first relation of source 000's Appendix A
   that holds them, and writes the new Y word without free reduction. The place counts letters from 0. If no relation
   holds the two letters, it writes the word itself. Answers: 15, 9, 10, 11, 12, 13, 22, 34, 0. Changes the reported
   bytes of out, on 0 only. */
WALNUT_MUST_USE walnut_written walnut_replace_pair(const uint8_t *word, size_t n, size_t place, uint8_t *out,
                                                   size_t len);

/* Makes the moves of a list on a word file, one after another, and writes the word that they leave. Answers: 15, 9, 10,
   11, 12, 13, 18, 19, 20, then move by move 21, 22, 23, 24, or 0. Changes the reported bytes of out, on 0 only. */
WALNUT_MUST_USE walnut_written walnut_rewrite(const uint8_t *word, size_t n, const uint8_t *moves, size_t m,
                                              uint8_t *out, size_t len);

/* Takes handles out of a word file and writes the word that is left. A handle begins with b_i or its inverse, and ends
   with the inverse of that letter. No letter between these ends is b_i, b_(i-1) or an inverse of these two. A step
   takes out the handle that ends earliest: it drops both ends and replaces each b_(i+1) between them, so the word is
   the same braid. Work ends after `limit` steps, or when no handle is left. The new word may be longer than the old
   one. Answers: 15, 9, 10, 11, 12, 13, then 32 if a step would leave over 10,000 letters, or 0. Changes the reported
   bytes of out, on 0 only. */
WALNUT_MUST_USE walnut_handles walnut_handle_reduce(const uint8_t *word, size_t n, uint16_t limit, uint8_t *out,
                                                    size_t len);

/* Says which of two word files has fewer bytes, the first on a tie. Answers: 9, 10, 11, 12, 13 for the first file, then
   the same for the second, or 0. Changes nothing. */
WALNUT_MUST_USE walnut_choice walnut_shorter(const uint8_t *a, size_t an, const uint8_t *b, size_t bn);

/* Writes a word file of the same braid: it carries every pair where the word does, every slip gets the same verdict
   with it, and crossings stay. It is freely reduced and never has more letters than the word. The effort is the number
   of steps of the search for each letter, so the time grows with letters times effort; 5 is usual. Effort 0 only swaps
   and cancels: letter by letter, a letter and its inverse before it go if the generators of all letters between them
   differ from theirs by at least 2, and the other letters keep their order. With an effort over 0 it is left free
   which word of the braid it is. It then has no more letters than effort 0 leaves, and no more than effort 0 leaves of
   what walnut_handle_reduce writes with the limit 65535, if that is not refused. More effort may leave more letters
   than less. The same word and effort always give the same bytes. Answers: 15, 9, 10, 11, 12, 13, 0. Changes the
   reported bytes of out, on 0 only. */
WALNUT_MUST_USE walnut_written walnut_shorten(const uint8_t *word, size_t n, uint16_t effort, uint8_t *out, size_t len);

/* The verdict: is the word a signature of the digest under the key? Answers: 1 to 7, 26, 8 to 14, or 0 for yes. Changes
   nothing. */
WALNUT_MUST_USE uint8_t walnut_verify(const uint8_t *key, size_t kn, const uint8_t *digest, size_t dn,
                                      const uint8_t *word, size_t wn);

/* The verdict in two halves, for several copies of a slip: the digest is encoded once. The first half takes key and
   digest. Answers: 1 to 7, 26, 8, 0. Changes nothing. */
WALNUT_MUST_USE walnut_halved walnut_first_half(const uint8_t *key, size_t kn, const uint8_t *digest, size_t dn);

/* The second half takes what walnut_first_half gave, or a half of the caller's own, and a word. For a half that
   walnut_first_half gave with 0, the answer is that of walnut_verify. Answers: 17, 4, 6, 26 for the half, then 9 to 14,
   or 0 for yes. Changes nothing. */
WALNUT_MUST_USE uint8_t walnut_second_half(walnut_half half, const uint8_t *word, size_t n);

/* Does the word cloak for the list? It does if, multiplied into the identity matrix with that list under the key's
   T-values, it gives the same matrix and list back. Answers: 1 to 7, 26, 25, 9, 10, 11, 12, 13, 0. Changes nothing. */
WALNUT_MUST_USE walnut_cloak walnut_cloaks(const uint8_t *key, size_t kn, const uint8_t *labels, size_t ln,
                                           const uint8_t *word, size_t wn);

/* Counts how often the strands with labels a and b cross in a word, from the list 0 to 7: plus 1 for each generator
   that swaps these two, minus 1 for each inverse letter that does. Answers: 9, 10, 11, 12, 13, 27, 0. Changes
   nothing. */
WALNUT_MUST_USE walnut_crossing walnut_crossings(const uint8_t *word, size_t n, uint8_t a, uint8_t b);

/* Counts the words of a length, 0 to 12, over b1, b2, b3 and their inverses that end in a list, which is four labels, 0
   to 3 each once. The words are not reduced, and begin from the list 0 1 2 3. Answers: 35, 0. Changes nothing. */
WALNUT_MUST_USE walnut_count walnut_words_ending(size_t length, const uint8_t *labels, size_t n);

/* Loads a key file under a publisher's key number, in place of the key there. Answers: 30, 1 to 7, 26, 0. Changes the
   number's slot of *shelf, on 0 only. */
WALNUT_MUST_USE uint8_t walnut_shelf_load(walnut_shelf *shelf, size_t publisher, size_t number, const uint8_t *key,
                                          size_t n);

/* Clears a publisher's key number. A number that holds no key may be cleared too. Answers: 30, 0. Changes the number's
   slot of *shelf, on 0 only. */
WALNUT_MUST_USE uint8_t walnut_shelf_clear(walnut_shelf *shelf, size_t publisher, size_t number);

/* Judges a slip by the key under a publisher's key number, as walnut_verify does with that key's file, and charges its
   letters to the publisher. Answers: 30, 31, then 1 to 7 and 26 only for a slot that walnut_shelf_load did not make, 8
   to 13, 36, 14, or 0 for yes. 36 is no verdict. It means that with this slip the amounts by which the two publishers
   are over 10,000 letters would sum to more than 10,000. Changes the 2 bytes of *shelf with the letters charged to the
   publisher, on 0 and 14 only. */
WALNUT_MUST_USE uint8_t walnut_shelf_judge(walnut_shelf *shelf, size_t publisher, size_t number, const uint8_t *digest,
                                           size_t dn, const uint8_t *word, size_t wn);

/* Starts a new round: no letters are charged to either publisher. Either publisher may start one. Answers: 30, 0.
   Changes the 4 bytes of *shelf with the charged letters, on 0 only. */
WALNUT_MUST_USE uint8_t walnut_shelf_round(walnut_shelf *shelf, size_t publisher);

#ifdef __cplusplus
}
#endif

#endif
