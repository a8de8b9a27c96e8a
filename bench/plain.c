/* The library's operations in plain C, as one would write them by hand. The benchmark compares the library's times with
   theirs. */
#include <stdbool.h>
#include <stddef.h>
#include <stdint.h>
#include <string.h>

#define WORD_BYTES 5002
#define LETTERS 10000
#define STORED_BYTES 5006

typedef struct {
    uint8_t matrix[64], labels[8];
} pair;

/* A field: the bits of an entry, the field's polynomial, the bytes of a key and of a digest, and the field's tables. */
typedef struct {
    unsigned bits, polynomial;
    size_t key_bytes, digest_bytes;
    uint8_t *products, *reciprocals;
} field;

typedef struct {
    const field *over;
    uint8_t t_values[8], second[64];
    pair first;
} key;

/* The result of the first half of a verdict, and the input of the second. */
typedef struct {
    const field *over;
    uint8_t t_values[8], target[64];
    pair first;
} half;

static uint8_t small_products[1024], small_reciprocals[32], large_products[65536], large_reciprocals[256];
static const field small = {5, 0x25, 83, 32, small_products, small_reciprocals};
static const field large = {8, 0x11D, 128, 64, large_products, large_reciprocals};

static uint8_t polynomial_product(const field *f, unsigned a, unsigned b)
{
    unsigned product = 0;
    for (; b; b >>= 1, a = a >> (f->bits - 1) ? a << 1 ^ f->polynomial : a << 1)
        if (b & 1)
            product ^= a;
    return (uint8_t)product;
}

static void fill_tables(const field *f)
{
    for (unsigned a = 0; a < 1u << f->bits; a++)
        for (unsigned b = 0; b < 1u << f->bits; b++) {
            uint8_t product = f->products[a << f->bits | b] = polynomial_product(f, a, b);
            if (product == 1)
                f->reciprocals[a] = (uint8_t)b;
        }
}

/* Fills the tables. It must be called before any other function. */
void plain_tables(void)
{
    fill_tables(&small);
    fill_tables(&large);
}

/* For each label: the products of its T-value, and the products of the reciprocal. Both are rows of the table. */
typedef struct {
    const uint8_t *values[8], *inverses[8];
} rows;

static void rows_of(const field *f, const uint8_t *t_values, rows *r)
{
    for (int i = 0; i < 8; i++) {
        r->values[i] = f->products + ((size_t)t_values[i] << f->bits);
        r->inverses[i] = f->products + ((size_t)f->reciprocals[t_values[i]] << f->bits);
    }
}

/* Multiplies a letter into the pair. The sign is tested once, not in every row. */
static void letter_on(pair *p, const rows *r, unsigned code)
{
    unsigned g = code & 7;
    uint8_t *own = p->matrix + g, *end = own + 64, label = p->labels[g], next = p->labels[g + 1];
    if (code & 8) {
        const uint8_t *times = r->inverses[next];
        for (; own < end; own += 8) {
            uint8_t entry = own[0], product = times[entry];
            if (g > 0)
                own[-1] ^= entry;
            own[0] = product;
            own[1] ^= product;
        }
    } else {
        const uint8_t *times = r->values[label];
        for (; own < end; own += 8) {
            uint8_t entry = own[0], product = times[entry];
            if (g > 0)
                own[-1] ^= product;
            own[0] = product;
            own[1] ^= entry;
        }
    }
    p->labels[g] = next;
    p->labels[g + 1] = label;
}

static unsigned code_at(const uint8_t *packed, size_t k)
{
    return k % 2 ? packed[k / 2] & 15 : packed[k / 2] >> 4;
}

static void word_on(pair *p, const field *f, const uint8_t *t_values, const uint8_t *packed, size_t n)
{
    rows r;
    rows_of(f, t_values, &r);
    for (size_t k = 0; k < n; k++)
        letter_on(p, &r, code_at(packed, k));
}

/* A column of the matrix times t. The column is one number, with the entry of the first row in the lowest byte. The
   product is the exclusive or, over the bits i of an entry, of bit i of every byte times t x^i. constants[i] is
   t x^i. */
static inline uint64_t times_column(const uint64_t *constants, uint64_t column, unsigned bits)
{
    const uint64_t ones = 0x0101010101010101;
    uint64_t product = (column & ones) * constants[0] ^ (column >> 1 & ones) * constants[1]
        ^ (column >> 2 & ones) * constants[2] ^ (column >> 3 & ones) * constants[3]
        ^ (column >> 4 & ones) * constants[4];
    if (bits == 8)
        product ^= (column >> 5 & ones) * constants[5] ^ (column >> 6 & ones) * constants[6]
            ^ (column >> 7 & ones) * constants[7];
    return product;
}

static void fill_constants(const field *f, uint64_t *constants, uint8_t t)
{
    for (unsigned i = 0; i < f->bits; i++)
        constants[i] = f->products[(size_t)t << f->bits | 1u << i];
}

/* Multiplies letters into columns. There is a spare column in front, so that no branch depends on a letter. */
static inline void letters_on_columns(uint64_t *columns, uint8_t *labels, uint64_t (*constants)[8], const uint8_t *packed, size_t n, unsigned bits)
{
    for (size_t k = 0; k < n; k++) {
        unsigned code = code_at(packed, k), g = code & 7, inverse = code >> 3;
        uint8_t label = labels[g], next = labels[g + 1];
        uint64_t column = columns[g + 1], product = times_column(constants[inverse ? 8 + next : label], column, bits);
        columns[g] ^= inverse ? column : product;
        columns[g + 1] = product;
        columns[g + 2] ^= inverse ? product : column;
        labels[g] = next;
        labels[g + 1] = label;
    }
}

static void word_on_columns(pair *p, const field *f, const uint8_t *t_values, const uint8_t *packed, size_t n)
{
    uint64_t columns[9] = {0}, constants[16][8];
    for (int a = 0; a < 8; a++) {
        fill_constants(f, constants[a], t_values[a]);
        fill_constants(f, constants[8 + a], f->reciprocals[t_values[a]]);
        for (int r = 8; r-- > 0;)
            columns[a + 1] = columns[a + 1] << 8 | p->matrix[8 * r + a];
    }
    if (f->bits == 5)
        letters_on_columns(columns, p->labels, constants, packed, n, 5);
    else
        letters_on_columns(columns, p->labels, constants, packed, n, 8);
    for (int c = 0; c < 8; c++)
        for (int r = 0; r < 8; r++)
            p->matrix[8 * r + c] = (uint8_t)(columns[c + 1] >> 8 * r);
}

static bool is_order(const uint8_t *labels)
{
    unsigned seen = 0;
    for (int i = 0; i < 8; i++)
        if (labels[i] < 8)
            seen |= 1u << labels[i];
    return seen == 255;
}

/* Unpacks groups of eight numbers, with `bits` bits for each number. */
static void unpack(const uint8_t *bytes, unsigned bits, size_t groups, uint8_t *out)
{
    for (; groups--; bytes += bits, out += 8) {
        uint64_t value = 0;
        for (unsigned i = 0; i < bits; i++)
            value = value << 8 | bytes[i];
        for (unsigned i = 0; i < 8; i++)
            out[i] = value >> (7 - i) * bits & ((1u << bits) - 1);
    }
}

static void unpack_matrix(const uint8_t *bytes, unsigned bits, uint8_t *matrix)
{
    unpack(bytes, bits, 7, matrix);
    memset(matrix + 56, 0, 7);
    matrix[63] = bytes[7 * bits] >> (8 - bits);
}

/* Does the matrix have an inverse? Uses elimination, column by column. */
static bool is_invertible(const field *f, const uint8_t *matrix)
{
    uint8_t rows[64];
    memcpy(rows, matrix, 64);
    for (unsigned c = 0; c < 8; c++) {
        uint8_t *own = rows + 8 * c, *pivot = own, held[8];
        while (pivot < rows + 64 && pivot[c] == 0)
            pivot += 8;
        if (pivot == rows + 64)
            return false;
        memcpy(held, pivot, 8);
        memcpy(pivot, own, 8);
        memcpy(own, held, 8);
        const uint8_t *scale = f->products + ((size_t)f->reciprocals[held[c]] << f->bits);
        for (uint8_t *row = own + 8; row < rows + 64; row += 8) {
            const uint8_t *factor = f->products + ((size_t)scale[row[c]] << f->bits);
            for (unsigned i = c + 1; i < 8; i++)
                row[i] ^= factor[held[i]];
        }
    }
    return true;
}

static uint8_t read_key(const uint8_t *file, size_t n, key *k)
{
    const field *f = k->over = n == large.key_bytes ? &large : &small;
    if (n != f->key_bytes)
        return 1;
    if (file[0] != 8)
        return 2;
    if ((file[1] << 8 | file[2]) != 1 << f->bits)
        return 3;
    const uint8_t *first = file + 3 + f->bits, *labels = first + 7 * f->bits + 1, *second = labels + 3;
    unpack(file + 3, f->bits, 1, k->t_values);
    if (memchr(k->t_values, 0, 8))
        return 4;
    if (k->t_values[0] != 1 || k->t_values[1] != 1)
        return 5;
    unpack(labels, 3, 1, k->first.labels);
    if (!is_order(k->first.labels))
        return 6;
    if ((labels[-1] | file[n - 1]) & ((1u << (8 - f->bits)) - 1))
        return 7;
    unpack_matrix(first, f->bits, k->first.matrix);
    unpack_matrix(second, f->bits, k->second);
    return is_invertible(f, k->first.matrix) && is_invertible(f, k->second) ? 0 : 26;
}

static uint8_t read_word(const uint8_t *file, size_t n, size_t *letters)
{
    if (n < 2)
        return 9;
    size_t number = (size_t)file[0] << 8 | file[1];
    if (number > LETTERS)
        return 10;
    if (n != 2 + (number + 1) / 2)
        return 11;
    for (size_t k = 0; k < number; k++)
        if ((code_at(file + 2, k) & 7) == 7)
            return 12;
    if (number % 2 && file[n - 1] & 15)
        return 13;
    *letters = number;
    return 0;
}

static void start(pair *p)
{
    memset(p, 0, sizeof *p);
    for (uint8_t i = 0; i < 8; i++) {
        p->matrix[9 * i] = 1;
        p->labels[i] = i;
    }
}

static size_t half_byte_braid(unsigned half, uint8_t *codes)
{
    static const unsigned selected[4] = {6, 4, 2, 0};
    unsigned l = selected[half & 3], power = 2 * ((half >> 2) + 1);
    uint8_t *at = codes;
    for (unsigned g = 6; g > l; g--)
        *at++ = (uint8_t)g;
    while (power--)
        *at++ = (uint8_t)l;
    for (unsigned g = l + 1; g < 7; g++)
        *at++ = (uint8_t)(g + 8);
    return (size_t)(at - codes);
}

static void digest_matrix(const field *f, const uint8_t *t_values, const uint8_t *digest, pair *p)
{
    uint8_t codes[2560];
    rows r;
    size_t n = 0;
    for (size_t k = 0; k < 2 * f->digest_bytes; k++)
        n += half_byte_braid(code_at(digest, k), codes + n);
    rows_of(f, t_values, &r);
    start(p);
    for (size_t k = 0; k < n; k++)
        letter_on(p, &r, codes[k]);
}

static void matrix_product(const field *f, const uint8_t *a, const uint8_t *b, uint8_t *out)
{
    for (int r = 0; r < 8; r++)
        for (int c = 0; c < 8; c++) {
            uint8_t sum = 0;
            for (int k = 0; k < 8; k++)
                sum ^= f->products[(size_t)a[8 * r + k] << f->bits | b[8 * k + c]];
            out[8 * r + c] = sum;
        }
}

/* Reads a key into `held`, and returns the answer. */
uint8_t plain_read_key(const uint8_t *file, size_t n)
{
    static key held;
    return read_key(file, n, &held);
}

/* Charges letters to a publisher, in the last four bytes of a shelf, or gives 36. */
static uint8_t charge(uint8_t charges[4], size_t publisher, size_t letters)
{
    uint8_t *own = charges + 2 * (publisher - 1), *other = charges + 2 * (2 - publisher);
    size_t after = (size_t)own[0] << 8 | own[1], others = (size_t)other[0] << 8 | other[1];
    after += letters;
    if ((after > 10000 ? after - 10000 : 0) + (others > 10000 ? others - 10000 : 0) > 10000)
        return 36;
    own[0] = (uint8_t)(after >> 8);
    own[1] = (uint8_t)after;
    return 0;
}

/* The verdict on a slip. If there are charges, the word's letters are charged after all questions before 14. */
static uint8_t verdict(const uint8_t *file, size_t kn, const uint8_t *digest, size_t dn, const uint8_t *word, size_t wn,
                       uint8_t *charges, size_t publisher)
{
    key k;
    pair reached;
    size_t letters;
    uint8_t wanted[64], answer = read_key(file, kn, &k);
    if (answer)
        return answer;
    if (dn != k.over->digest_bytes)
        return 8;
    if ((answer = read_word(word, wn, &letters)))
        return answer;
    if (charges != NULL && (answer = charge(charges, publisher, letters)))
        return answer;
    word_on(&k.first, k.over, k.t_values, word + 2, letters);
    digest_matrix(k.over, k.t_values, digest, &reached);
    matrix_product(k.over, reached.matrix, k.second, wanted);
    return memcmp(k.first.matrix, wanted, 64) ? 14 : 0;
}

uint8_t plain_verify(const uint8_t *file, size_t kn, const uint8_t *digest, size_t dn, const uint8_t *word, size_t wn)
{
    return verdict(file, kn, digest, dn, word, wn, NULL, 0);
}

static half held_half;

/* Writes the half into `held_half`, and returns the answer. */
uint8_t plain_first_half(const uint8_t *file, size_t kn, const uint8_t *digest, size_t dn)
{
    key k;
    pair reached;
    half *h = &held_half;
    uint8_t answer = read_key(file, kn, &k);
    if (answer)
        return answer;
    if (dn != k.over->digest_bytes)
        return 8;
    h->over = k.over;
    h->first = k.first;
    memcpy(h->t_values, k.t_values, 8);
    digest_matrix(k.over, k.t_values, digest, &reached);
    matrix_product(k.over, reached.matrix, k.second, h->target);
    return 0;
}

static bool are_elements(const field *f, const uint8_t *numbers, size_t n)
{
    for (size_t i = 0; i < n; i++)
        if (numbers[i] >> f->bits)
            return false;
    return true;
}

/* The answer to the questions about a half, which are asked as if a caller had made it. A half has no positions here,
   so question 6 is asked only of the labels. */
static uint8_t half_answer(const half *h)
{
    if (!are_elements(h->over, h->t_values, 8) || !are_elements(h->over, h->first.matrix, 64) || !are_elements(h->over, h->target, 64))
        return 17;
    if (memchr(h->t_values, 0, 8))
        return 4;
    if (!is_order(h->first.labels))
        return 6;
    return is_invertible(h->over, h->first.matrix) && is_invertible(h->over, h->target) ? 0 : 26;
}

/* The answer to a word under `held_half`. */
uint8_t plain_second_half(const uint8_t *word, size_t wn)
{
    half h = held_half;
    size_t letters;
    uint8_t answer = half_answer(&h);
    if (answer)
        return answer;
    if ((answer = read_word(word, wn, &letters)))
        return answer;
    word_on(&h.first, h.over, h.t_values, word + 2, letters);
    return memcmp(h.first.matrix, h.target, 64) ? 14 : 0;
}

/* 256 + the answer on a refusal, otherwise 1 for yes and 0 for no. The letters change rows of bytes, or columns of 64
   bits. */
unsigned plain_cloaks(const uint8_t *file, size_t kn, const uint8_t *labels, size_t ln, const uint8_t *word, size_t wn, bool by_columns)
{
    key k;
    pair before, after;
    size_t letters;
    uint8_t answer = read_key(file, kn, &k);
    if (answer)
        return 256u + answer;
    if (ln != 8 || !is_order(labels))
        return 256u + 25;
    if ((answer = read_word(word, wn, &letters)))
        return 256u + answer;
    start(&before);
    memcpy(before.labels, labels, 8);
    after = before;
    (by_columns ? word_on_columns : word_on)(&after, k.over, k.t_values, word + 2, letters);
    return memcmp(&before, &after, sizeof before) == 0;
}

/* Multiplies a letter into a lent pair, with the multiplier's questions over the smaller field. The pair is its matrix,
   row by row, then its labels and their positions. */
uint8_t plain_multiply(uint8_t *lent, const uint8_t *t_values, uint8_t letter)
{
    pair *p = (pair *)lent;
    uint8_t *positions = lent + 72;
    rows r;
    for (int i = 0; i < 8; i++)
        if (t_values[i] > 31)
            return 17;
    for (int i = 0; i < 64; i++)
        if (p->matrix[i] > 31)
            return 17;
    if (memchr(t_values, 0, 8))
        return 4;
    for (int i = 0; i < 8; i++)
        if (p->labels[i] > 7 || positions[p->labels[i]] != i + 1)
            return 6;
    if (letter > 15 || (letter & 7) == 7)
        return 12;
    rows_of(&small, t_values, &r);
    letter_on(p, &r, letter);
    positions[p->labels[letter & 7]] = (letter & 7) + 1;
    positions[p->labels[(letter & 7) + 1]] = (letter & 7) + 2;
    return 0;
}

/* Makes one move on n codes. Returns the answer, and sets n to the new number of letters. */
static uint8_t move_on(uint8_t *codes, size_t *n, unsigned kind, size_t place)
{
    uint8_t *at = codes + place;
    if (kind == 1) {
        if (place + 2 > *n)
            return 22;
        if (at[1] != (at[0] ^ 8))
            return 23;
        *n -= 2;
        for (size_t k = place; k < *n; k++)
            codes[k] = codes[k + 2];
    } else if (kind == 2) {
        if (place + 2 > *n)
            return 22;
        int apart = (at[0] & 7) - (at[1] & 7);
        if (-2 < apart && apart < 2)
            return 23;
        uint8_t first = at[0];
        at[0] = at[1];
        at[1] = first;
    } else if (kind == 3) {
        if (place + 3 > *n)
            return 22;
        int apart = (at[0] & 7) - (at[1] & 7);
        if (apart * apart != 1 || (at[0] ^ at[1]) & 8 || at[0] != at[2])
            return 23;
        at[0] = at[1];
        at[1] = at[2];
        at[2] = at[0];
    } else if (16 <= kind && kind <= 30 && kind != 23) {
        if (place > *n)
            return 22;
        if (*n + 2 > LETTERS)
            return 24;
        for (size_t k = *n; k > place; k--)
            codes[k + 1] = codes[k - 1];
        at[0] = (uint8_t)(kind - 16);
        at[1] = at[0] ^ 8;
        *n += 2;
    } else {
        return 21;
    }
    return 0;
}

static uint8_t read_moves(const uint8_t *moves, size_t m, size_t *count)
{
    if (m < 2)
        return 18;
    *count = (size_t)moves[0] << 8 | moves[1];
    if (*count > 4096)
        return 19;
    return m == 2 + 3 * *count ? 0 : 20;
}

/* Writes the word of n codes. `codes` must have room for one more code. Returns the number of bytes written. */
static size_t write_codes(uint8_t *codes, size_t n, uint8_t *out)
{
    out[0] = (uint8_t)(n >> 8);
    out[1] = (uint8_t)n;
    codes[n] = 0;
    for (size_t k = 0; k < n; k += 2)
        out[2 + k / 2] = (uint8_t)(codes[k] << 4 | codes[k + 1]);
    return 2 + (n + 1) / 2;
}

/* Returns the number of bytes written, or 0 on a refusal. */
size_t plain_rewrite(const uint8_t *word, size_t wn, const uint8_t *moves, size_t m, uint8_t *out, size_t len)
{
    uint8_t codes[LETTERS + 2];
    size_t n, count;
    if (len < WORD_BYTES || read_word(word, wn, &n) || read_moves(moves, m, &count))
        return 0;
    for (size_t k = 0; k < n; k++)
        codes[k] = (uint8_t)code_at(word + 2, k);
    const uint8_t *places = moves + 2, *kinds = places + 2 * count;
    for (size_t k = 0; k < count; k++)
        if (move_on(codes, &n, kinds[k], (size_t)places[2 * k] << 8 | places[2 * k + 1]))
            return 0;
    return write_codes(codes, n, out);
}

/* Returns the number of bytes written, or 0 on a refusal. */
size_t plain_reduce(const uint8_t *word, size_t wn, uint8_t *out, size_t len)
{
    uint8_t codes[LETTERS + 1];
    size_t letters, n = 0;
    if (len < WORD_BYTES || read_word(word, wn, &letters))
        return 0;
    for (size_t k = 0; k < letters; k++) {
        uint8_t code = (uint8_t)code_at(word + 2, k);
        if (n > 0 && codes[n - 1] == (code ^ 8))
            n--;
        else
            codes[n++] = code;
    }
    return write_codes(codes, n, out);
}

/* One place more than a word has letters. */
#define ROOM (LETTERS + 1)

/* Writes the codes that replace row[from..to] between a handle's ends, so that they end before place `at`. `first`
   begins the handle. Returns where they begin. */
static size_t conjugate(uint8_t *row, size_t from, size_t to, size_t at, uint8_t first)
{
    uint8_t above = (uint8_t)(first + 1);
    while (to > from) {
        uint8_t d = row[--to];
        if (((d ^ above) & 7) == 0) {
            row[--at] = above;
            row[--at] = (uint8_t)(d - 1);
            row[--at] = above ^ 8;
        } else {
            row[--at] = d;
        }
    }
    return at;
}

/* The number of codes in row[from..to] that become three codes each. */
static size_t growing(const uint8_t *row, size_t from, size_t to, uint8_t first)
{
    size_t many = 0;
    for (; from < to; from++)
        many += ((row[from] ^ (first + 1)) & 7) == 0;
    return many;
}

/* Takes handles out of n codes, in at most `limit` steps. The codes already read stand at the front of `row`, the
   others at its end. `latest` has the last place of each generator, plus 1; 0 is none. `before` has, for each place,
   the last place before it that has the same generator, plus 1. Returns the number of codes, or ROOM if a step would
   leave over 10,000. */
static size_t take_handles(uint8_t *codes, size_t n, unsigned limit, bool *left)
{
    uint8_t row[ROOM];
    uint16_t latest[8] = {0}, before[ROOM];
    size_t l = 0, r = ROOM - n;
    memcpy(row + r, codes, n);
    *left = false;
    while (r < ROOM) {
        uint8_t c = row[r], first = c ^ 8;
        unsigned slot = (c & 7) + 1;
        size_t own = latest[slot];
        if (own <= latest[slot - 1] || row[own - 1] != first) {
            before[l] = latest[slot];
            row[l] = c;
            latest[slot] = (uint16_t)++l;
            r++;
            continue;
        }
        if (limit-- == 0) {
            *left = true;
            break;
        }
        size_t k = l;
        if (l + 2 * growing(row, own, l, first) > r + 1)
            return ROOM;
        while (k >= own) {
            k--;
            latest[(row[k] & 7) + 1] = before[k];
        }
        r = conjugate(row, own, l, r + 1, first);
        l = own - 1;
    }
    memcpy(codes, row, l);
    memcpy(codes + l, row + r, ROOM - r);
    return l + ROOM - r;
}

/* Takes handles out like take_handles. Each step searches from the word's front, and moves the codes after the
   handle. */
static size_t take_handles_again(uint8_t *codes, size_t n, unsigned limit, bool *left)
{
    for (;;) {
        uint16_t latest[8] = {0};
        size_t q = 0, own = 0;
        for (; q < n; q++) {
            unsigned slot = (codes[q] & 7) + 1;
            own = latest[slot];
            if (own > latest[slot - 1] && codes[own - 1] == (codes[q] ^ 8))
                break;
            latest[slot] = (uint16_t)(q + 1);
        }
        *left = q < n;
        if (q == n || limit-- == 0)
            return n;
        uint8_t first = codes[own - 1], middle[3 * LETTERS];
        size_t many = q - own, after = many + 2 * growing(codes, own, q, first);
        if (n + after > LETTERS + many + 2)
            return ROOM;
        memcpy(middle, codes + own, many);
        conjugate(middle, 0, many, after, first);
        memmove(codes + own - 1 + after, codes + q + 1, n - q - 1);
        memcpy(codes + own - 1, middle, after);
        n = n + after - many - 2;
    }
}

/* Returns the bytes written. *number is twice the answer, plus 1 if a handle is left. `again` chooses
   take_handles_again. */
size_t plain_handles(const uint8_t *word, size_t wn, uint16_t limit, bool again, uint8_t *out, size_t len,
                     uint32_t *number)
{
    uint8_t codes[LETTERS + 1];
    size_t n;
    bool left;
    *number = len < WORD_BYTES ? 30 : 2u * read_word(word, wn, &n);
    if (*number)
        return 0;
    for (size_t k = 0; k < n; k++)
        codes[k] = (uint8_t)code_at(word + 2, k);
    n = (again ? take_handles_again : take_handles)(codes, n, limit, &left);
    *number = n == ROOM ? 64 : left;
    return n == ROOM ? 0 : write_codes(codes, n, out);
}

/* How often the labels a and b cross, or 0 on a refusal. One walk counts the crossings of all pairs of labels. */
int32_t plain_crossings(const uint8_t *word, size_t wn, uint8_t a, uint8_t b)
{
    int32_t numbers[8][8] = {{0}};
    uint8_t labels[8] = {0, 1, 2, 3, 4, 5, 6, 7};
    size_t n;
    if (read_word(word, wn, &n) || a > 7 || b > 7 || a == b)
        return 0;
    for (size_t k = 0; k < n; k++) {
        unsigned code = code_at(word + 2, k), g = code & 7;
        uint8_t label = labels[g], next = labels[g + 1];
        numbers[label][next] += code & 8 ? -1 : 1;
        labels[g] = next;
        labels[g + 1] = label;
    }
    return numbers[a][b] + numbers[b][a];
}

static void put_two(uint8_t *out, size_t number)
{
    out[0] = (uint8_t)(number >> 8);
    out[1] = (uint8_t)number;
}

/* The signs and the generators of a group of up to eight codes. The codes are in `bytes` bytes. Zeros follow the last
   code. */
static void split_group(const uint8_t *packed, size_t bytes, uint32_t *signs, uint32_t *generators)
{
    uint32_t s = 0, g = 0;
    for (size_t i = 0; i < 4; i++) {
        uint32_t two = i < bytes ? packed[i] : 0;
        s = s << 2 | (two >> 6 & 2) | (two >> 3 & 1);
        g = g << 6 | (two >> 1 & 56) | (two & 7);
    }
    *signs = s;
    *generators = g;
}

/* Writes the stored form of a word, eight letters at a time. Returns the number of bytes written, or 0 on a refusal. */
size_t plain_store(const uint8_t *word, size_t wn, uint8_t *out, size_t len)
{
    size_t n;
    if (len < STORED_BYTES || read_word(word, wn, &n))
        return 0;
    const uint8_t *packed = word + 2;
    size_t s = (n + 7) / 8, g = (3 * n + 7) / 8, whole = n / 8;
    uint8_t *signs = out + 6, *generators = signs + s;
    put_two(out, n);
    put_two(out + 2, s);
    put_two(out + 4, g);
    uint32_t sign, three;
    for (size_t k = 0; k < whole; k++) {
        split_group(packed + 4 * k, 4, &sign, &three);
        signs[k] = (uint8_t)sign;
        generators[3 * k] = (uint8_t)(three >> 16);
        generators[3 * k + 1] = (uint8_t)(three >> 8);
        generators[3 * k + 2] = (uint8_t)three;
    }
    if (n % 8) {
        split_group(packed + 4 * whole, wn - 2 - 4 * whole, &sign, &three);
        signs[whole] = (uint8_t)sign;
        for (size_t i = 0; i < g - 3 * whole; i++)
            generators[3 * whole + i] = (uint8_t)(three >> (16 - 8 * i));
    }
    return 6 + s + g;
}

/* Writes the word of a stored form, eight letters at a time. Returns the number of bytes written, or 0 on a refusal. */
size_t plain_restore(const uint8_t *stored, size_t size, uint8_t *out, size_t len)
{
    if (len < WORD_BYTES || size < 6)
        return 0;
    size_t n = (size_t)stored[0] << 8 | stored[1], s = (size_t)stored[2] << 8 | stored[3],
           g = (size_t)stored[4] << 8 | stored[5];
    if (n > LETTERS || s != (n + 7) / 8 || g != (3 * n + 7) / 8 || size != 6 + s + g)
        return 0;
    const uint8_t *signs = stored + 6, *generators = signs + s;
    if (n > 0 && (signs[s - 1] & ((1u << (8 * s - n)) - 1) || generators[g - 1] & ((1u << (8 * g - 3 * n)) - 1)))
        return 0;
    uint8_t codes[LETTERS + 8];
    for (size_t k = 0; k < s; k++) {
        uint32_t three = 0;
        for (size_t i = 3 * k; i < 3 * k + 3; i++)
            three = three << 8 | (i < g ? generators[i] : 0);
        for (size_t i = 0; i < 8; i++) {
            uint8_t generator = three >> (21 - 3 * i) & 7;
            if (generator == 7)
                return 0;
            codes[8 * k + i] = (uint8_t)((signs[k] >> (7 - i) & 1) << 3 | generator);
        }
    }
    return write_codes(codes, n, out);
}

/* A row each for b1, b2 and b3. For each of the 24 lists of four labels, in increasing order, a row has the place of
   the list that the letter makes of it. */
static const uint8_t neighbours[3][24] = {
    {6, 7, 12, 13, 18, 19, 0, 1, 14, 15, 20, 21, 2, 3, 8, 9, 22, 23, 4, 5, 10, 11, 16, 17},
    {2, 4, 0, 5, 1, 3, 8, 10, 6, 11, 7, 9, 14, 16, 12, 17, 13, 15, 20, 22, 18, 23, 19, 21},
    {1, 0, 3, 2, 5, 4, 7, 6, 9, 8, 11, 10, 13, 12, 15, 14, 17, 16, 19, 18, 21, 20, 23, 22},
};

/* How many words of a length end in a list of four labels, or 0 on a refusal. */
uint32_t plain_words_ending(size_t length, const uint8_t *labels, size_t n)
{
    uint32_t counts[24] = {1}, more[24];
    unsigned seen = 0;
    if (length > 12 || n != 4)
        return 0;
    for (size_t k = 0; k < 4; k++)
        seen |= labels[k] < 4 ? 1u << labels[k] : 0;
    if (seen != 15)
        return 0;
    for (size_t i = 0; i < length; i++) {
        for (size_t k = 0; k < 24; k++)
            more[k] = 2 * (counts[neighbours[0][k]] + counts[neighbours[1][k]] + counts[neighbours[2][k]]);
        memcpy(counts, more, sizeof counts);
    }
    return counts[6 * labels[0] + 2 * (labels[1] - (labels[0] < labels[1])) + (labels[3] < labels[2])];
}

/* ---- Shortening by arcs ---- */

#define REACH 256

/* Cancels letters that far swaps bring together. last[g + 1] is the place after the latest kept letter of generator g,
   and before[i] is its value from before letter i was kept. Returns the number of letters. */
static size_t swap_cancel(uint8_t *codes, size_t n)
{
    uint16_t last[9] = {0}, before[LETTERS];
    uint8_t gone[LETTERS] = {0};
    size_t m = 0;
    for (size_t i = 0; i < n; i++) {
        unsigned h = codes[i] & 7;
        uint16_t c = last[h + 1];
        if (c && codes[c - 1] == (codes[i] ^ 8) && last[h] < c && last[h + 2] < c) {
            gone[i] = gone[c - 1] = 1;
            last[h + 1] = before[c - 1];
        } else {
            before[i] = c;
            last[h + 1] = (uint16_t)(i + 1);
        }
    }
    for (size_t i = 0; i < n; i++) {
        codes[m] = codes[i];
        m += !gone[i];
    }
    return m;
}

/* A part of the word along which a strand of sign u crosses with one sign: where the part lies, and where the strand is
   before and after it. */
struct arc {
    size_t from, to;
    unsigned u, start, end;
};

/* The longest arc through the letter at a place, at most REACH letters to each side. */
static struct arc arc_through(const uint8_t *w, size_t n, size_t k, unsigned u)
{
    unsigned x = (w[k] & 7) + ((w[k] >> 3) != u), p = x, y = x;
    size_t b = k, e = k, least = k > REACH ? k - REACH : 0, most = n - k > REACH ? k + REACH : n;
    for (; b > least; b--) {
        unsigned h = w[b - 1] & 7, t = w[b - 1] >> 3;
        if (h == p) {
            if (t == u)
                break;
            p++;
        } else if (h + 1 == p) {
            if (t != u)
                break;
            p--;
        }
    }
    for (; e < most; e++) {
        unsigned h = w[e] & 7, t = w[e] >> 3;
        if (h == y) {
            if (t != u)
                break;
            y++;
        } else if (h + 1 == y) {
            if (t == u)
                break;
            y--;
        }
    }
    struct arc arc = {b, e, u, p, y};
    return arc;
}

/* Chooses how the strand passes one letter of the part. Returns 0 for the strand's own letter, otherwise the gap,
   plus 8 if the strand gives way to the left. */
static unsigned choose(uint8_t c, unsigned *q, uint8_t *costs, unsigned coin)
{
    unsigned h = c & 7;
    if (h == *q) {
        ++*q;
        return 0;
    }
    if (h + 1 == *q) {
        --*q;
        return 0;
    }
    unsigned g = h > *q ? h : h + 1, less = costs[g - 1], more = costs[g + 1];
    unsigned left = less < more || (less == more && coin);
    costs[g] = (uint8_t)(1 + (left ? less : more));
    return g | left << 3;
}

/* Returns the strand's place at a letter. z is its place at the letter before. */
static unsigned give_way(unsigned z, unsigned kept)
{
    return z != (kept & 7) ? z : kept & 8 ? z - 1 : z + 1;
}

/* Fills `plan`: 0 for a letter of the strand itself, otherwise 8 times the strand's new place plus the gap. */
static void plan_arc(const uint8_t *part, const struct arc *arc, unsigned from_end, unsigned coin, uint8_t *plan)
{
    size_t m = arc->to - arc->from;
    unsigned near = from_end ? arc->end : arc->start, far = from_end ? arc->start : arc->end, q = far, z = near;
    uint8_t costs[8];
    for (unsigned i = 0; i < 8; i++)
        costs[i] = (uint8_t)(i > far ? i - far : far - i);
    if (from_end) {
        for (size_t i = 0; i < m; i++)
            plan[i] = (uint8_t)choose(part[i], &q, costs, coin);
        for (size_t i = m; i-- > 0;)
            if (plan[i]) {
                z = give_way(z, plan[i]);
                plan[i] = (uint8_t)(8 * z | (plan[i] & 7));
            }
    } else {
        for (size_t i = m; i-- > 0;)
            plan[i] = (uint8_t)choose(part[i], &q, costs, coin);
        for (size_t i = 0; i < m; i++)
            if (plan[i]) {
                z = give_way(z, plan[i]);
                plan[i] = (uint8_t)(8 * z | (plan[i] & 7));
            }
    }
}

/* Lays the strand anew. Returns the new part's length, or more than m if it exceeds m. */
static size_t lay_arc(const uint8_t *part, const struct arc *arc, const uint8_t *plan, uint8_t *laid)
{
    size_t m = arc->to - arc->from, k = 0;
    unsigned z = arc->start, u = arc->u;
    for (size_t i = 0; i <= m; i++) {
        unsigned to = i < m ? plan[i] >> 3 : arc->end;
        if (i < m && !plan[i])
            continue;
        for (; z < to && k < m; z++)
            laid[k++] = (uint8_t)(z | u << 3);
        for (; z > to && k < m; z--)
            laid[k++] = (uint8_t)((z - 1) | (u ^ 1) << 3);
        if (z != to || (i < m && k == m))
            return m + 1;
        if (i < m)
            laid[k++] = (uint8_t)((z < (plan[i] & 7u) ? plan[i] & 7 : (plan[i] & 7) - 1) | (part[i] & 8));
    }
    return k;
}

/* Makes `effort` steps for each letter. Returns the number of letters that are left. */
static size_t shorten_by_arcs(uint8_t *w, size_t n, unsigned effort)
{
    uint8_t plan[2 * REACH], laid[2 * REACH];
    uint64_t s = 1;
    for (size_t steps = effort * n; steps > 0 && n > 0; steps--) {
        s = s * 48271 % 2147483647;
        size_t k = s % n, v = s / n;
        struct arc arc = arc_through(w, n, k, v & 1);
        plan_arc(w + arc.from, &arc, v >> 1 & 1, v >> 2 & 1, plan);
        size_t m = arc.to - arc.from, l = lay_arc(w + arc.from, &arc, plan, laid);
        if (l > m)
            continue;
        memcpy(w + arc.from, laid, l);
        if (l < m) {
            memmove(w + arc.from + l, w + arc.to, n - arc.to);
            n -= m - l;
        }
    }
    return n;
}

/* The shorter of two words: arcs on the word, and arcs on the word without handles unless that is refused. Letters swap
   and cancel before and after. Returns the bytes written, 0 on a refusal. */
size_t plain_shorten(const uint8_t *word, size_t wn, uint16_t effort, uint8_t *out, size_t len)
{
    uint8_t first[LETTERS + 2], second[LETTERS + 2];
    size_t n, m = ROOM;
    bool left;
    if (len < WORD_BYTES || read_word(word, wn, &n))
        return 0;
    for (size_t k = 0; k < n; k++)
        first[k] = second[k] = (uint8_t)code_at(word + 2, k);
    if (effort)
        m = take_handles(second, n, 65535, &left);
    n = swap_cancel(first, n);
    n = swap_cancel(first, shorten_by_arcs(first, n, effort));
    if (m != ROOM) {
        m = swap_cancel(second, m);
        m = swap_cancel(second, shorten_by_arcs(second, m, effort));
    }
    return m < n ? write_codes(second, m, out) : write_codes(first, n, out);
}

/* The length of a run of letters and the letters, for each of the sixteen codes. */
typedef struct {
    uint8_t letters[16][7], numbers[16];
} runs;

/* The runs of the codes in the other dialect, for parts of 7; false if they are no parts of 7. */
static bool make_runs(runs *table, bool to_y, const uint8_t *parts, size_t pn)
{
    size_t sum = 0;
    for (size_t i = 0; i < pn; i++) {
        if (parts[i] == 0 || (sum += parts[i]) > 7)
            return false;
    }
    if (sum != 7)
        return false;
    size_t part = 0, end = parts[0];
    for (uint8_t g = 0; g < 7; g++) {
        if (g == end)
            end += parts[++part];
        uint8_t n = to_y ? (g + 1u < end ? 2 : 1) : (uint8_t)(end - g);
        for (uint8_t i = 0; i < n; i++) {
            uint8_t letter = to_y ? (i ? (uint8_t)(g + 1) | 8 : g) : (uint8_t)(g + i);
            table->letters[g][i] = letter;
            table->letters[g | 8][n - 1 - i] = letter ^ 8;
        }
        table->numbers[g] = table->numbers[g | 8] = n;
    }
    return true;
}

/* A word turned into the other dialect, letter by letter. The bytes written; 0 on a refusal. */
size_t plain_convert(bool to_y, const uint8_t *word, size_t wn, const uint8_t *parts, size_t pn, uint8_t *out, size_t len)
{
    size_t n, at = 0;
    runs table;
    if (len < WORD_BYTES || read_word(word, wn, &n) || !make_runs(&table, to_y, parts, pn))
        return 0;
    uint8_t codes[LETTERS];
    for (size_t k = 0; k < n; k++) {
        uint8_t c = word[2 + k / 2] >> (k % 2 ? 0 : 4) & 15, count = table.numbers[c];
        if (at + count > LETTERS)
            return 0;
        for (uint8_t i = 0; i < count; i++)
            codes[at++] = table.letters[c][i];
    }
    return write_codes(codes, at, out);
}

/* The relations of Appendix A, ten codes to a row: the row's letters, then 15. */
static uint8_t relations[79][10];

void plain_relations(const uint8_t rows[790])
{
    memcpy(relations, rows, sizeof relations);
}

/* The letters that replace a pair, by the first row and place that hold it. Their number; 0 without such a row. */
static size_t replacement(uint8_t c, uint8_t d, uint8_t new[9])
{
    for (size_t r = 0; r < 79; r++) {
        const uint8_t *row = relations[r];
        for (size_t k = 0; row[k + 1] != 15; k++) {
            if (row[k] != c || row[k + 1] != d)
                continue;
            size_t n = 0, end = k + 2;
            for (size_t i = k; i > 0; i--)
                new[n++] = row[i - 1] ^ 8;
            while (row[end] != 15)
                end++;
            for (size_t i = end; i > k + 2; i--)
                new[n++] = row[i - 1] ^ 8;
            return n;
        }
    }
    return 0;
}

/* A Y word with the pair at a place replaced. The bytes written; 0 on a refusal. */
size_t plain_replace_pair(const uint8_t *word, size_t wn, size_t place, uint8_t *out, size_t len)
{
    uint8_t codes[LETTERS + 8], new[9];
    size_t n;
    if (len < WORD_BYTES || read_word(word, wn, &n) || n < 2 || place > n - 2)
        return 0;
    for (size_t k = 0; k < n; k++)
        codes[k] = (uint8_t)code_at(word + 2, k);
    size_t m = replacement(codes[place], codes[place + 1], new);
    if (m == 0)
        return write_codes(codes, n, out);
    if (n - 2 + m > LETTERS)
        return 0;
    memmove(codes + place + m, codes + place + 2, n - place - 2);
    memcpy(codes + place, new, m);
    return write_codes(codes, n - 2 + m, out);
}

/* Key shelves: the slot of a publisher's key number, or null. */
static uint8_t *slot_of(uint8_t *shelf, size_t publisher, size_t number)
{
    if ((publisher != 1 && publisher != 2) || number > 3)
        return NULL;
    return shelf + 129 * (4 * (publisher - 1) + number);
}

uint8_t plain_shelf_load(uint8_t *shelf, size_t publisher, size_t number, const uint8_t *file, size_t n)
{
    uint8_t *slot = slot_of(shelf, publisher, number);
    if (slot == NULL)
        return 30;
    uint8_t answer = plain_read_key(file, n);
    if (answer != 0)
        return answer;
    slot[0] = (uint8_t)n;
    memcpy(slot + 1, file, n);
    memset(slot + 1 + n, 0, 128 - n);
    return 0;
}

uint8_t plain_shelf_judge(uint8_t *shelf, size_t publisher, size_t number, const uint8_t *digest, size_t dn,
                          const uint8_t *word, size_t wn)
{
    uint8_t *slot = slot_of(shelf, publisher, number);
    if (slot == NULL)
        return 30;
    if (slot[0] == 0)
        return 31;
    return verdict(slot + 1, slot[0] < 128 ? slot[0] : 128, digest, dn, word, wn, shelf + 1032, publisher);
}
