// The header's own tests, in C++ of 1998. Prints what fails. The exit status is 1 if anything does.
#include <walnut.h>

#include <cstdio>
#include <cstring>
#include <vector>

typedef std::vector<uint8_t> bytes;

static int failed = 0;

static void is(const char *what, unsigned long found, unsigned long expected)
{
    if (found == expected)
        return;
    std::printf("tests.cc: %s gave %lu, expected %lu\n", what, found, expected);
    failed = 1;
}

/* What a vector gives as its data: null if it is empty. */
static uint8_t *data(bytes &from) { return from.empty() ? 0 : &from[0]; }

/* The library has the version of the header. */
static void versions()
{
    is("walnut_version", walnut_version(), WALNUT_VERSION);
    is("WALNUT_VERSION", WALNUT_VERSION,
       WALNUT_VERSION_MAJOR * 10000UL + WALNUT_VERSION_MINOR * 100UL + WALNUT_VERSION_PATCH);
}

/* The key with eight T-values 1 and the starting pair. */
static bytes key()
{
    const uint8_t ones[8] = {1, 1, 1, 1, 1, 1, 1, 1};
    const walnut_pair start = walnut_start();
    uint8_t entries[57];
    walnut_file_entries(start.matrix, entries);
    bytes file(WALNUT_KEY_BYTES);
    is("walnut_write_key",
       walnut_write_key(WALNUT_GF32, ones, start.labels, entries, entries, data(file), file.size()), 0);
    bytes none;
    is("walnut_write_key to null",
       walnut_write_key(WALNUT_GF32, ones, start.labels, entries, entries, data(none), 0), 16);
    return file;
}

/* Each function on words accepts a null pointer with the length 0 for each file. */
static void words()
{
    bytes none, out(WALNUT_STORED_BYTES), word(2), parts(2);
    parts[0] = 4;
    parts[1] = 3;
    uint8_t *from = data(none), *to = data(out), *file = data(word), *list = data(parts);
    const size_t size = out.size();
    is("walnut_read_word", walnut_read_word(from, 0).answer, 9);
    walnut_written written = walnut_write_word(from, 0, to, size);
    is("walnut_write_word", written.answer, 0);
    is("walnut_write_word's bytes", written.bytes, 2);
    is("walnut_write_word to null", walnut_write_word(from, 0, from, 0).answer, 15);
    is("walnut_encode_digest", walnut_encode_digest(from, 0, to, size).answer, 8);
    is("walnut_encode_digest to null", walnut_encode_digest(from, 0, from, 0).answer, 15);
    is("walnut_free_reduce", walnut_free_reduce(from, 0, to, size).answer, 9);
    is("walnut_free_reduce to null", walnut_free_reduce(file, 2, from, 0).answer, 15);
    is("walnut_store", walnut_store(from, 0, to, size).answer, 9);
    is("walnut_store to null", walnut_store(file, 2, from, 0).answer, 15);
    is("walnut_restore", walnut_restore(from, 0, to, size).answer, 28);
    is("walnut_restore to null", walnut_restore(from, 0, from, 0).answer, 15);
    is("walnut_to_y", walnut_to_y(from, 0, list, 2, to, size).answer, 9);
    is("walnut_to_y, no parts", walnut_to_y(file, 2, from, 0, to, size).answer, 33);
    is("walnut_to_y to null", walnut_to_y(file, 2, list, 2, from, 0).answer, 15);
    is("walnut_from_y", walnut_from_y(from, 0, list, 2, to, size).answer, 9);
    is("walnut_from_y, no parts", walnut_from_y(file, 2, from, 0, to, size).answer, 33);
    is("walnut_from_y to null", walnut_from_y(file, 2, list, 2, from, 0).answer, 15);
    is("walnut_replace_pair", walnut_replace_pair(from, 0, 0, to, size).answer, 9);
    is("walnut_replace_pair to null", walnut_replace_pair(file, 2, 0, from, 0).answer, 15);
    is("walnut_rewrite", walnut_rewrite(from, 0, file, 2, to, size).answer, 9);
    is("walnut_rewrite, no moves", walnut_rewrite(file, 2, from, 0, to, size).answer, 18);
    is("walnut_rewrite to null", walnut_rewrite(file, 2, file, 2, from, 0).answer, 15);
    is("walnut_handle_reduce", walnut_handle_reduce(from, 0, 1, to, size).answer, 9);
    is("walnut_handle_reduce to null", walnut_handle_reduce(file, 2, 1, from, 0).answer, 15);
    is("walnut_shorter", walnut_shorter(from, 0, file, 2).answer, 9);
    is("walnut_shorter, no second", walnut_shorter(file, 2, from, 0).answer, 9);
    is("walnut_shorten", walnut_shorten(from, 0, 5, to, size).answer, 9);
    is("walnut_shorten to null", walnut_shorten(file, 2, 5, from, 0).answer, 15);
    is("walnut_crossings", walnut_crossings(from, 0, 0, 1).answer, 9);
    is("walnut_words_ending", walnut_words_ending(2, from, 0).answer, 35);
}

/* The verdicts and the key shelf. */
static void slips(bytes &key)
{
    bytes none, digest(WALNUT_DIGEST_BYTES), word(2);
    uint8_t *from = data(none), *reader = data(key), *book = data(digest), *file = data(word);
    const uint8_t order[8] = {0, 1, 2, 3, 4, 5, 6, 7};
    const size_t kn = key.size(), dn = digest.size();
    is("walnut_read_key", walnut_read_key(from, 0).answer, 1);
    is("walnut_verify", walnut_verify(from, 0, from, 0, from, 0), 1);
    is("walnut_verify, no digest", walnut_verify(reader, kn, from, 0, file, 2), 8);
    is("walnut_verify, no word", walnut_verify(reader, kn, book, dn, from, 0), 9);
    is("walnut_first_half", walnut_first_half(from, 0, book, dn).answer, 1);
    is("walnut_first_half, no digest", walnut_first_half(reader, kn, from, 0).answer, 8);
    const walnut_halved made = walnut_first_half(reader, kn, book, dn);
    is("walnut_second_half", walnut_second_half(made.half, from, 0), 9);
    is("walnut_cloaks", walnut_cloaks(from, 0, order, 8, file, 2).answer, 1);
    is("walnut_cloaks, no list", walnut_cloaks(reader, kn, from, 0, file, 2).answer, 25);
    is("walnut_cloaks, no word", walnut_cloaks(reader, kn, order, 8, from, 0).answer, 9);
    walnut_shelf shelf;
    std::memset(&shelf, 0, sizeof shelf);
    is("walnut_shelf_load", walnut_shelf_load(&shelf, 1, 0, from, 0), 1);
    is("walnut_shelf_load of the key", walnut_shelf_load(&shelf, 1, 0, reader, kn), 0);
    is("walnut_shelf_judge", walnut_shelf_judge(&shelf, 1, 0, from, 0, file, 2), 8);
    is("walnut_shelf_judge, no word", walnut_shelf_judge(&shelf, 1, 0, book, dn, from, 0), 9);
}

int main()
{
    versions();
    bytes reader = key();
    words();
    slips(reader);
    return failed;
}
