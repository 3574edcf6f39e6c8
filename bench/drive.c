/* Runs a terminal, ours or plain C, over a stream or keys, and prints what is left and how long it took:

   drive PROGRAM stream FILE ROWS COLUMNS CALL BYTES    the first bytes of the file in calls of this many
   drive PROGRAM keys WHAT PAGE ROWS COLUMNS COUNT      WHAT: typed, next, previous, changed, full, none; changed and
                                                        full are the Send key as the host chose what it sends
                                                        PAGE: form (60 fields), densest (every second cell is one)
   drive PROGRAM any ROWS COLUMNS COUNT                 keys drawn at random, on pages with cells of every area, some
                                                        of them required, and the host choosing anew what Send sends;
                                                        not timed: it says how many were given 8, and 9

   What is left, the digest, is the same for every program that follows the papers, to the last bit of the half-read
   sequence. `keys none` does all but press a key: what it costs is taken off by whoever measures keys. */
#include "programs.h"

#include <stdio.h>
#include <stdlib.h>
#include <string.h>
#include <time.h>

static void fail(const char *what)
{
    fprintf(stderr, "drive: %s\n", what);
    exit(2);
}

static size_t number(const char *text)
{
    char *end;
    unsigned long value = strtoul(text, &end, 10);
    if (*text == 0 || *end != 0)
        fail("not a number");
    return value;
}

static double seconds(void)
{
    struct timespec now;
    clock_gettime(CLOCK_MONOTONIC, &now);
    return (double)now.tv_sec + (double)now.tv_nsec / 1e9;
}

/* FNV-1a */
#define NO_DIGEST 0xCBF29CE484222325u

static uint64_t digested(uint64_t digest, const uint8_t *bytes, size_t length)
{
    for (size_t i = 0; i < length; i++)
        digest = (digest ^ bytes[i]) * 0x100000001B3u;
    return digest;
}

/* what is left after the calls, on top of the digest of what they gave */
static void print_left(const struct program *program, size_t rows, size_t columns, const struct told *told,
                       uint64_t digest)
{
    static struct snapshot left;
    const uint8_t *record = left.record;
    program->get(&left);
    digest = digested(digest, record, sizeof left.record);
    digest = digested(digest, left.characters, rows * columns);
    digest = digested(digest, left.marks, 2 * rows * columns);
    printf("digest %016llx cursor %u;%u message %u byte %02X sent %llu stored %llu\n", (unsigned long long)digest,
           (unsigned)panel_two_bytes(record + PANEL_RECORD_ROW),
           (unsigned)panel_two_bytes(record + PANEL_RECORD_COLUMN),
           (unsigned)record[PANEL_RECORD_MESSAGE], (unsigned)record[PANEL_RECORD_BYTE],
           (unsigned long long)told->sent, (unsigned long long)told->stored);
}

/* -- streams */

/* The whole file, whatever part is used: two runs over different parts then differ by the terminal's work alone. */
static uint8_t *contents(const char *name, size_t *length)
{
    FILE *file = fopen(name, "rb");
    if (!file || fseek(file, 0, SEEK_END) != 0)
        fail("no such stream");
    *length = (size_t)ftell(file);
    rewind(file);
    uint8_t *bytes = malloc(*length + 1);
    if (!bytes || fread(bytes, 1, *length, file) != *length)
        fail("cannot read the stream");
    fclose(file);
    return bytes;
}

static void run_stream(const struct program *program, char **words)
{
    size_t rows = number(words[1]), columns = number(words[2]), call = number(words[3]), length = number(words[4]);
    size_t have;
    uint8_t *bytes = contents(words[0], &have);
    struct told told = {0, 0, 0, 0};
    if (length > have)
        fail("the stream is shorter");
    program->start(rows, columns, &told);
    if (told.number != PANEL_DONE)
        fail("no such size");
    told.stored = 0;
    double before = seconds();
    program->host(bytes, length, call, &told);
    double after = seconds();
    print_left(program, rows, columns, &told, NO_DIGEST);
    printf("MB/s %.3f\n", (double)length / 1e6 / (after - before));
    free(bytes);
}

/* -- keys */

static size_t key_named(const char *name)
{
    static const struct {
        const char *name;
        size_t key;
    } keys[] = {{"none", 0}, {"typed", 'A'}, {"next", PANEL_KEY_NEXT_FIELD}, {"previous", PANEL_KEY_PREVIOUS_FIELD},
                {"changed", PANEL_KEY_SEND}, {"full", PANEL_KEY_SEND}};
    for (size_t i = 0; i < sizeof keys / sizeof *keys; i++)
        if (strcmp(keys[i].name, name) == 0)
            return keys[i].key;
    fail("no such key");
    return 0;
}

/* The host says what the Send key sends; a byte a call, so that every half-read part of it is kept and read back. */
static void choose_sent(const struct program *program, int full, struct told *told)
{
    program->host((const uint8_t *)(full ? "\033[>6l" : "\033[>6h"), 5, 1, told);
}

/* 60 fields of 10 cells, evenly over the page; or 1;1 and every even column, which makes the longest block. Every
   unprotected cell is modified. */
static void make_page(struct snapshot *page, const char *kind, size_t cells)
{
    size_t apart = cells / 60;
    int densest = strcmp(kind, "densest") == 0;
    if (!densest && strcmp(kind, "form") != 0)
        fail("no such page");
    for (size_t cell = 0; cell < cells; cell++) {
        int open = densest ? cell == 0 || cell % 2 == 1 : cell % apart >= 5 && cell % apart < 15;
        page->characters[cell] = (uint8_t)('a' + cell % 26);
        put_two_bytes(page->marks + 2 * cell, open ? PANEL_MARK_MODIFIED : PANEL_MARK_PROTECTED);
    }
}

/* The page as it was made is put back for each block: the first one sent takes the modified marks off. */
static double press(const struct program *program, const struct snapshot *page, size_t key, size_t count,
                    struct told *told)
{
    int again = key == PANEL_KEY_SEND || key == 0;
    double before = seconds();
    for (size_t i = 0; i < count; i++) {
        if (again)
            program->put(page);
        if (key != 0)
            program->key(key, told);
    }
    return seconds() - before;
}

static void run_keys(const struct program *program, char **words)
{
    static struct snapshot page;
    size_t key = key_named(words[0]), rows = number(words[2]), columns = number(words[3]), count = number(words[4]);
    struct told told = {0, 0, 0, 0};
    program->start(rows, columns, &told);
    if (told.number != PANEL_DONE)
        fail("no such size");
    told.stored = 0;
    choose_sent(program, strcmp(words[0], "full") == 0, &told);
    program->get(&page);
    make_page(&page, words[1], rows * columns);
    program->put(&page);
    if (strcmp(words[1], "form") == 0)
        program->key(PANEL_KEY_NEXT_FIELD, &told);
    double took = press(program, &page, key, count, &told);
    if (told.number != PANEL_DONE)
        fail("the key was refused");
    /* every block was the same */
    print_left(program, rows, columns, &told, digested(NO_DIGEST, output, (size_t)(told.sent / count)));
    printf("us %.4f\n", took * 1e6 / (double)count);
}

/* -- any keys, where some characters are not taken, and some blocks are held back */

/* by the high bits, as the low ones soon repeat */
static unsigned below(unsigned limit)
{
    static uint32_t seed = 1;
    seed = seed * 1664525u + 1013904223u;
    return (seed >> 16) % limit;
}

/* Areas of one to four cells, three of four unprotected, so that a field has cells of several areas; and characters
   that one area takes, or another, or none. Few areas are required, as one blank field holds every block back. */
static void make_areas(struct snapshot *page, size_t cells)
{
    static const uint16_t areas[] = {0, PANEL_MARK_PROTECTED, PANEL_MARK_NUMERIC, PANEL_MARK_ALPHABETIC};
    static const char characters[] = "          ---...0579AZaz/";
    for (size_t cell = 0, left = 0, area = 0; cell < cells; cell++, left--) {
        if (left == 0) {
            left = 1 + below(4);
            area = areas[below(4)];
            if (area != PANEL_MARK_PROTECTED && below((unsigned)cells / 120) == 0)
                area |= PANEL_MARK_REQUIRED;
        }
        page->characters[cell] = (uint8_t)characters[below(sizeof characters - 1)];
        put_two_bytes(page->marks + 2 * cell, area);
    }
}

/* One field alone is required, the cursor's, on a blank page: whether a block is sent changes from key to key. */
static void require_here_alone(struct snapshot *page, size_t cells)
{
    size_t row = panel_two_bytes(page->record + PANEL_RECORD_ROW) - 1u;
    size_t columns = panel_two_bytes(page->record + PANEL_RECORD_COLUMNS);
    size_t here = row * columns + panel_two_bytes(page->record + PANEL_RECORD_COLUMN) - 1;
    memset(page->characters, ' ', cells);
    for (size_t cell = 0; cell < cells; cell++)
        page->marks[2 * cell + 1] &= (uint8_t)~(PANEL_MARK_REQUIRED >> 8);
    put_two_bytes(page->marks + 2 * here, PANEL_MARK_REQUIRED);
}

/* A new page, of either sort in turn; the cursor and all else stay. */
static void put_areas(const struct program *program, size_t cells, int required_here)
{
    static struct snapshot page;
    program->get(&page);
    make_areas(&page, cells);
    if (required_here)
        require_here_alone(&page, cells);
    program->put(&page);
}

static size_t any_key(void)
{
    static const char typed[] = "0123456789-. OAZaz+";
    static const size_t often[] = {PANEL_KEY_DELETE, PANEL_KEY_INSERT, PANEL_KEY_NEXT_FIELD, PANEL_KEY_RIGHT,
                                   PANEL_KEY_SEND};
    switch (below(4)) {
    case 0:
        return (size_t)typed[below(sizeof typed - 1)];
    case 1:
        return PANEL_KEY_UP + below(PANEL_KEY_UNLOCK - PANEL_KEY_UP + 1); /* 267 too, which is no key */
    default:
        return often[below(sizeof often / sizeof *often)];
    }
}

static void run_any(const struct program *program, char **words)
{
    size_t rows = number(words[0]), columns = number(words[1]), count = number(words[2]);
    size_t not_taken = 0, required_blank = 0, blocks = 0;
    struct told all = {0, 0, 0, 0};
    uint64_t digest = NO_DIGEST;
    program->start(rows, columns, &all);
    if (all.number != PANEL_DONE)
        fail("no such size");
    all.stored = 0;
    for (size_t i = 0; i < count; i++) {
        struct told one = {0, 0, 0, 0};
        if (i % 50 == 0)
            put_areas(program, rows * columns, i % 100 != 0);
        if (i % 100 == 0)
            choose_sent(program, i % 200 == 0, &one);
        program->key(any_key(), &one);
        digest = digested(digest, &one.number, 1);
        digest = digested(digest, output, (size_t)one.sent);
        not_taken += one.number == PANEL_NOT_TAKEN;
        required_blank += one.number == PANEL_REQUIRED_BLANK;
        blocks += one.sent > 0;
        all.sent += one.sent;
        all.stored += one.stored;
    }
    if (not_taken == 0 || required_blank == 0 || blocks == 0)
        fail("no key was given 8, or none 9, or none sent a block");
    print_left(program, rows, columns, &all, digest);
    printf("given 8: %lu, given 9: %lu, blocks: %lu\n", (unsigned long)not_taken, (unsigned long)required_blank,
           (unsigned long)blocks);
}

int main(int count, char **words)
{
    const struct program *program = count > 1 ? program_named(words[1]) : NULL;
    if (program && count == 8 && strcmp(words[2], "stream") == 0)
        run_stream(program, words + 3);
    else if (program && count == 8 && strcmp(words[2], "keys") == 0)
        run_keys(program, words + 3);
    else if (program && count == 6 && strcmp(words[2], "any") == 0)
        run_any(program, words + 3);
    else
        fail("usage: drive ours|plain stream FILE ROWS COLUMNS CALL BYTES\n"
             "       drive ours|plain keys WHAT form|densest ROWS COLUMNS COUNT\n"
             "       drive ours|plain any ROWS COLUMNS COUNT");
    return 0;
}
