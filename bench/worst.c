/* Makes the calls that worst.py asks for, one a line on standard input, with a mark before and after each; whoever runs
   it counts the instructions between marks (count.c):

   PROGRAM PAGE CURSOR STOPS ERASURE FULL host HEX     PAGE: open, shut, densest, modified, required, first,
   PROGRAM PAGE CURSOR STOPS ERASURE FULL key NUMBER   last, numeric, alphabetic; CURSOR: a cell from 0 on; STOPS:
                                                       all, none; ERASURE, FULL (what the Send key sends): 0, 1

   The page is 48 by 160. For each call it prints the number given, the bytes sent and a digest of what was left. */
#include "programs.h"

#include <stdio.h>
#include <stdlib.h>
#include <string.h>

#define ROWS 48
#define COLUMNS 160
#define CELLS (ROWS * COLUMNS)

void bench_mark(void);

/* what is counted lies between two calls of this */
__attribute__((noinline)) void bench_mark(void)
{
    __asm__ volatile("");
}

static int is_open(const char *page, size_t cell)
{
    if (strcmp(page, "open") == 0)
        return 1;
    if (strcmp(page, "shut") == 0)
        return 0;
    if (strcmp(page, "first") == 0)
        return cell == 0;
    if (strcmp(page, "last") == 0)
        return cell == CELLS - 1;
    /* densest, modified, required: the page with the longest block */
    return cell == 0 || cell % 2 == 1;
}

static size_t mark_of(const char *page, size_t cell)
{
    if (strcmp(page, "numeric") == 0)
        return PANEL_MARK_NUMERIC;
    if (strcmp(page, "alphabetic") == 0)
        return PANEL_MARK_ALPHABETIC;
    if (!is_open(page, cell))
        return PANEL_MARK_PROTECTED;
    if (strcmp(page, "required") == 0)
        return PANEL_MARK_MODIFIED | PANEL_MARK_REQUIRED;
    return strcmp(page, "modified") == 0 ? PANEL_MARK_MODIFIED : 0;
}

/* Every cell takes the character that all have: a key that moves them looks at each. */
static void make_page(struct snapshot *to, const char *page)
{
    memset(to->characters, strcmp(page, "numeric") == 0 ? '5' : 'x', CELLS);
    for (size_t cell = 0; cell < CELLS; cell++)
        put_two_bytes(to->marks + 2 * cell, mark_of(page, cell));
}

/* the last page made is kept: asked for again and again it is the same */
static const struct snapshot *page_named(const char *page)
{
    static struct snapshot made;
    static char name[16];
    if (strcmp(name, page) != 0) {
        make_page(&made, page);
        strcpy(name, page);
    }
    return &made;
}

static void set_up(const struct program *program, const char *page, size_t cursor, const char *stops,
                   const char *erasure, const char *full)
{
    static struct snapshot situation;
    uint8_t *record = situation.record;
    situation = *page_named(page);
    memset(record, 0, sizeof situation.record);
    put_two_bytes(record + PANEL_RECORD_ROWS, ROWS);
    put_two_bytes(record + PANEL_RECORD_COLUMNS, COLUMNS);
    put_two_bytes(record + PANEL_RECORD_ROW, cursor / COLUMNS + 1);
    put_two_bytes(record + PANEL_RECORD_COLUMN, cursor % COLUMNS + 1);
    record[PANEL_RECORD_ERASURE] = erasure[0] == '1';
    record[PANEL_RECORD_FULL] = full[0] == '1';
    memset(record + PANEL_RECORD_STOPS, strcmp(stops, "all") == 0, COLUMNS);
    program->put(&situation);
}

static size_t read_hex(const char *text, uint8_t *to)
{
    size_t length = 0;
    for (; text[0] && text[1]; text += 2) {
        char digits[3] = {text[0], text[1], 0};
        to[length++] = (uint8_t)strtoul(digits, NULL, 16);
    }
    return length;
}

static void print_left(const struct program *program, const struct told *told)
{
    static struct snapshot left;
    const uint8_t *bytes = (const uint8_t *)&left;
    uint64_t digest = 0xCBF29CE484222325u;
    program->get(&left);
    for (size_t i = 0; i < sizeof left; i++)
        digest = (digest ^ bytes[i]) * 0x100000001B3u;
    printf("%u %llu %llu %016llx\n", (unsigned)told->number, (unsigned long long)told->sent,
           (unsigned long long)told->stored, (unsigned long long)digest);
}

int main(void)
{
    static char what[1024];
    static uint8_t bytes[512];
    char name[8], page[16], stops[8], erasure[8], full[8], call[8];
    unsigned long cursor;
    while (scanf("%7s %15s %lu %7s %7s %7s %7s %1023s", name, page, &cursor, stops, erasure, full, call, what) == 8) {
        const struct program *program = program_named(name);
        struct told told = {0, 0, 0, 0};
        if (!program || cursor >= CELLS)
            return 2;
        set_up(program, page, cursor, stops, erasure, full);
        size_t length = strcmp(call, "key") == 0 ? 0 : read_hex(what, bytes);
        size_t key = strtoul(what, NULL, 10);
        bench_mark();
        if (strcmp(call, "key") == 0)
            program->key(key, &told);
        else
            program->host(bytes, length, length, &told);
        bench_mark();
        print_left(program, &told);
    }
    return 0;
}
