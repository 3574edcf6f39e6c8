/* Which characters a cell takes: all 95 typed into a cell of each kind, and carried into it by keys 264 and 265, from a
   cell of each kind. What is taken is written out here from source document 003, and from M-103 for the blank. */
#include "lent.h"

#include "panel.h"

#include <stdio.h>
#include <stdlib.h>
#include <string.h>

#define ROWS 24
#define COLUMNS 80
#define CELLS (ROWS * COLUMNS)

/* A kind of cell: the argument of ESC [ n o, the mark that a cell then has, and what it takes. */
static const struct kind {
    int argument;
    unsigned mark;
    const char *taken;
} kinds[3] = {
    {0, 0,
     " !\"#$%&'()*+,-./0123456789:;<=>?@ABCDEFGHIJKLMNOPQRSTUVWXYZ[\\]^_`abcdefghijklmnopqrstuvwxyz{|}~"},
    {3, PANEL_MARK_NUMERIC, " 0123456789-."},
    {4, PANEL_MARK_ALPHABETIC, " ABCDEFGHIJKLMNOPQRSTUVWXYZabcdefghijklmnopqrstuvwxyz-."},
};

static uint8_t record[PANEL_RECORD_LENGTH], characters[CELLS], marks[2 * CELLS], result[PANEL_RESULT_LENGTH];
static uint8_t host_bytes[64];
static struct kept kept = {
    {record, characters, marks, host_bytes, NULL, result},
    {PANEL_RECORD_LENGTH, CELLS, 2 * CELLS, 0, PANEL_ROOM, PANEL_RESULT_LENGTH},
};

static long keys, refused;

/* -- forms: the last two cells of a field, from a place on, and a protected cell after them */

struct cell {
    const struct kind *kind;
    int character;
};

static void make_form(size_t place, struct cell first, struct cell second)
{
    int length = sprintf((char *)host_bytes, "\033[%zu;%zuf\033[%do%c\033[%do%c\033[1o.\033[%zu;%zuf",
                         place / COLUMNS + 1, place % COLUMNS + 1, first.kind->argument, first.character,
                         second.kind->argument, second.character, place / COLUMNS + 1, place % COLUMNS + 1);
    kept.length[BYTES] = (size_t)length;
    if (lend(HOST, 0, 0, &kept) != PANEL_DONE || panel_four_bytes(result + PANEL_RESULT_STORED) != 3)
        fault("the form was not painted");
}

static void want_cell(const char *what, size_t place, struct cell cell, unsigned modified)
{
    unsigned mark = panel_two_bytes(marks + 2 * place);
    if (characters[place] != cell.character || mark != (cell.kind->mark | modified))
        fault("%s: the cell holds %02X with mark %04X; wanted %02X with %04X", what, (unsigned)characters[place], mark,
              (unsigned)cell.character, cell.kind->mark | modified);
}

static bool takes(const struct kind *kind, int character)
{
    return strchr(kind->taken, character) != NULL;
}

/* A key on the form: done or given 8, with so many cells stored. That nothing else is written with 8, and that the
   counts are then zeros, lent.c looks after. */
static bool press(const char *what, size_t key, bool is_taken, uint32_t stored)
{
    uint8_t number = lend(KEY, key, 0, &kept), wanted = is_taken ? PANEL_DONE : PANEL_NOT_TAKEN;
    keys++;
    refused += !is_taken;
    if (number != wanted)
        fault("%s: number %d, wanted %d", what, number, wanted);
    if (is_taken && panel_four_bytes(result + PANEL_RESULT_STORED) != stored)
        fault("%s: %u cells stored", what, (unsigned)panel_four_bytes(result + PANEL_RESULT_STORED));
    return is_taken;
}

/* -- the three ways into a cell */

static void try_typed(size_t place, const struct kind *kind, int character)
{
    struct cell old = {kind, '%'}, other = {&kinds[0], 'x'};
    make_form(place, old, other);
    struct cell typed = {kind, character};
    bool done = press("typed", (size_t)character, takes(kind, character), 1);
    want_cell("typed", place, done ? typed : old, done ? PANEL_MARK_MODIFIED : 0);
    want_cell("typed", place + 1, other, 0);
}

/* 264 carries the second character into the first cell. That the one there, which goes, is not taken doesn't matter. */
static void try_deleted(size_t place, const struct kind *into, const struct kind *from, int character)
{
    struct cell first = {into, '%'}, second = {from, character};
    make_form(place, first, second);
    if (press("264", PANEL_KEY_DELETE, takes(into, character), 2)) {
        want_cell("264", place, (struct cell){into, character}, PANEL_MARK_MODIFIED);
        want_cell("264", place + 1, (struct cell){from, ' '}, PANEL_MARK_MODIFIED);
    } else {
        want_cell("264 refused", place, first, 0);
        want_cell("264 refused", place + 1, second, 0);
    }
}

/* 265 carries the first character into the second cell, whose own is lost, and doesn't matter either. */
static void try_inserted(size_t place, const struct kind *into, const struct kind *from, int character)
{
    struct cell first = {from, character}, second = {into, '%'};
    make_form(place, first, second);
    if (press("265", PANEL_KEY_INSERT, takes(into, character), 2)) {
        want_cell("265", place, (struct cell){from, ' '}, PANEL_MARK_MODIFIED);
        want_cell("265", place + 1, (struct cell){into, character}, PANEL_MARK_MODIFIED);
    } else {
        want_cell("265 refused", place, first, 0);
        want_cell("265 refused", place + 1, second, 0);
    }
}

static void try_character(size_t place, int character)
{
    for (int i = 0; i < 3; i++) {
        try_typed(place, &kinds[i], character);
        for (int j = 0; j < 3; j++) {
            try_deleted(place, &kinds[i], &kinds[j], character);
            try_inserted(place, &kinds[i], &kinds[j], character);
        }
    }
}

int main(void)
{
    /* inside a row, over a row's end */
    static const size_t places[] = {2 * COLUMNS + 14, 5 * COLUMNS - 1};
    prepare();
    for (size_t i = 0; i < sizeof places / sizeof *places; i++) {
        if (lend(START, ROWS, COLUMNS, &kept) != PANEL_DONE)
            fault("no page");
        for (int character = 0x20; character <= 0x7E; character++)
            try_character(places[i], character);
    }
    want_clean_output();
    printf("%ld keys that bring a character into a cell, %ld of them given 8, did what they should\n", keys, refused);
    return 0;
}
