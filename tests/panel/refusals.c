/* What C can get wrong, all of it in turn: lengths, the record's bytes, marks, sizes, keys, rooms. Which number is
   expected is worked out here from documents 01 and 02 (M-100 to M-103, M-106, M-107) and the layout in panel.h; lent.c
   looks at what is left. */
#include "lent.h"

#include "panel.h"

#include <stdio.h>
#include <stdlib.h>
#include <string.h>

/* Longer than any slice that is tried. */
static uint8_t record[4 * PANEL_RECORD_LENGTH], result[4 * PANEL_RESULT_LENGTH];
static uint8_t characters[PANEL_MOST_CELLS + 1], marks[2 * PANEL_MOST_CELLS + 2], host_bytes[LONGEST];
static struct kept kept = {
    {record, characters, marks, host_bytes, NULL, result},
    {PANEL_RECORD_LENGTH, 0, 0, 0, PANEL_ROOM, PANEL_RESULT_LENGTH},
};

static long calls;

static unsigned two_bytes(size_t place)
{
    return panel_two_bytes(record + place);
}

static uint32_t count(size_t place)
{
    return panel_four_bytes(result + place);
}

static unsigned mark_at(size_t cell)
{
    return panel_two_bytes(marks + 2 * cell);
}

static void put_two_bytes(uint8_t *at, unsigned value)
{
    at[0] = (uint8_t)value;
    at[1] = (uint8_t)(value >> 8);
}

/* A byte a cell for characters, two for marks. */
static void lend_cells(size_t cells)
{
    kept.length[CHARACTERS] = cells;
    kept.length[MARKS] = 2 * cells;
}

/* -- the model: which number a call is given */

static bool is_one_of(size_t n, size_t a, size_t b, size_t c)
{
    return n == a || n == b || n == c;
}

static bool is_listed(size_t rows, size_t columns)
{
    return is_one_of(rows, 24, 27, 48) && is_one_of(columns, 80, 132, 160);
}

static bool is_page(size_t rows, size_t columns)
{
    size_t cells = rows * columns;
    return is_listed(rows, columns) && kept.length[CHARACTERS] == cells && kept.length[MARKS] == 2 * cells;
}

/* How many arguments a half-read sequence may have reached, by its kind. */
static const struct {
    uint8_t least, most;
} counts[] = {
    [PANEL_KIND_NONE] = {0, 0},          [PANEL_KIND_AFTER_ESC] = {0, 0},     [PANEL_KIND_AFTER_INTERMEDIATE] = {0, 0},
    [PANEL_KIND_AFTER_BRACKET] = {1, 8}, [PANEL_KIND_BRACKET_ALONE] = {1, 1}, [PANEL_KIND_AFTER_PRIVATE_MARK] = {1, 1},
};

static bool half_read_is_valid(void)
{
    unsigned kind = record[PANEL_RECORD_KIND], spoilt = record[PANEL_RECORD_SPOILT];
    unsigned count = record[PANEL_RECORD_COUNT], most = 0, reached = 0;
    for (unsigned i = 0; i < 8; i++) {
        unsigned argument = two_bytes(PANEL_RECORD_ARGUMENTS + 2 * i);
        most = argument > most ? argument : most;
        reached = argument != 0 ? i + 1 : reached;
    }
    if (kind > PANEL_KIND_AFTER_PRIVATE_MARK)
        return false;
    if (spoilt != 0)
        return kind == PANEL_KIND_AFTER_BRACKET && spoilt == 1 && count == 1 && most == 0;
    if (kind == PANEL_KIND_BRACKET_ALONE && most != 0)
        return false;
    return count >= counts[kind].least && count <= counts[kind].most && reached <= count && most <= 9999;
}

/* Bits 10 to 15 are zero; of protected, numeric and alphabetic there is one at most, and with required no protected. */
static bool is_valid_mark(unsigned mark)
{
    unsigned areas = mark & (PANEL_MARK_PROTECTED | PANEL_MARK_NUMERIC | PANEL_MARK_ALPHABETIC);
    if (mark & PANEL_MARK_REQUIRED && mark & PANEL_MARK_PROTECTED)
        return false;
    return mark < 0x400 && (areas & (areas - 1)) == 0;
}

/* Line 2, of a size that is listed and of page slices that fit it. */
static bool is_valid(void)
{
    unsigned rows = two_bytes(PANEL_RECORD_ROWS), columns = two_bytes(PANEL_RECORD_COLUMNS);
    unsigned row = two_bytes(PANEL_RECORD_ROW), column = two_bytes(PANEL_RECORD_COLUMN);
    if (row < 1 || row > rows || column < 1 || column > columns)
        return false;
    if (record[PANEL_RECORD_ERASURE] > 1 || record[PANEL_RECORD_FULL] > 1)
        return false;
    if (record[PANEL_RECORD_MANUAL] > 1 || record[PANEL_RECORD_SOFT] > 1)
        return false;
    /* the pen has no modified */
    if (!is_valid_mark(two_bytes(PANEL_RECORD_PEN)) || two_bytes(PANEL_RECORD_PEN) & PANEL_MARK_MODIFIED)
        return false;
    if (record[PANEL_RECORD_MESSAGE] > 4 || (record[PANEL_RECORD_MESSAGE] == 0 && record[PANEL_RECORD_BYTE] != 0))
        return false;
    for (unsigned i = 0; i < 160; i++)
        if (record[PANEL_RECORD_STOPS + i] > (i < columns))
            return false;
    if (!half_read_is_valid())
        return false;
    for (size_t i = 0; i < kept.length[CHARACTERS]; i++)
        if (characters[i] < 0x20 || characters[i] > 0x7E || !is_valid_mark(mark_at(i)))
            return false;
    return true;
}

/* The numbers that come before those of a valid terminal; PANEL_DONE if none does. */
static uint8_t number_before(enum call call, size_t rows, size_t columns)
{
    if (kept.length[RESULT] != PANEL_RESULT_LENGTH)
        return PANEL_WRONG_SIZE;
    if (kept.length[RECORD] != PANEL_RECORD_LENGTH)
        return PANEL_WRONG_STATE;
    if (call == START)
        return is_page(rows, columns) ? PANEL_DONE : PANEL_WRONG_SIZE;
    if (!is_page(two_bytes(PANEL_RECORD_ROWS), two_bytes(PANEL_RECORD_COLUMNS)))
        return PANEL_WRONG_SIZE;
    return is_valid() ? PANEL_DONE : PANEL_WRONG_STATE;
}

/* -- calls that must give a number */

static size_t damaged;

static void want(const char *what, uint8_t number, uint8_t wanted)
{
    calls++;
    if (number != wanted)
        fault("%s: number %d, wanted %d; byte %zu of the record is %d", what, number, wanted, damaged, record[damaged]);
}

static void want_counts(const char *what, uint32_t taken, uint32_t sent, uint32_t stored)
{
    uint32_t was_taken = count(PANEL_RESULT_TAKEN), was_sent = count(PANEL_RESULT_SENT);
    uint32_t was_stored = count(PANEL_RESULT_STORED);
    if (was_taken != taken || was_sent != sent || was_stored != stored)
        fault("%s: taken %u, sent %u, stored %u; wanted %u, %u, %u", what, was_taken, was_sent, was_stored, taken, sent,
              stored);
}

static uint8_t host(const char *bytes, size_t length)
{
    memcpy(host_bytes, bytes, length);
    kept.length[BYTES] = length;
    return lend(HOST, 0, 0, &kept);
}

static void feed(const char *text)
{
    want("fed", host(text, strlen(text)), PANEL_DONE);
}

static void start(size_t rows, size_t columns)
{
    kept.length[RECORD] = PANEL_RECORD_LENGTH;
    kept.length[RESULT] = PANEL_RESULT_LENGTH;
    lend_cells(rows * columns);
    kept.length[OUTPUT] = PANEL_ROOM;
    want("start", lend(START, rows, columns, &kept), PANEL_DONE);
}

/* -- what is put back after a call that did something */

static struct {
    uint8_t record[PANEL_RECORD_LENGTH], characters[PANEL_MOST_CELLS], marks[2 * PANEL_MOST_CELLS];
} saved;

static void save(void)
{
    memcpy(saved.record, record, sizeof saved.record);
    memcpy(saved.characters, characters, sizeof saved.characters);
    memcpy(saved.marks, marks, sizeof saved.marks);
}

static void put_back(void)
{
    memcpy(record, saved.record, sizeof saved.record);
    memcpy(characters, saved.characters, sizeof saved.characters);
    memcpy(marks, saved.marks, sizeof saved.marks);
}

static void want_page_as_saved(const char *what)
{
    if (memcmp(characters, saved.characters, sizeof saved.characters) != 0 ||
        memcmp(marks, saved.marks, sizeof saved.marks) != 0)
        fault("%s: the page was changed", what);
}

static void want_record(const char *what, const uint8_t *wanted)
{
    for (size_t i = 0; i < PANEL_RECORD_LENGTH; i++)
        if (record[i] != wanted[i])
            fault("%s: byte %zu of the record is %d, wanted %d", what, i, record[i], wanted[i]);
}

/* -- start */

static void make_fresh_record(uint8_t *fresh, size_t rows, size_t columns)
{
    memset(fresh, 0, PANEL_RECORD_LENGTH);
    fresh[PANEL_RECORD_ROWS] = (uint8_t)rows;
    fresh[PANEL_RECORD_COLUMNS] = (uint8_t)columns;
    fresh[PANEL_RECORD_ROW] = fresh[PANEL_RECORD_COLUMN] = 1;
}

static uint8_t random_byte(void)
{
    static uint32_t seed = 1;
    seed = seed * 1664525 + 1013904223;
    return (uint8_t)(seed >> 24);
}

static void make_garbage(int round)
{
    for (size_t i = 0; i < sizeof record; i++)
        record[i] = round == 0 ? 0xFF : random_byte();
    for (size_t i = 0; i < sizeof characters; i++)
        characters[i] = random_byte();
    for (size_t i = 0; i < sizeof marks; i++)
        marks[i] = random_byte();
    for (size_t i = 0; i < sizeof result; i++)
        result[i] = random_byte();
}

/* A start over garbage: its number, and if it is done the fresh page and its record. */
static void try_start(size_t rows, size_t columns)
{
    uint8_t wanted = number_before(START, rows, columns), fresh[PANEL_RECORD_LENGTH];
    want("start", lend(START, rows, columns, &kept), wanted);
    if (wanted != PANEL_DONE)
        return;
    make_fresh_record(fresh, rows, columns);
    want_record("start", fresh);
    want_counts("start", 0, 0, (uint32_t)(rows * columns));
    for (size_t i = 0; i < rows * columns; i++)
        if (characters[i] != 0x20 || mark_at(i) != 0)
            fault("start: cell %zu is not fresh", i);
}

static void try_starts(void)
{
    static const size_t far[] = {24, 80, 24 + (1 << 8), 24 + (1 << 16), (size_t)24 + ((size_t)1 << 32),
                                 80 + (1 << 8), 80 + (1 << 16), (size_t)80 + ((size_t)1 << 32), SIZE_MAX, SIZE_MAX / 2};
    for (size_t rows = 0; rows <= 50; rows++) {
        for (size_t columns = 0; columns <= 162; columns++) {
            size_t cells = rows * columns;
            make_garbage((int)(rows % 2));
            lend_cells(cells < sizeof characters ? cells : sizeof characters);
            try_start(rows, columns);
            if (!is_listed(rows, columns))
                continue;
            for (int i = 0; i < 15; i++) {
                static const int off[] = {-1, 0, 1, -2, 2};
                kept.length[CHARACTERS] = cells + off[i % 3];
                kept.length[MARKS] = 2 * cells + off[i / 3];
                make_garbage(i);
                try_start(rows, columns);
            }
        }
    }
    lend_cells(24 * 80);
    for (size_t i = 0; i < sizeof far / sizeof *far; i++)
        for (size_t j = 0; j < sizeof far / sizeof *far; j++)
            try_start(far[i], far[j]);
}

/* -- good records, and every byte of them damaged */

struct good {
    const char *name;
    size_t rows, columns;
    const char *fed;
    /* places of the record that are then other than fresh, and what is there */
    uint8_t other[24][2];
};

#define AT_ARGUMENT(n) (PANEL_RECORD_ARGUMENTS + 2 * ((n)-1))
#define AT_STOP(column) (PANEL_RECORD_STOPS + (column)-1)

static const struct good goods[] = {
    {"fresh", 24, 80, "", {{0, 0}}},
    {"tab stops, pen, erasure mode", 24, 80,
     "\033H\033[8G\033H\033[40G\033[W\033[80G\033H\033V\033[1;8m\033[6h\033[3;7H",
     {{AT_STOP(1), 1}, {AT_STOP(8), 1}, {AT_STOP(40), 1}, {AT_STOP(80), 1},
      {PANEL_RECORD_PEN, PANEL_MARK_PROTECTED | PANEL_MARK_BOLD | PANEL_MARK_CONCEALED},
      {PANEL_RECORD_ERASURE, 1}, {PANEL_RECORD_ROW, 3}, {PANEL_RECORD_COLUMN, 7}}},
    {"half read after ESC [ with arguments", 24, 80, "\033[24;80H\033[12;3456;",
     {{PANEL_RECORD_ROW, 24}, {PANEL_RECORD_COLUMN, 80}, {PANEL_RECORD_KIND, PANEL_KIND_AFTER_BRACKET},
      {PANEL_RECORD_COUNT, 3}, {AT_ARGUMENT(1), 12}, {AT_ARGUMENT(2), 3456 & 255}, {AT_ARGUMENT(2) + 1, 3456 >> 8}}},
    {"locked with a message", 24, 80, "\033`\302",
     {{PANEL_RECORD_MANUAL, 1}, {PANEL_RECORD_SOFT, 1}, {PANEL_RECORD_MESSAGE, PANEL_MESSAGE_HIGH_BYTE},
      {PANEL_RECORD_BYTE, 0xC2}}},
    {"after a refused command, half read after ESC", 24, 80, "\033[2;3H\033[25;1H\033",
     {{PANEL_RECORD_ROW, 2}, {PANEL_RECORD_COLUMN, 3}, {PANEL_RECORD_SOFT, 1},
      {PANEL_RECORD_MESSAGE, PANEL_MESSAGE_WRONG_ARGUMENTS}, {PANEL_RECORD_BYTE, 'H'},
      {PANEL_RECORD_KIND, PANEL_KIND_AFTER_ESC}}},
    {"broken off, half read after ESC and an intermediate", 27, 80, "\033[1\r\033 ",
     {{PANEL_RECORD_SOFT, 1}, {PANEL_RECORD_MESSAGE, PANEL_MESSAGE_BROKEN_SEQUENCE}, {PANEL_RECORD_BYTE, '\r'},
      {PANEL_RECORD_KIND, PANEL_KIND_AFTER_INTERMEDIATE}}},
    {"unknown command, then spoilt", 24, 132, "\033[132GA\033H\033X\033[1;2;10000;4",
     {{PANEL_RECORD_ROW, 2}, {AT_STOP(1), 1}, {PANEL_RECORD_SOFT, 1},
      {PANEL_RECORD_MESSAGE, PANEL_MESSAGE_UNKNOWN_COMMAND}, {PANEL_RECORD_BYTE, 'X'},
      {PANEL_RECORD_KIND, PANEL_KIND_AFTER_BRACKET}, {PANEL_RECORD_SPOILT, 1}, {PANEL_RECORD_COUNT, 1}}},
    {"eight arguments on the largest page", 48, 160, "\033[48;160H\033H\033[132G\033H\033[1;2;3;4;5;6;7;9999",
     {{PANEL_RECORD_ROW, 48}, {PANEL_RECORD_COLUMN, 132}, {AT_STOP(160), 1}, {AT_STOP(132), 1},
      {PANEL_RECORD_KIND, PANEL_KIND_AFTER_BRACKET}, {PANEL_RECORD_COUNT, 8}, {AT_ARGUMENT(1), 1}, {AT_ARGUMENT(2), 2},
      {AT_ARGUMENT(3), 3}, {AT_ARGUMENT(4), 4}, {AT_ARGUMENT(5), 5}, {AT_ARGUMENT(6), 6}, {AT_ARGUMENT(7), 7},
      {AT_ARGUMENT(8), 9999 & 255}, {AT_ARGUMENT(8) + 1, 9999 >> 8}}},
    {"numeric pen", 24, 80, "\033V\033[1;8m\033[3o\033[2;2H",
     {{PANEL_RECORD_PEN, PANEL_MARK_NUMERIC | PANEL_MARK_BOLD | PANEL_MARK_CONCEALED}, {PANEL_RECORD_ROW, 2},
      {PANEL_RECORD_COLUMN, 2}}},
    {"alphabetic pen", 27, 132, "\033[3o\033[4m\033[4o",
     {{PANEL_RECORD_PEN, PANEL_MARK_UNDERLINED}, {PANEL_RECORD_PEN + 1, PANEL_MARK_ALPHABETIC >> 8}}},
    {"required alphabetic pen", 24, 80, "\033[4o\033[20o\033[7m",
     {{PANEL_RECORD_PEN, PANEL_MARK_REVERSED},
      {PANEL_RECORD_PEN + 1, (PANEL_MARK_REQUIRED | PANEL_MARK_ALPHABETIC) >> 8}}},
    {"the whole form to be sent, half read after ESC [ alone", 24, 80, "\033[>6l\033[",
     {{PANEL_RECORD_FULL, 1}, {PANEL_RECORD_KIND, PANEL_KIND_BRACKET_ALONE}, {PANEL_RECORD_COUNT, 1}}},
    {"half read after ESC [ >", 24, 160, "\033[>6l\033[>6h\033[>",
     {{PANEL_RECORD_KIND, PANEL_KIND_AFTER_PRIVATE_MARK}, {PANEL_RECORD_COUNT, 1}}},
    {"refused at the end of a form with >, half read after ESC [ > and digits", 48, 80, "\033[>6l\033[>5h\033[>0009999",
     {{PANEL_RECORD_FULL, 1}, {PANEL_RECORD_SOFT, 1}, {PANEL_RECORD_MESSAGE, PANEL_MESSAGE_BROKEN_SEQUENCE},
      {PANEL_RECORD_BYTE, 'h'}, {PANEL_RECORD_KIND, PANEL_KIND_AFTER_PRIVATE_MARK}, {PANEL_RECORD_COUNT, 1},
      {AT_ARGUMENT(1), 9999 & 255}, {AT_ARGUMENT(1) + 1, 9999 >> 8}}},
    {"spoilt after ESC [ >", 24, 80, "\033[>6;",
     {{PANEL_RECORD_KIND, PANEL_KIND_AFTER_BRACKET}, {PANEL_RECORD_SPOILT, 1}, {PANEL_RECORD_COUNT, 1}}},
};

static void make_good(const struct good *good)
{
    uint8_t wanted[PANEL_RECORD_LENGTH];
    make_fresh_record(wanted, good->rows, good->columns);
    for (size_t i = 0; good->other[i][0] != 0; i++)
        wanted[good->other[i][0]] = good->other[i][1];
    start(good->rows, good->columns);
    feed(good->fed);
    want_record(good->name, wanted);
    save();
}

/* The three kinds of call on a record as it stands, which is known to be valid or not. */
static void try_host(const char *name, uint8_t before)
{
    uint8_t given[PANEL_RECORD_LENGTH];
    memcpy(given, record, sizeof given);
    want(name, host("", 0), before);
    want_counts(name, 0, 0, 0);
    want_record(name, given);
}

static void try_keys(const char *name, uint8_t before)
{
    uint8_t given[PANEL_RECORD_LENGTH];
    memcpy(given, record, sizeof given);
    want(name, lend(KEY, 0, 0, &kept), before != PANEL_DONE ? before : PANEL_UNKNOWN_KEY);
    bool locked = record[PANEL_RECORD_MANUAL] != 0 || record[PANEL_RECORD_SOFT] != 0;
    want(name, lend(KEY, PANEL_KEY_UP, 0, &kept), before != PANEL_DONE ? before : locked ? PANEL_LOCKED : PANEL_DONE);
    want_counts(name, 0, 0, 0);
    if (before == PANEL_DONE && !locked && given[PANEL_RECORD_ROW] > 1)
        given[PANEL_RECORD_ROW]--;
    want_record(name, given);
}

static bool is_telling(unsigned value, unsigned good)
{
    unsigned flipped = value ^ good;
    return value <= 9 || value == 255 || (flipped & (flipped - 1)) == 0;
}

/* Every byte with every value for a host call, with the telling ones for a key; or with the telling ones for both. */
static void damage(const struct good *good, bool every_value)
{
    long tried = 0, valid = 0;
    make_good(good);
    for (size_t place = 0; place < PANEL_RECORD_LENGTH; place++) {
        for (unsigned value = 0; value < 256; value++) {
            if (!every_value && !is_telling(value, saved.record[place]))
                continue;
            tried++;
            record[place] = (uint8_t)value;
            damaged = place;
            uint8_t before = number_before(HOST, 0, 0);
            valid += before == PANEL_DONE;
            try_host(good->name, before);
            if (is_telling(value, saved.record[place]))
                try_keys(good->name, before);
            memcpy(record, saved.record, sizeof saved.record);
        }
    }
    want_page_as_saved(good->name);
    printf("%s: %ld records with one byte changed, %ld of them valid\n", good->name, tried, valid);
}

/* Every kind of half-read sequence, and some that are none, with spoilt flags, counts and an argument of all sorts. */
static void try_half_read(void)
{
    static const uint8_t kinds[] = {0, 1, 2, 3, 4, 5, 6, 7, 8, 255}, spoilts[] = {0, 1, 2};
    static const uint8_t reached[] = {0, 1, 2, 7, 8, 9, 255};
    static const struct {
        uint8_t number;
        uint16_t value;
    } arguments[] = {{1, 0}, {1, 1}, {1, 6}, {1, 9999}, {1, 10000}, {1, 65535}, {2, 1}, {7, 6}, {8, 1}, {8, 10000}};
    long tried = 10 * 3 * 7 * 10, valid = 0;
    make_good(&goods[0]);
    damaged = PANEL_RECORD_KIND;
    for (int i = 0; i < tried; i++) {
        record[PANEL_RECORD_KIND] = kinds[i % 10];
        record[PANEL_RECORD_SPOILT] = spoilts[i / 10 % 3];
        record[PANEL_RECORD_COUNT] = reached[i / 30 % 7];
        put_two_bytes(record + AT_ARGUMENT(arguments[i / 210].number), arguments[i / 210].value);
        uint8_t before = number_before(HOST, 0, 0);
        valid += before == PANEL_DONE;
        try_host("a half-read sequence", before);
        try_keys("a half-read sequence", before);
        memcpy(record, saved.record, sizeof saved.record);
    }
    printf("half-read sequences: %ld records, %ld of them valid\n", tried, valid);
}

/* A cell's character with every value, its mark with those of bits 0 to 10. */
static void damage_cells(void)
{
    make_good(&goods[2]);
    static const size_t cells[] = {0, 1, 79, 80, 961, 24 * 80 - 1};
    for (size_t i = 0; i < sizeof cells / sizeof *cells; i++) {
        for (unsigned value = 0; value < 256; value++) {
            characters[cells[i]] = (uint8_t)value;
            try_host("a character", number_before(HOST, 0, 0));
            put_back();
        }
        for (unsigned value = 0; value < 0x800; value++) {
            put_two_bytes(marks + 2 * cells[i], value);
            try_host("a mark", number_before(HOST, 0, 0));
            put_back();
        }
    }
}

/* -- lengths */

static uint8_t make(enum call call)
{
    if (call == HOST)
        return host("", 0);
    return call == START ? lend(START, 24, 80, &kept) : lend(KEY, PANEL_KEY_UNLOCK, 0, &kept);
}

/* A mark, and what a call is given where a cell or the pen has it. Of bits 0, 7 and 8 there is one at most, bit 9 is
   never with bit 0, bits 10 to 15 are zero, and the pen has no bit 1. */
static const struct {
    uint16_t mark;
    uint8_t in_cell, in_pen;
} tried_marks[] = {
    {0x0000, 0, 0}, {0x0001, 0, 0}, {0x0080, 0, 0}, {0x0100, 0, 0},                 /* none of them, or one */
    {0x0081, 2, 2}, {0x0101, 2, 2}, {0x0180, 2, 2}, {0x0181, 2, 2},                 /* two of them, or all */
    {0x0200, 0, 0}, {0x0280, 0, 0}, {0x0300, 0, 0}, {0x0201, 2, 2}, {0x0380, 2, 2}, /* and required */
    {0x0281, 2, 2}, {0x0301, 2, 2}, {0x0381, 2, 2},
    {0x0400, 2, 2}, {0x0800, 2, 2}, {0x1000, 2, 2}, {0x2000, 2, 2}, {0x4000, 2, 2}, /* bits 10 to 15 */
    {0x8000, 2, 2}, {0x0600, 2, 2}, {0x0A00, 2, 2}, {0x1200, 2, 2}, {0x2200, 2, 2}, {0x4200, 2, 2}, {0x8200, 2, 2},
    {0x0401, 2, 2}, {0x0480, 2, 2}, {0x0500, 2, 2}, {0x8001, 2, 2}, {0x8080, 2, 2}, {0x8100, 2, 2},
    {0x0002, 0, 2}, {0x0003, 0, 2}, {0x0082, 0, 2}, {0x0102, 0, 2}, {0x0202, 0, 2}, /* modified */
    {0x0203, 2, 2}, {0x0282, 0, 2}, {0x0302, 0, 2},
    {0x007C, 0, 0}, {0x007D, 0, 0}, {0x00FC, 0, 0}, {0x017C, 0, 0}, {0x027C, 0, 0}, /* with all visual marks */
    {0x007F, 0, 2}, {0x00FE, 0, 2}, {0x017E, 0, 2}, {0x027E, 0, 2}, {0x00FD, 2, 2}, {0x017D, 2, 2}, {0x01FC, 2, 2},
    {0x027D, 2, 2}, {0x027F, 2, 2}, {0x03FE, 2, 2}, {0x03FF, 2, 2}, {0xFFFF, 2, 2},
};

/* A host call without bytes, and key 268, which is done under locks too; after them all is put back. */
static void want_both(const char *what, uint8_t wanted)
{
    want(what, make(HOST), wanted);
    want(what, make(KEY), wanted);
    put_back();
}

static void try_marks(const struct good *good)
{
    make_good(good);
    size_t last = good->rows * good->columns - 1;
    for (size_t i = 0; i < sizeof tried_marks / sizeof *tried_marks; i++) {
        const size_t cells[] = {0, last / 2, last};
        for (int j = 0; j < 3; j++) {
            put_two_bytes(marks + 2 * cells[j], tried_marks[i].mark);
            want_both("a cell's mark", tried_marks[i].in_cell);
        }
        put_two_bytes(record + PANEL_RECORD_PEN, tried_marks[i].mark);
        want_both("the pen", tried_marks[i].in_pen);
    }
}

/* On each of the nine pages, marks of the lengths that a program may take for theirs: 2 x R x C alone is right. */
static void try_marks_lengths(void)
{
    static const size_t rows[] = {24, 27, 48}, columns[] = {80, 132, 160};
    for (int size = 0; size < 9; size++) {
        size_t cells = rows[size / 3] * columns[size % 3];
        size_t all = 2 * cells;
        const size_t lengths[] = {0, 1, 2, cells - 1, cells, cells + 1, all - 2, all - 1, all + 1, all + 2};
        start(rows[size / 3], columns[size % 3]);
        save();
        want_both("marks of the right length", PANEL_DONE);
        for (size_t i = 0; i < sizeof lengths / sizeof *lengths; i++) {
            kept.length[MARKS] = lengths[i];
            want_both("marks of a wrong length", PANEL_WRONG_SIZE);
            want("start, marks of a wrong length", lend(START, rows[size / 3], columns[size % 3], &kept),
                 PANEL_WRONG_SIZE);
            put_back();
        }
    }
}

/* The record as before M-106, without its flag, and as before M-103, with a pen of one byte too: its length tells. */
static void try_old_records(void)
{
    static const size_t came_later[] = {PANEL_RECORD_FULL, PANEL_RECORD_PEN + 1}, lengths[] = {194, 193};
    make_good(&goods[0]);
    for (int i = 0; i < 2; i++) {
        memmove(record + came_later[i], record + came_later[i] + 1, lengths[i] - came_later[i]);
        kept.length[RECORD] = lengths[i];
        want("an old record", make(START), PANEL_WRONG_STATE);
        want("an old record", make(HOST), PANEL_WRONG_STATE);
        want("an old record", make(KEY), PANEL_WRONG_STATE);
    }
    kept.length[RECORD] = PANEL_RECORD_LENGTH;
    put_back();
}

/* Result, record and page slices of right and wrong lengths, with good and bad content, in every pairing. */
static void try_lengths(void)
{
    static const size_t records[] = {0, 1, 194, 195, 196, 390}, results[] = {0, 1, 12, 13, 14, 26};
    static const size_t character_lengths[] = {0, 1919, 1920, 1921};
    static const size_t mark_lengths[] = {0, 1920, 3838, 3839, 3840, 3841, 3842};
    make_good(&goods[0]);
    for (int i = 0; i < 3 * 6 * 6 * 4 * 7 * 4; i++) {
        enum call call = (enum call)(i % 3);
        put_back();
        memset(record + PANEL_RECORD_LENGTH, 0, sizeof record - PANEL_RECORD_LENGTH);
        kept.length[RECORD] = records[i / 3 % 6];
        kept.length[RESULT] = results[i / 18 % 6];
        kept.length[CHARACTERS] = character_lengths[i / 108 % 4];
        kept.length[MARKS] = mark_lengths[i / 432 % 7];
        characters[1920] = ' ';
        put_two_bytes(marks + 3840, 0);
        int content = i / 3024;
        if (content == 1)
            record[PANEL_RECORD_SOFT] = 2;
        else if (content == 2)
            characters[7] = 0x7F;
        else if (content == 3)
            memset(record, 0xFF, sizeof record);
        uint8_t wanted = number_before(call, 24, 80);
        want("lengths", make(call), wanted);
    }
    kept.length[RECORD] = PANEL_RECORD_LENGTH;
    kept.length[RESULT] = PANEL_RESULT_LENGTH;
}

/* More host bytes than a call takes: after 1 and 2, before all else. */
static void try_many_bytes(void)
{
    make_good(&goods[3]);
    memset(host_bytes, 0, sizeof host_bytes);
    for (size_t length = PANEL_MOST_HOST_BYTES - 1; length <= PANEL_MOST_HOST_BYTES + 1; length++) {
        kept.length[BYTES] = length;
        want("many bytes", lend(HOST, 0, 0, &kept), length > PANEL_MOST_HOST_BYTES ? PANEL_TOO_LONG : PANEL_DONE);
        record[PANEL_RECORD_MANUAL] = 2;
        want("many bytes, bad content", lend(HOST, 0, 0, &kept), PANEL_WRONG_STATE);
        kept.length[MARKS]--;
        want("many bytes, a wrong length", lend(HOST, 0, 0, &kept), PANEL_WRONG_SIZE);
        kept.length[MARKS]++;
        put_back();
    }
}

/* -- keys */

static uint8_t number_of_key(size_t key, bool locked, bool protected, bool has_room)
{
    bool stores = key >= 32 && key <= 126;
    bool known = stores || (key >= PANEL_KEY_UP && key <= PANEL_KEY_SEND) || key == PANEL_KEY_UNLOCK;
    bool needs_field = key == PANEL_KEY_NEXT_FIELD || key == PANEL_KEY_PREVIOUS_FIELD;
    bool needs_cell = stores || (key >= PANEL_KEY_BLANK_FIELD && key <= PANEL_KEY_INSERT);
    if (!known)
        return PANEL_UNKNOWN_KEY;
    if (locked && key != PANEL_KEY_UNLOCK)
        return PANEL_LOCKED;
    if (protected && (needs_cell || needs_field))
        return PANEL_NO_CELL;
    return !has_room && key == PANEL_KEY_SEND ? PANEL_NO_ROOM : PANEL_DONE;
}

/* Every key, with and without lock, unprotected cell and room, and whichever block Send sends. */
static void try_every_key(void)
{
    for (int i = 0; i < 16; i++) {
        bool locked = i & 1, protected = i & 2, has_room = i & 4, full = i & 8;
        start(24, 80);
        if (full)
            feed("\033[>6l");
        if (protected) {
            feed("\033V");
            for (int cell = 0; cell < 24 * 80; cell += 10)
                feed("          ");
        }
        if (locked)
            feed("\200");
        save();
        kept.length[OUTPUT] = has_room ? PANEL_ROOM : 0;
        for (size_t key = 0; key < 1024; key++) {
            want("a key", lend(KEY, key, 0, &kept), number_of_key(key, locked, protected, has_room));
            put_back();
        }
        for (int bit = 10; bit < 64; bit++) {
            want("a far key", lend(KEY, ((size_t)1 << bit) + 'A', 0, &kept), PANEL_UNKNOWN_KEY);
            want("a far key", lend(KEY, ((size_t)1 << bit) + PANEL_KEY_UP, 0, &kept), PANEL_UNKNOWN_KEY);
            want("a far key", lend(KEY, ((size_t)1 << bit) + PANEL_KEY_SEND, 0, &kept), PANEL_UNKNOWN_KEY);
        }
    }
}

/* A form, a key at its first cell, and the number: 8 where a character other than 20 would come into a cell that
   doesn't take it, after 4, 5 and 7. */
static const struct {
    const char *fed;
    size_t key;
    uint8_t wanted;
} tried_keys[] = {
    {"\033[3o1\033V.\033[H", 'O', 8},         {"\033[3oO\033V.\033[H", 'O', 8},
    {"\033[3oO\033V.\033[H", '0', 0},         {"\033[3oO\033V.\033[H", ' ', 0},
    {"\033[3o1\033V.\033[H\200", 'O', 5},     {"\033[3o1\033V.\033[H\033`", 'O', 5},
    {"\033[3o1\033V.\033[H", 31, 4},          {"\033[3o1\033V.\033[H", 127, 4},
    {"\033[3o1\033V.\033[H", 255, 4},         {"\033[3o1\033V.\033[H", 256 + 'O', 4},
    {"\033V.\033[3o1\033[H", 'O', 7},         {"\033V.\033[3o1\033[H", '0', 7},
    {"\033[4oA\033V.\033[H", '0', 8},         {"\033[4oA\033V.\033[H", 'O', 0},
    {"\033[3o1\033[0oA\033V.\033[H", 264, 8}, {"\033[3o1\033[0oA\033V.\033[H", 265, 0},
    {"\033[0oA\033[3o1\033V.\033[H", 265, 8}, {"\033[0oA\033[3o1\033V.\033[H", 264, 0},
    {"\033[3o1A\033V.\033[H", 264, 8},        {"\033[3oA1\033V.\033[H", 265, 8},
    {"\033[3oA1\033V.\033[H", 264, 0},        {"\033[3o1A\033V.\033[H", 265, 0},
    {"\033[3o1A\033V.\033[H\200", 264, 5},    {"\033[3oA1\033V.\033[H\200", 265, 5},
    {"\033V.\033[3oAA\033[H", 264, 7},        {"\033V.\033[3oAA\033[H", 265, 7},
    {"\033[3oAA\033V.\033[H", 263, 0},
};

static void try_not_taken(void)
{
    for (size_t i = 0; i < sizeof tried_keys / sizeof *tried_keys; i++) {
        size_t key = tried_keys[i].key;
        start(24, 80);
        feed(tried_keys[i].fed);
        save();
        want("a key where not all is taken", lend(KEY, key, 0, &kept), tried_keys[i].wanted);
        put_back();
        put_two_bytes(marks + 2 * 24, 0x0180);
        want("a key and a bad mark", lend(KEY, key, 0, &kept), PANEL_WRONG_STATE);
        kept.length[MARKS]--;
        want("a key, a bad mark and a wrong length", lend(KEY, key, 0, &kept), PANEL_WRONG_SIZE);
    }
}

/* -- room */

/* The stow form's fields, with the wind typed and the cursor in the last cell. It takes a hundred calls: made once. */
static void make_form(void)
{
    start(24, 80);
    feed("\033V");
    for (int row = 0; row < 24; row++)
        feed("                                                                                ");
    feed("\033W\033[3;15f   \033[4;15f  \033[6;15f");
    for (int cell = 0; cell < 86; cell++)
        feed(" ");
    feed("\033[3;15f");
    want("typed", lend(KEY, '3', 0, &kept), PANEL_DONE);
    want("typed", lend(KEY, '4', 0, &kept), PANEL_DONE);
    feed("\033[24;80f");
    save();
}

static void put_form(void)
{
    static bool made;
    static uint8_t form[sizeof saved];
    if (!made) {
        make_form();
        memcpy(form, &saved, sizeof saved);
        made = true;
    }
    memcpy(&saved, form, sizeof saved);
    put_back();
    lend_cells(24 * 80);
    kept.length[OUTPUT] = PANEL_ROOM;
}

/* The block that the page as it stands would send: a field is a longest run of unprotected cells in page order. */
static size_t make_block(bool changed, char *block)
{
    size_t columns = two_bytes(PANEL_RECORD_COLUMNS), cells = kept.length[CHARACTERS], length = 0;
    for (size_t from = 0, to; from < cells; from = to + 1) {
        bool modified = false;
        for (to = from; to < cells && !(mark_at(to) & PANEL_MARK_PROTECTED); to++)
            modified = modified || mark_at(to) & PANEL_MARK_MODIFIED;
        if (to == from || (changed && !modified))
            continue;
        length += (size_t)sprintf(block + length, "\033[%zu;%zuf", from / columns + 1, from % columns + 1);
        memcpy(block + length, characters + from, to - from);
        length += to - from;
    }
    block[length++] = 3;
    return length;
}

static void want_sent(const char *what, const char *wanted, size_t length)
{
    if (count(PANEL_RESULT_SENT) != length || memcmp(sent_bytes(), wanted, length) != 0)
        fault("%s: other bytes were sent than wanted", what);
}

/* After a block no unprotected cell is modified; all else of the page stays. */
static void want_sent_page(const char *what)
{
    for (size_t i = 0; i < kept.length[MARKS]; i += 2) /* both are bits of the low byte */
        if (!(saved.marks[i] & PANEL_MARK_PROTECTED))
            saved.marks[i] &= (uint8_t)~PANEL_MARK_MODIFIED;
    want_page_as_saved(what);
}

/* The form, and the host's choice of what Send sends. */
static void put_form_to_send(bool full)
{
    put_form();
    feed(full ? "\033[>6l" : "\033[>6h");
    save();
}

static void try_key_room(bool full)
{
    static char block[PANEL_ROOM];
    put_form();
    size_t length = make_block(!full, block);
    for (size_t room = 0; room <= length + 2; room++) {
        put_form_to_send(full);
        kept.length[OUTPUT] = room;
        want("a block by key", lend(KEY, PANEL_KEY_SEND, 0, &kept), room < length ? PANEL_NO_ROOM : PANEL_DONE);
        want_record("a block by key", saved.record);
        if (room < length)
            continue;
        want_counts("a block by key", 0, (uint32_t)length, 0);
        want_sent("a block by key", block, length);
        want_sent_page("a block by key");
    }
}

/* A command that sends: with too little room all but its last byte is taken, and it is done once there is room. */
static void try_host_room(const char *command, const char *sent, size_t length, bool is_block)
{
    size_t taken = strlen(command) - 1;
    for (size_t room = 0; room <= length + 2; room++) {
        put_form();
        kept.length[OUTPUT] = room;
        want(command, host(command, taken + 1), room < length ? PANEL_NO_ROOM : PANEL_DONE);
        if (room < length) {
            uint8_t half[PANEL_RECORD_LENGTH];
            want_counts(command, (uint32_t)taken, 0, 0);
            want_page_as_saved(command);
            memcpy(half, saved.record, sizeof half);
            half[PANEL_RECORD_KIND] = is_block ? PANEL_KIND_AFTER_ESC : PANEL_KIND_AFTER_BRACKET;
            if (!is_block) {
                half[PANEL_RECORD_COUNT] = 1;
                half[PANEL_RECORD_ARGUMENTS] = (uint8_t)(command[2] - '0');
            }
            want_record(command, half);
            kept.length[OUTPUT] = length;
            want(command, host(command + taken, 1), PANEL_DONE);
            want_counts(command, 1, (uint32_t)length, 0);
        } else {
            want_counts(command, (uint32_t)taken + 1, (uint32_t)length, 0);
        }
        want_sent(command, sent, length);
        want_record(command, saved.record);
        if (is_block)
            want_sent_page(command);
        else
            want_page_as_saved(command);
    }
}

/* What goes before a command that finds no room is done: a character stored and a report sent. */
static void try_part_room(void)
{
    static char block[PANEL_ROOM];
    static const char bytes[] = "\033[3;15fx\033[5n\033Sy";
    put_form();
    feed("\033[3;15fx");
    size_t length = make_block(false, block);
    for (size_t room = 0; room <= 4 + length; room++) {
        put_form();
        kept.length[OUTPUT] = room;
        want("a part", host(bytes, sizeof bytes - 1), room < 4 + length ? PANEL_NO_ROOM : PANEL_DONE);
        if (room < 4)
            want_counts("a part", 11, 0, 1);
        else if (room < 4 + length)
            want_counts("a part", 13, 4, 1);
        else
            want_counts("a part", 15, (uint32_t)(4 + length), 2);
        if (room >= 4 && memcmp(sent_bytes(), "\033[0n", 4) != 0)
            fault("a part: the report was not sent");
        if (room >= 4 + length && memcmp(sent_bytes() + 4, block, length) != 0)
            fault("a part: the block was not sent");
    }
}

static void try_rooms(void)
{
    static char block[PANEL_ROOM];
    put_form();
    size_t length = make_block(false, block);
    try_key_room(false);
    try_key_room(true);
    try_host_room("\033S", block, length, true);
    try_host_room("\033[5n", "\033[0n", 4, false);
    try_host_room("\033[6n", "\033[24;80R", 8, false);
    try_part_room();
}

int main(void)
{
    prepare();
    try_starts();
    try_lengths();
    try_marks_lengths();
    try_old_records();
    try_half_read();
    try_marks(&goods[2]);
    try_marks(&goods[7]);
    try_many_bytes();
    try_every_key();
    try_not_taken();
    try_rooms();
    damage_cells();
    for (size_t i = 0; i < sizeof goods / sizeof *goods; i++)
        damage(&goods[i], i < 5);
    want_clean_output();
    printf("%ld calls, each twice, gave what they should\n", calls);
    return 0;
}
