/* M-107: key 266 is given 9 while a field with a required cell is blank, and nothing is written then; what makes cells
   required and what takes it off, what fills a field, and what is not held back. Which number and which block are
   wanted is worked out here, from the words of documents 01 and 02. */
#include "lent.h"

#include "panel.h"

#include <stdio.h>
#include <stdlib.h>
#include <string.h>

static uint8_t record[PANEL_RECORD_LENGTH], characters[PANEL_MOST_CELLS], marks[2 * PANEL_MOST_CELLS];
static uint8_t result[PANEL_RESULT_LENGTH], host_bytes[128];
static struct kept kept = {
    {record, characters, marks, host_bytes, NULL, result},
    {PANEL_RECORD_LENGTH, 0, 0, 0, PANEL_ROOM, PANEL_RESULT_LENGTH},
};

/* The page that is lent. */
static size_t columns, cells;

static long calls, held_back, blocks;

static uint8_t make_call(enum call call, size_t first, size_t second)
{
    calls++;
    return lend(call, first, second, &kept);
}

static void want(const char *what, uint8_t number, uint8_t wanted)
{
    if (number != wanted)
        fault("%s: number %d, wanted %d", what, number, wanted);
}

static void start(size_t rows, size_t row_length)
{
    columns = row_length;
    cells = rows * columns;
    kept.length[CHARACTERS] = cells;
    kept.length[MARKS] = 2 * cells;
    want("start", make_call(START, rows, columns), PANEL_DONE);
}

static uint8_t host(const char *bytes, size_t length)
{
    memcpy(host_bytes, bytes, length);
    kept.length[BYTES] = length;
    return make_call(HOST, 0, 0);
}

static void feed(const char *text)
{
    want("host bytes", host(text, strlen(text)), PANEL_DONE);
}

static uint8_t press(size_t key)
{
    return make_call(KEY, key, 0);
}

static unsigned mark_at(size_t cell)
{
    return panel_two_bytes(marks + 2 * cell);
}

static void put_two_bytes(uint8_t *at, unsigned value)
{
    at[0] = (uint8_t)value;
    at[1] = (uint8_t)(value >> 8);
}

static void put_mark(size_t cell, unsigned mark)
{
    put_two_bytes(marks + 2 * cell, mark);
}

static void add_mark(size_t cell, unsigned mark)
{
    put_mark(cell, mark_at(cell) | mark);
}

/* -- what a call is compared with, and what is put back after it */

struct terminal {
    uint8_t record[PANEL_RECORD_LENGTH], characters[PANEL_MOST_CELLS], marks[2 * PANEL_MOST_CELLS];
};

static void save(struct terminal *to)
{
    memcpy(to->record, record, sizeof record);
    memcpy(to->characters, characters, cells);
    memcpy(to->marks, marks, 2 * cells);
}

static void put_back(const struct terminal *from)
{
    memcpy(record, from->record, sizeof record);
    memcpy(characters, from->characters, cells);
    memcpy(marks, from->marks, 2 * cells);
}

static void want_record(const char *what, const uint8_t *wanted)
{
    for (size_t i = 0; i < PANEL_RECORD_LENGTH; i++)
        if (record[i] != wanted[i])
            fault("%s: byte %zu of the record is %d, wanted %d", what, i, record[i], wanted[i]);
}

static void want_terminal(const char *what, const struct terminal *wanted)
{
    want_record(what, wanted->record);
    if (memcmp(characters, wanted->characters, cells) == 0 && memcmp(marks, wanted->marks, 2 * cells) == 0)
        return;
    for (size_t cell = 0; cell < cells; cell++) {
        unsigned mark = panel_two_bytes(wanted->marks + 2 * cell);
        if (characters[cell] != wanted->characters[cell] || mark_at(cell) != mark)
            fault("%s: cell %zu holds %02X with mark %04X, wanted %02X with %04X", what, cell,
                  (unsigned)characters[cell], mark_at(cell), (unsigned)wanted->characters[cell], mark);
    }
}

static void want_untouched_output(const char *what)
{
    const uint8_t *output = sent_bytes();
    size_t length = kept.length[OUTPUT];
    if (length > 0 && (output[0] != FILL || memcmp(output, output + 1, length - 1) != 0))
        fault("%s: the output was written", what);
}

/* -- the model: a field is a longest run of unprotected cells in page order */

static bool has(size_t cell, unsigned mark)
{
    return mark_at(cell) & mark;
}

/* "A field with any required cell must hold a character other than 20." */
static bool is_held_back(void)
{
    for (size_t from = 0, to; from < cells; from = to + 1) {
        bool required = false, filled = false;
        for (to = from; to < cells && !has(to, PANEL_MARK_PROTECTED); to++) {
            required = required || has(to, PANEL_MARK_REQUIRED);
            filled = filled || characters[to] != 0x20;
        }
        if (required && !filled)
            return true;
    }
    return false;
}

static char block[PANEL_ROOM];
static size_t block_length;

/* What the page as it stands sends: every field, or those with a modified cell. */
static void make_block(bool whole)
{
    block_length = 0;
    for (size_t from = 0, to; from < cells; from = to + 1) {
        bool modified = false;
        for (to = from; to < cells && !has(to, PANEL_MARK_PROTECTED); to++)
            modified = modified || has(to, PANEL_MARK_MODIFIED);
        if (to == from || !(whole || modified))
            continue;
        block_length += (size_t)sprintf(block + block_length, "\033[%zu;%zuf", from / columns + 1, from % columns + 1);
        memcpy(block + block_length, characters + from, to - from);
        block_length += to - from;
    }
    block[block_length++] = 3;
}

/* The block was sent, and took modified off all unprotected cells; all else is as before. */
static void want_block_sent(const char *what, struct terminal *before)
{
    if (panel_four_bytes(result + PANEL_RESULT_SENT) != block_length || memcmp(sent_bytes(), block, block_length) != 0)
        fault("%s: another block was sent than wanted", what);
    if (panel_four_bytes(result + PANEL_RESULT_STORED) != 0)
        fault("%s: cells were stored", what);
    for (size_t i = 0; i < 2 * cells; i += 2) /* both are bits of the low byte */
        if (!(before->marks[i] & PANEL_MARK_PROTECTED))
            before->marks[i] &= (uint8_t)~PANEL_MARK_MODIFIED;
    want_terminal(what, before);
    blocks++;
}

/* -- key 266 */

/* Sends as the host chose, or is refused, and then nothing is written. */
static void send(const char *what, uint8_t wanted)
{
    static struct terminal before;
    save(&before);
    if (wanted == PANEL_DONE)
        make_block(record[PANEL_RECORD_FULL]);
    want(what, press(PANEL_KEY_SEND), wanted);
    if (wanted == PANEL_DONE) {
        want_block_sent(what, &before);
    } else {
        want_terminal(what, &before);
        want_untouched_output(what);
        held_back += wanted == PANEL_REQUIRED_BLANK;
    }
}

/* Whatever the host chose; after it all is put back. */
static void try_send(const char *what, bool held)
{
    static struct terminal page;
    save(&page);
    for (uint8_t whole = 0; whole <= 1; whole++) {
        record[PANEL_RECORD_FULL] = whole;
        send(what, held ? PANEL_REQUIRED_BLANK : PANEL_DONE);
        put_back(&page);
    }
}

/* -- pages made by hand: a protected x in every cell, and blank fields among them */

struct field {
    size_t from, length;
};

static void shut_page(void)
{
    memset(characters, 'x', cells);
    for (size_t cell = 0; cell < cells; cell++)
        put_mark(cell, PANEL_MARK_PROTECTED);
}

static void open_field(struct field field, unsigned mark)
{
    memset(characters + field.from, ' ', field.length);
    for (size_t cell = field.from; cell < field.from + field.length; cell++)
        put_mark(cell, mark);
}

/* -- one field, blank but for one character or none */

#define NOWHERE SIZE_MAX

/* Which of a field's cells are modified: a changed block has it or not. */
enum modified { NONE, ALL, ONE, SORTS };

static const char *described(struct field field, size_t required, size_t filled)
{
    static char words[128];
    int length = sprintf(words, "a field of %zu cells from cell %zu on, required in its cell %zu, ", field.length,
                         field.from, required);
    if (filled == NOWHERE)
        strcpy(words + length, "blank");
    else
        sprintf(words + length, "a character in its cell %zu", filled);
    return words;
}

/* The required cell and the character are counted from the field's start. */
static void try_field(struct field field, size_t required, size_t filled, enum modified modified)
{
    open_field(field, modified == ALL ? PANEL_MARK_MODIFIED : 0);
    add_mark(field.from + required, PANEL_MARK_REQUIRED);
    if (modified == ONE)
        add_mark(field.from + (filled == NOWHERE ? required : filled), PANEL_MARK_MODIFIED);
    if (filled != NOWHERE)
        characters[field.from + filled] = '7';
    try_send(described(field, required, filled), filled == NOWHERE);
}

/* Every place of both. */
static void try_short_field(struct field field)
{
    for (size_t required = 0; required < field.length; required++) {
        for (int i = 0; i < SORTS; i++) {
            try_field(field, required, NOWHERE, (enum modified)i);
            for (size_t filled = 0; filled < field.length; filled++)
                try_field(field, required, filled, (enum modified)i);
        }
    }
}

/* The first and last cells of the field and of a row. */
static bool is_telling(struct field field, size_t place)
{
    size_t column = (field.from + place) % columns;
    return place < 2 || place + 2 >= field.length || column == 0 || column + 1 == columns;
}

/* Every place of one of them, or the telling ones; the other is elsewhere. */
static void try_long_field(struct field field, bool every_place)
{
    for (size_t place = 0; place < field.length; place++) {
        enum modified modified = (enum modified)(place % SORTS);
        if (!every_place && !is_telling(field, place))
            continue;
        try_field(field, place, NOWHERE, modified);
        try_field(field, place, field.length - 1 - place, modified);
    }
}

/* At the page's start and end, inside a row, over a row's end, up to a row's end, from a row's start on. */
static void try_places(size_t length, bool every_place)
{
    const size_t starts[] = {0, cells - length, 2 * columns + 14, 5 * columns - (length + 1) / 2, 7 * columns - length,
                             9 * columns};
    for (size_t i = 0; i < sizeof starts / sizeof *starts; i++) {
        struct field field = {starts[i], length};
        shut_page();
        if (length < 10)
            try_short_field(field);
        else
            try_long_field(field, every_place);
    }
}

/* A field from the page's first cell to its last. */
static void try_whole_page(void)
{
    const size_t places[] = {0, columns - 1, columns, cells - 1};
    struct field page = {0, cells};
    for (int i = 0; i < 4; i++) {
        try_field(page, places[i], NOWHERE, NONE);
        for (int j = 0; j < 4; j++)
            try_field(page, places[i], places[j], ONE);
    }
}

/* The last cell is not joined to the first: what fills one field doesn't fill the other. */
static void try_page_ends(void)
{
    const struct field first = {0, 2}, last = {cells - 2, 2};
    for (int i = 0; i < 4; i++) {
        bool first_filled = i & 1, last_filled = i & 2;
        shut_page();
        open_field(first, PANEL_MARK_REQUIRED);
        open_field(last, PANEL_MARK_REQUIRED);
        if (first_filled)
            characters[0] = '7';
        if (last_filled)
            characters[cells - 1] = '7';
        try_send("fields at both ends of the page", !(first_filled && last_filled));
    }
}

static const size_t page_rows[] = {24, 27, 48}, page_columns[] = {80, 132, 160};

/* On all nine pages; every place in long fields on the smallest. */
static void try_fields(void)
{
    static const size_t lengths[] = {1, 2, 5, 80, 161};
    for (int size = 0; size < 9; size++) {
        start(page_rows[size / 3], page_columns[size % 3]);
        for (int i = 0; i < 5; i++)
            try_places(lengths[i], size == 0);
        try_whole_page();
        try_page_ends();
    }
}

/* -- which characters fill a field: all but 20, also those that its cells would not take from a key */

static void try_characters(void)
{
    static const unsigned kinds[] = {0, PANEL_MARK_NUMERIC, PANEL_MARK_ALPHABETIC};
    const struct field field = {5 * 80 - 2, 3};
    start(24, 80);
    shut_page();
    for (int i = 0; i < 95 * 3 * 9; i++) {
        uint8_t character = (uint8_t)(0x20 + i / 27);
        open_field(field, kinds[i % 3]);
        add_mark(field.from + i / 3 % 3, PANEL_MARK_REQUIRED);
        characters[field.from + i / 9 % 3] = character;
        try_send("a character in a required field", character == 0x20);
    }
}

/* -- several fields: each plain or required, blank or filled */

/* one cell between two; over a row's end; longer than a row; at the page's end */
static const struct field several[] = {{0, 2}, {3, 1}, {158, 5}, {805, 100}, {1918, 2}};
enum { SEVERAL = sizeof several / sizeof *several };

/* Two bits a field: required, filled. */
static void make_several(unsigned bits, enum modified modified)
{
    for (int i = 0; i < SEVERAL; i++, bits /= 4) {
        size_t last = several[i].from + several[i].length - 1;
        open_field(several[i], modified == ALL ? PANEL_MARK_MODIFIED : 0);
        if (bits & 1)
            add_mark(several[i].from, PANEL_MARK_REQUIRED);
        if (bits & 2)
            characters[last] = '7';
        if (bits & 2 && modified == ONE)
            add_mark(last, PANEL_MARK_MODIFIED);
    }
}

/* One that is required and blank holds all back, be it modified or not, whatever the others are. */
static void try_several(void)
{
    start(24, 80);
    shut_page();
    for (unsigned bits = 0; bits < 1 << 2 * SEVERAL; bits++) {
        bool held = false;
        for (int i = 0; i < SEVERAL; i++)
            held = held || (bits >> 2 * i & 3) == 1;
        for (int i = 0; i < SORTS; i++) {
            make_several(bits, (enum modified)i);
            try_send("several fields", held);
        }
    }
}

/* -- pages drawn at random, by the model */

/* by the high bits, as the low ones soon repeat */
static unsigned below(unsigned limit)
{
    static uint32_t seed = 1;
    seed = seed * 1664525 + 1013904223;
    return (seed >> 16) % limit;
}

/* Areas of one to five cells, two of three unprotected, of every kind, mostly blank, and required as often as told. */
static void make_random_page(unsigned rarity)
{
    static const unsigned kinds[] = {0, PANEL_MARK_NUMERIC, PANEL_MARK_ALPHABETIC};
    for (size_t cell = 0, left = 0; cell < cells; cell++, left--) {
        static unsigned mark;
        if (left == 0) {
            left = 1 + below(5);
            mark = below(3) == 0 ? PANEL_MARK_PROTECTED : kinds[below(3)];
        }
        put_mark(cell, mark);
        if (!(mark & PANEL_MARK_PROTECTED) && below(rarity) == 0)
            add_mark(cell, PANEL_MARK_REQUIRED);
        if (!(mark & PANEL_MARK_PROTECTED) && below(8) == 0)
            add_mark(cell, PANEL_MARK_MODIFIED);
        characters[cell] = (uint8_t)(below(3) != 0 ? ' ' : '!' + below(94));
    }
}

static void try_random_pages(void)
{
    static const unsigned rarities[] = {3, 30, 300, 3000};
    for (int size = 0; size < 9; size++) {
        start(page_rows[size / 3], page_columns[size % 3]);
        for (int i = 0; i < 40; i++) {
            make_random_page(rarities[i % 4]);
            try_send("a random page", is_held_back());
        }
    }
}

/* -- a form of three fields, the second numeric, with a required cell, and blank */

static const struct field first_field = {2 * 80 + 14, 3}, second_field = {3 * 80 + 14, 4};
static const struct field third_field = {5 * 80 + 14, 86};

/* The first and the third are modified, and the second as told; the cursor is at its start. */
static void make_form(bool whole, bool second_modified)
{
    start(24, 80);
    feed("\033[4;15f");
    record[PANEL_RECORD_FULL] = whole;
    shut_page();
    open_field(first_field, PANEL_MARK_MODIFIED);
    characters[first_field.from] = 'A';
    open_field(second_field, PANEL_MARK_NUMERIC | (second_modified ? PANEL_MARK_MODIFIED : 0));
    add_mark(second_field.from + 1, PANEL_MARK_REQUIRED);
    open_field(third_field, PANEL_MARK_MODIFIED);
}

/* -- rooms */

/* 266 with every room: while the field is blank it is 9, and never 3; filled, it is 3 until the block fits. */
static void try_key_rooms(bool held)
{
    static struct terminal form;
    save(&form);
    make_block(record[PANEL_RECORD_FULL]);
    for (size_t room = 0, needed = block_length; room <= needed + 2; room++) {
        kept.length[OUTPUT] = room;
        send("266 in little room", held ? PANEL_REQUIRED_BLANK : room < needed ? PANEL_NO_ROOM : PANEL_DONE);
        put_back(&form);
    }
    kept.length[OUTPUT] = PANEL_ROOM;
}

/* ESC S with every room: its block has the blank field, and it waits for room alone. */
static void try_host_rooms(void)
{
    static struct terminal form, wanted;
    save(&form);
    make_block(true);
    for (size_t room = 0; room <= block_length + 2; room++) {
        kept.length[OUTPUT] = room;
        want("ESC S in little room", host("\033S", 2), room < block_length ? PANEL_NO_ROOM : PANEL_DONE);
        wanted = form;
        if (room < block_length) {
            wanted.record[PANEL_RECORD_KIND] = PANEL_KIND_AFTER_ESC;
            want_terminal("ESC S without room", &wanted);
            want_untouched_output("ESC S without room");
        } else {
            want_block_sent("ESC S", &wanted);
        }
        put_back(&form);
    }
    kept.length[OUTPUT] = PANEL_ROOM;
}

static void try_rooms(void)
{
    for (int i = 0; i < 4; i++) {
        make_form(i & 1, i & 2);
        try_key_rooms(true);
        try_host_rooms();
        characters[second_field.from + 3] = '.';
        try_key_rooms(false);
        try_host_rooms();
    }
}

/* After ESC S, which is given 0, the field still is blank, and 266 held back: also with nothing modified any more. */
static void try_after_host(void)
{
    static struct terminal before;
    for (int i = 0; i < 4; i++) {
        make_form(i & 1, i & 2);
        save(&before);
        make_block(true);
        feed("\033S");
        want_block_sent("ESC S with a blank required field", &before);
        try_send("266 after ESC S", true);
    }
}

/* -- the order: 1, 2, 4, 5, 7, 8, 9, 3 */

/* The cursor's cell is the required field's first, or a protected one. */
static uint8_t number_of_key(size_t key, bool locked, bool on_protected)
{
    bool is_character = key >= 0x20 && key <= 0x7E;
    bool needs_cell = is_character || (key >= PANEL_KEY_BLANK_FIELD && key <= PANEL_KEY_INSERT);
    if (!is_character && !(key >= PANEL_KEY_UP && key <= PANEL_KEY_SEND) && key != PANEL_KEY_UNLOCK)
        return PANEL_UNKNOWN_KEY;
    if (locked && key != PANEL_KEY_UNLOCK)
        return PANEL_LOCKED;
    if (on_protected && needs_cell)
        return PANEL_NO_CELL;
    if (is_character && strchr(" 0123456789-.", (int)key) == NULL)
        return PANEL_NOT_TAKEN;
    return key == PANEL_KEY_SEND ? PANEL_REQUIRED_BLANK : PANEL_DONE;
}

/* Every key: 9 is for 266 alone, and after 4, 5, 7 and 8. */
static void try_keys(void)
{
    static const char *const locks[] = {"", "\200", "\033`", "\033`\200"};
    static struct terminal form;
    for (int i = 0; i < 32; i++) {
        bool on_protected = i & 4, no_room = i & 8;
        make_form(i & 16, true);
        feed(locks[i % 4]);
        feed(on_protected ? "\033[24;80f" : "");
        kept.length[OUTPUT] = no_room ? 0 : PANEL_ROOM;
        save(&form);
        for (size_t key = 0; key < 300; key++) {
            want("a key while a required field is blank", press(key), number_of_key(key, i % 4 != 0, on_protected));
            put_back(&form);
        }
        want("266 and a far bit", press(PANEL_KEY_SEND + 65536), PANEL_UNKNOWN_KEY);
        kept.length[OUTPUT] = PANEL_ROOM;
    }
}

/* 268 takes the soft lock off, and nothing of what holds the block back. */
static void try_unlocking(void)
{
    make_form(false, true);
    feed("\033[99o");
    send("266 under the soft lock", PANEL_LOCKED);
    want("268", press(PANEL_KEY_UNLOCK), PANEL_DONE);
    send("266 after 268", PANEL_REQUIRED_BLANK);
    feed("\033`");
    send("266 under the manual lock", PANEL_LOCKED);
    feed("\033b");
    send("266 after ESC b", PANEL_REQUIRED_BLANK);
}

/* 266 on the form with something wrong: 2, and with a wrong length too 1. */
static void want_wrong(const char *what, const struct terminal *form)
{
    want(what, press(PANEL_KEY_SEND), PANEL_WRONG_STATE);
    want(what, host("\033S", 2), PANEL_WRONG_STATE);
    kept.length[MARKS]--;
    want(what, press(PANEL_KEY_SEND), PANEL_WRONG_SIZE);
    kept.length[MARKS]++;
    put_back(form);
}

/* Required is never with protected, and bits 10 to 15 are zero, in a cell and in the pen. */
static void try_wrong_marks(void)
{
    static const unsigned wrong[] = {0x0201, 0x0281, 0x0301, 0x0203, 0x0380, 0x0400, 0x0800, 0x1000, 0x2000, 0x4000,
                                     0x8000, 0x0600, 0x8200, 0xFE00};
    static struct terminal form;
    make_form(false, false);
    save(&form);
    for (size_t i = 0; i < sizeof wrong / sizeof *wrong; i++) {
        put_mark(second_field.from, wrong[i]);
        want_wrong("a mark that no cell of the field has", &form);
        put_mark(cells - 1, wrong[i]);
        want_wrong("a mark that the page's last cell doesn't have", &form);
        put_two_bytes(record + PANEL_RECORD_PEN, wrong[i]);
        want_wrong("a mark that the pen doesn't have", &form);
    }
    record[PANEL_RECORD_SOFT] = 2;
    want_wrong("a flag of 2", &form);
    characters[second_field.from] = 0x1F;
    want_wrong("a character of 1F", &form);
    try_send("the form as it was", true);
}

/* -- what keys do to a required field; whatever they are, cells stay required */

/* On the form, one after another: the key, and whether 266 then is held back. */
static const struct {
    size_t key;
    bool held;
} steps[] = {
    {' ', true}, {'4', false}, {PANEL_KEY_LEFT, false}, {' ', true}, {'-', false}, {PANEL_KEY_BLANK_FIELD, true},
    {'.', false}, {PANEL_KEY_LEFT, false}, {PANEL_KEY_DELETE, true}, {PANEL_KEY_RIGHT, true}, {PANEL_KEY_RIGHT, true},
    {PANEL_KEY_RIGHT, true}, {'9', false}, {PANEL_KEY_PREVIOUS_FIELD, false}, {PANEL_KEY_INSERT, true},
    {PANEL_KEY_INSERT, true}, {'0', false}, {PANEL_KEY_INSERT, false}, {PANEL_KEY_LEFT, false},
    {PANEL_KEY_INSERT, false}, {PANEL_KEY_INSERT, false}, {PANEL_KEY_INSERT, false}, {PANEL_KEY_INSERT, true},
    {'5', false}, {PANEL_KEY_FIRST_CELL, false}, {PANEL_KEY_BLANK_FIELD, false},
};

/* All marks but modified are as they were. */
static void want_marks_kept(const struct terminal *before)
{
    for (size_t cell = 0; cell < cells; cell++)
        if ((mark_at(cell) ^ panel_two_bytes(before->marks + 2 * cell)) & ~(unsigned)PANEL_MARK_MODIFIED)
            fault("a key made cell %zu's mark %04X", cell, mark_at(cell));
}

/* A block is sent, or refused, on a copy: what is modified stays so. */
static void try_steps(void)
{
    static struct terminal form;
    make_form(false, false);
    save(&form);
    try_send("266 before any key", true);
    for (size_t i = 0; i < sizeof steps / sizeof *steps; i++) {
        want("a key on the form", press(steps[i].key), PANEL_DONE);
        want_marks_kept(&form);
        if (is_held_back() != steps[i].held)
            fault("after step %zu of the keys the required field is another than this test takes it for", i);
        try_send("266 after a key", steps[i].held);
    }
}

/* A refusal is no block: once the field is filled, what was modified before goes with it. */
static void try_refused_then_sent(void)
{
    static const char sent[] = "\033[3;15fA  \033[4;15f4   \003";
    make_form(false, false);
    open_field(third_field, 0);
    send("266 with the field blank", PANEL_REQUIRED_BLANK);
    want("typed", press('4'), PANEL_DONE);
    send("266 with the field filled", PANEL_DONE);
    if (block_length != sizeof sent - 1 || memcmp(block, sent, block_length) != 0)
        fault("the first block after a refusal lacks a field");
    send("266 once more", PANEL_DONE);
    if (block_length != 1)
        fault("a field was sent though nothing in it was changed");
}

/* -- what makes the pen required, and what takes it off */

/* A command: the area that it gives the pen, required added to it, its visual marks, or that it is refused. */
static const struct command {
    const char *bytes;
    enum { AREA, ADD, VISUAL, REFUSED } sort;
    unsigned mark;
} commands[] = {
    {"\033[0o", AREA, 0},
    {"\033[o", AREA, 0},
    {"\033[1o", AREA, PANEL_MARK_PROTECTED},
    {"\033[3o", AREA, PANEL_MARK_NUMERIC},
    {"\033[4o", AREA, PANEL_MARK_ALPHABETIC},
    {"\033V", AREA, PANEL_MARK_PROTECTED},
    {"\033W", AREA, 0},
    {"\033[20o", ADD, 0},
    {"\033[020o", ADD, 0},
    {"\033[0m", VISUAL, 0},
    {"\033[0;1;8m", VISUAL, PANEL_MARK_BOLD | PANEL_MARK_CONCEALED},
    {"\033[2o", REFUSED, 0},
    {"\033[20;20o", REFUSED, 0},
};
enum { COMMANDS = sizeof commands / sizeof *commands };

/* The record after a command. "With a protected pen the command is refused": as an argument that is not allowed. */
static void do_command(const struct command *command, uint8_t *wanted)
{
    const unsigned visual = 0x7C;
    unsigned pen = panel_two_bytes(wanted + PANEL_RECORD_PEN);
    if (command->sort == AREA) {
        pen = (pen & visual) | command->mark;
    } else if (command->sort == ADD && !(pen & PANEL_MARK_PROTECTED)) {
        pen |= PANEL_MARK_REQUIRED;
    } else if (command->sort == VISUAL) {
        pen = (pen & ~visual) | command->mark;
    } else {
        wanted[PANEL_RECORD_SOFT] = 1;
        wanted[PANEL_RECORD_MESSAGE] = PANEL_MESSAGE_WRONG_ARGUMENTS;
        wanted[PANEL_RECORD_BYTE] = 'o';
    }
    put_two_bytes(wanted + PANEL_RECORD_PEN, pen);
}

/* Three commands, one after another, and a character, which is stored with the pen. */
static void try_three(const struct terminal *fresh, int first, int second, int third)
{
    const int three[] = {first, second, third};
    struct terminal wanted = *fresh;
    put_back(fresh);
    for (int i = 0; i < 3; i++) {
        static char what[32];
        sprintf(what, "after ESC %s", commands[three[i]].bytes + 1);
        feed(commands[three[i]].bytes);
        do_command(&commands[three[i]], wanted.record);
        want_record(what, wanted.record);
    }
    feed("x");
    wanted.record[PANEL_RECORD_COLUMN] = 2;
    wanted.characters[0] = 'x';
    memcpy(wanted.marks, wanted.record + PANEL_RECORD_PEN, 2);
    want_terminal("a character from the host", &wanted);
}

static void try_commands(void)
{
    static struct terminal fresh;
    start(24, 80);
    save(&fresh);
    for (int i = 0; i < COMMANDS * COMMANDS * COMMANDS; i++)
        try_three(&fresh, i / (COMMANDS * COMMANDS), i / COMMANDS % COMMANDS, i % COMMANDS);
}

/* Forms that are read by their value or refused: the pen, the message and its byte. */
static const struct {
    const char *fed;
    unsigned pen;
    uint8_t message;
    char byte;
} tried_forms[] = {
    {"\033[20o", 0x200, 0, 0},
    {"\033[0000000000020o", 0x200, 0, 0},
    {"\033[20o\033[20o", 0x200, 0, 0},
    {"\033[3o\033[20o\033[1;4;5;7;8m", 0x2FC, 0, 0},
    {"\033[20o\033[3o", 0x080, 0, 0},
    {"\033[4o\033[20o\033[99m", 0x300, 2, 'm'},
    {"\033[20o\033c", 0, 0, 0},
    {"\033[20;o", 0, 2, 'o'},
    {"\033[;20o", 0, 2, 'o'},
    {"\033[0;20o", 0, 2, 'o'},
    {"\033[3;20o", 0, 2, 'o'},
    {"\033[2;0o", 0, 2, 'o'},
    {"\033[5o", 0, 2, 'o'},
    {"\033[19o", 0, 2, 'o'},
    {"\033[21o", 0, 2, 'o'},
    {"\033[23o", 0, 2, 'o'},
    {"\033[200o", 0, 2, 'o'},
    {"\033[276o", 0, 2, 'o'},
    {"\033[9999o", 0, 2, 'o'},
    {"\033V\033[20o", 0x001, 2, 'o'},
    {"\033[10020o", 0, 3, 'o'},
    {"\033[>20o", 0, 3, 'o'},
    {"\033[?20o", 0, 3, 'o'},
    {"\033[20 o", 0, 3, 'o'},
    {"\033[20\r", 0, 3, '\r'},
    {"\033[20\200", 0, 4, '\200'},
    {"\033[20\030", 0, 0, 0},
    {"\033[20\033[3o", 0x080, 0, 0},
};

static void want_form(size_t i)
{
    if (panel_two_bytes(record + PANEL_RECORD_PEN) != tried_forms[i].pen)
        fault("form %zu: the pen is %04X, wanted %04X", i, (unsigned)panel_two_bytes(record + PANEL_RECORD_PEN),
              tried_forms[i].pen);
    if (record[PANEL_RECORD_MESSAGE] != tried_forms[i].message ||
        record[PANEL_RECORD_BYTE] != (uint8_t)tried_forms[i].byte ||
        record[PANEL_RECORD_SOFT] != (tried_forms[i].message != 0))
        fault("form %zu: message %d, byte %02X", i, record[PANEL_RECORD_MESSAGE], (unsigned)record[PANEL_RECORD_BYTE]);
}

/* Each in one call, and a byte a call. */
static void try_forms(void)
{
    for (size_t i = 0; i < sizeof tried_forms / sizeof *tried_forms; i++) {
        start(24, 80);
        feed(tried_forms[i].fed);
        want_form(i);
        start(24, 80);
        for (const char *at = tried_forms[i].fed; *at; at++)
            want("a byte from the host", host(at, 1), PANEL_DONE);
        want_form(i);
    }
}

/* -- what the host does to required cells */

#define BLANK "\033[20o  \033V.\033W" /* a field of two required cells, blank, before a plain one */

/* On a fresh page: host bytes, whether 266 then is held back, and the mark of a cell. */
static const struct {
    const char *fed;
    bool held;
    size_t cell;
    unsigned mark;
} paintings[] = {
    {BLANK, true, 1, 0x200},
    {BLANK "x", true, 0, 0x200},
    /* text stores the pen's marks: required or not, blank or not */
    {BLANK "\033[H\033[20o \033[0o ", true, 0, 0x200},
    {BLANK "\033[H\033[0o \033[20o ", true, 1, 0x200},
    {BLANK "\033[H\033[0o  ", false, 1, 0},
    {BLANK "\033[H\033[3o  ", false, 1, 0x080},
    {BLANK "\033[H\033[3o\033[20o  ", true, 1, 0x280},
    {BLANK "\033[H\033[4o\033[20o \033V.", true, 0, 0x300},
    {BLANK "\033[H\033[0ox", false, 1, 0x200},
    {BLANK "\033[1;2f\033[20ox", false, 1, 0x200},
    {BLANK "\033[H\033V..", false, 0, 0x001},
    {BLANK "\033[H\033V.", true, 1, 0x200},
    /* fields that are joined and divided */
    {BLANK "x\033V.\033[1;3f\033W ", false, 0, 0x200},
    {BLANK " \033V.\033[1;3f\033W ", true, 0, 0x200},
    {"\033[20o  \033Wx\033[1;3f\033V.", true, 0, 0x200},
    {"\033[20o  \033W x\033[1;3f\033V.", true, 0, 0x200},
    {"\033[20o  \033W x", false, 0, 0x200},
    /* erased cells are not required */
    {BLANK "\033[2J", false, 0, 0},
    {BLANK "\033[H\033[J", false, 0, 0},
    {BLANK "\033[H\033[K", false, 1, 0},
    {BLANK "\033[1;2f\033[K", true, 0, 0x200},
    {BLANK "\033[1;2f\033[K", true, 1, 0},
    {BLANK "\033[H\033[1K", true, 0, 0},
    {BLANK "\033[H\033[1K", true, 1, 0x200},
    {BLANK "\033[1;2f\033[1J", false, 1, 0},
    {BLANK "\033[20o\033[2K", false, 0, 0},
    {BLANK "\033[6h\033[1;3f\033[K", true, 2, 0},
    /* scrolls carry required along, and bring in cells that are not */
    {BLANK "\033[24;1f\033D", false, 0, 0},
    {BLANK "\033[20o\033[24;1f\n", false, 1919, 0},
    {BLANK "\033[H\033M", true, 80, 0x200},
    {BLANK "\033[20o\033[H\033M", true, 0, 0},
    {"\033[2;1f" BLANK "\033[24;1f\033E", true, 1, 0x200},
    {"\033[24;1f" BLANK "\033[H\033M", false, 1840, 0},
    {"\033[24;1f" BLANK "\033[24;1f\033D", true, 1760, 0x200},
    /* a field over the row's end; one that ends with the page, and goes on in no first row */
    {"\033[1;79f\033V.\033W" BLANK, true, 80, 0x200},
    {"\033[24;79f\033V.\033W\033[20o \033Vx", true, 1919, 0x200},
    {"\033[24;79f\033V.\033W\033[20o \033Wx", true, 1919, 0x200},
    {BLANK "\033c", false, 0, 0},
};

static void try_paintings(void)
{
    for (size_t i = 0; i < sizeof paintings / sizeof *paintings; i++) {
        start(24, 80);
        feed(paintings[i].fed);
        if (mark_at(paintings[i].cell) != paintings[i].mark)
            fault("painting %zu: cell %zu has mark %04X, wanted %04X", i, paintings[i].cell, mark_at(paintings[i].cell),
                  paintings[i].mark);
        if (is_held_back() != paintings[i].held)
            fault("painting %zu: a required field is %s", i, paintings[i].held ? "not blank" : "blank");
        try_send("266 on what the host painted", paintings[i].held);
    }
}

int main(void)
{
    prepare();
    try_fields();
    try_characters();
    try_several();
    try_random_pages();
    try_rooms();
    try_after_host();
    try_keys();
    try_unlocking();
    try_wrong_marks();
    try_steps();
    try_refused_then_sent();
    try_commands();
    try_forms();
    try_paintings();
    want_clean_output();
    printf("%ld calls, each twice, did what they should: %ld were given 9, and %ld sent a block\n", calls, held_back,
           blocks);
    return 0;
}
