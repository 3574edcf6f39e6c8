#include "plain.h"

#include <string.h>

enum { DONE, WRONG_SIZE, WRONG_STATE, NO_ROOM, UNKNOWN_KEY, LOCKED, TOO_LONG, NO_CELL, NOT_TAKEN, REQUIRED_BLANK };
enum { NO_MESSAGE, UNKNOWN_COMMAND, WRONG_ARGUMENTS, BROKEN_SEQUENCE, HIGH_BYTE };
enum { PROTECTED = 1, MODIFIED = 2, VISUAL = 0x7C, NUMERIC = 0x80, ALPHABETIC = 0x100, REQUIRED = 0x200 };
enum { AREA = PROTECTED | NUMERIC | ALPHABETIC | REQUIRED };
enum { BS = 0x08, TAB = 0x09, LF = 0x0A, CR = 0x0D, CAN = 0x18, SUB = 0x1A, ESC = 0x1B, DEL = 0x7F, ETX = 0x03 };
enum {
    UP = 256,
    DOWN,
    LEFT,
    RIGHT,
    NEXT_FIELD,
    PREVIOUS_FIELD,
    FIRST_CELL,
    BLANK_FIELD,
    DELETE,
    INSERT,
    SEND,
    UNLOCK = 268 /* 267 is no key */
};

/* A call under way: where its output goes and what it has done so far. */
struct call {
    struct plain *t;
    uint8_t *output;
    size_t room, sent;
    uint32_t stored;
};

static bool listed_size(size_t rows, size_t columns)
{
    return (rows == 24 || rows == 27 || rows == 48) && (columns == 80 || columns == 132 || columns == 160);
}

static unsigned cells(const struct plain *t)
{
    return (unsigned)t->rows * t->columns;
}

static unsigned cursor(const struct plain *t)
{
    return (unsigned)t->row * t->columns + t->column;
}

static bool is_protected(const struct plain *t, unsigned cell)
{
    return t->marks[cell] & PROTECTED;
}

/* -- the page */

static void blank(struct plain *t, unsigned from, unsigned length)
{
    memset(t->characters + from, ' ', length);
    memset(t->marks + from, 0, length * sizeof *t->marks);
}

static void fresh(struct call *c)
{
    struct plain *t = c->t;
    uint16_t rows = t->rows, columns = t->columns;
    memset(t, 0, offsetof(struct plain, characters));
    t->rows = rows;
    t->columns = columns;
    blank(t, 0, cells(t));
    c->stored += cells(t);
}

static void scroll_up(struct call *c)
{
    struct plain *t = c->t;
    unsigned moved = cells(t) - t->columns;
    memmove(t->characters, t->characters + t->columns, moved);
    memmove(t->marks, t->marks + t->columns, moved * sizeof *t->marks);
    blank(t, moved, t->columns);
    c->stored += cells(t);
}

static void scroll_down(struct call *c)
{
    struct plain *t = c->t;
    unsigned moved = cells(t) - t->columns;
    memmove(t->characters + t->columns, t->characters, moved);
    memmove(t->marks + t->columns, t->marks, moved * sizeof *t->marks);
    blank(t, 0, t->columns);
    c->stored += cells(t);
}

static void erase(struct call *c, unsigned from, unsigned to)
{
    struct plain *t = c->t;
    for (unsigned cell = from; cell < to; cell++) {
        if (t->erasure || !is_protected(t, cell)) {
            t->characters[cell] = ' ';
            t->marks[cell] = 0;
            c->stored++;
        }
    }
}

/* -- the cursor */

/* the next cell, from the last one the first */
static void step_on(struct plain *t)
{
    if (++t->column == t->columns) {
        t->column = 0;
        if (++t->row == t->rows)
            t->row = 0;
    }
}

static void go_to_cell(struct plain *t, unsigned cell)
{
    t->row = 0;
    while (cell >= t->columns) {
        cell -= t->columns;
        t->row++;
    }
    t->column = (uint16_t)cell;
}

static void go_up(struct plain *t, unsigned n)
{
    t->row = n < t->row ? (uint16_t)(t->row - n) : 0;
}

static void go_down(struct plain *t, unsigned n)
{
    t->row = t->row + n < t->rows ? (uint16_t)(t->row + n) : (uint16_t)(t->rows - 1);
}

static void go_left(struct plain *t, unsigned n)
{
    t->column = n < t->column ? (uint16_t)(t->column - n) : 0;
}

static void go_right(struct plain *t, unsigned n)
{
    t->column = t->column + n < t->columns ? (uint16_t)(t->column + n) : (uint16_t)(t->columns - 1);
}

static void index_down(struct call *c)
{
    if (c->t->row + 1 < c->t->rows)
        c->t->row++;
    else
        scroll_up(c);
}

static void index_up(struct call *c)
{
    if (c->t->row > 0)
        c->t->row--;
    else
        scroll_down(c);
}

static void tab_on(struct plain *t, unsigned n)
{
    unsigned column = t->column;
    while (n > 0 && column + 1 < t->columns)
        if (t->stops[++column])
            n--;
    t->column = (uint16_t)column;
}

static void tab_back(struct plain *t, unsigned n)
{
    unsigned column = t->column;
    while (n > 0 && column > 0)
        if (t->stops[--column])
            n--;
    t->column = (uint16_t)column;
}

/* -- fields: a field is a longest run of unprotected cells in page order */

static bool starts_field(const struct plain *t, unsigned cell)
{
    return !is_protected(t, cell) && (cell == 0 || is_protected(t, cell - 1));
}

static unsigned field_start(const struct plain *t, unsigned cell)
{
    while (cell > 0 && !is_protected(t, cell - 1))
        cell--;
    return cell;
}

/* the cell after its last */
static unsigned field_end(const struct plain *t, unsigned cell)
{
    unsigned all = cells(t);
    while (cell < all && !is_protected(t, cell))
        cell++;
    return cell;
}

/* -- what is sent */

static unsigned digits(unsigned number)
{
    return number < 10 ? 1 : number < 100 ? 2 : 3;
}

/* The small panel has no divide instruction: hundreds and tens are taken off one by one. */
static uint8_t *put_number(uint8_t *at, unsigned number)
{
    unsigned length = digits(number);
    uint8_t hundreds = '0', tens = '0';
    for (; number >= 100; number -= 100)
        hundreds++;
    for (; number >= 10; number -= 10)
        tens++;
    if (length == 3)
        *at++ = hundreds;
    if (length >= 2)
        *at++ = tens;
    *at++ = (uint8_t)('0' + number);
    return at;
}

/* ESC [ row ; column and a final byte; rows and columns from 0 on */
static uint8_t *put_place(uint8_t *at, unsigned row, unsigned column, char final)
{
    *at++ = ESC;
    *at++ = '[';
    at = put_number(at, row + 1);
    *at++ = ';';
    at = put_number(at, column + 1);
    *at++ = (uint8_t)final;
    return at;
}

/* A field: where it starts and ends, and every mark that any of its cells has. */
struct field {
    unsigned row, column, from, to, marks;
};

/* The next field of the page, from field->to on; false if there is none. Row and column are counted along. */
static bool next_on_page(const struct plain *t, struct field *field)
{
    unsigned all = cells(t), from = field->to;
    while (from < all && is_protected(t, from))
        from++;
    if (from == all)
        return false;
    unsigned to = from, marks = 0;
    while (to < all && !is_protected(t, to))
        marks |= t->marks[to++];
    unsigned row = field->row, column = field->column + (from - field->from);
    for (; column >= t->columns; column -= t->columns)
        row++;
    *field = (struct field){row, column, from, to, marks};
    return true;
}

static bool is_in_block(const struct field *field, bool changed_only)
{
    return !changed_only || field->marks & MODIFIED;
}

/* whether the field has a required cell, and nothing but blanks in all its cells */
static bool is_required_blank(const struct plain *t, const struct field *field)
{
    if (!(field->marks & REQUIRED))
        return false;
    for (unsigned cell = field->from; cell < field->to; cell++)
        if (t->characters[cell] != ' ')
            return false;
    return true;
}

/* A block to be sent, and whether a required field of the page, be it in the block or not, is blank. */
struct block {
    size_t length;
    bool changed_only, required_blank;
};

static struct block measure_block(const struct plain *t, bool changed_only)
{
    struct block block = {1, changed_only, false};
    struct field field = {0, 0, 0, 0, 0};
    while (next_on_page(t, &field)) {
        if (is_required_blank(t, &field))
            block.required_blank = true;
        if (is_in_block(&field, changed_only))
            block.length += 4 + digits(field.row + 1) + digits(field.column + 1) + (field.to - field.from);
    }
    return block;
}

/* A field that isn't in the block has no modified cell. */
static bool send_block(struct call *c, struct block block)
{
    struct plain *t = c->t;
    if (block.length > c->room - c->sent)
        return false;
    uint8_t *at = c->output + c->sent;
    struct field field = {0, 0, 0, 0, 0};
    while (next_on_page(t, &field)) {
        if (!is_in_block(&field, block.changed_only))
            continue;
        at = put_place(at, field.row, field.column, 'f');
        memcpy(at, t->characters + field.from, field.to - field.from);
        at += field.to - field.from;
        for (unsigned cell = field.from; cell < field.to; cell++)
            t->marks[cell] &= (uint16_t)~MODIFIED;
    }
    *at = ETX;
    c->sent += block.length;
    return true;
}

static bool send_bytes(struct call *c, const uint8_t *bytes, size_t length)
{
    if (length > c->room - c->sent)
        return false;
    memcpy(c->output + c->sent, bytes, length);
    c->sent += length;
    return true;
}

static bool send_report(struct call *c, unsigned which)
{
    uint8_t report[16];
    if (which == 5)
        return send_bytes(c, (const uint8_t *)"\033[0n", 4);
    return send_bytes(c, report, (size_t)(put_place(report, c->t->row, c->t->column, 'R') - report));
}

/* -- commands of the host; false is for want of room */

static void refuse(struct plain *t, uint8_t message, uint8_t byte)
{
    t->soft = true;
    t->message = message;
    t->refused_at = byte;
}

static void unlock(struct plain *t)
{
    t->soft = false;
    t->message = NO_MESSAGE;
    t->refused_at = 0;
}

/* The areas: unprotected (0), PROTECTED, NUMERIC and ALPHABETIC; each takes the place of the one before, and takes
   REQUIRED off. */
static void set_area(struct plain *t, unsigned area)
{
    t->pen = (uint16_t)((t->pen & ~(unsigned)AREA) | area);
}

static bool escape_command(struct call *c, uint8_t byte)
{
    struct plain *t = c->t;
    switch (byte) {
    case 'D':
        index_down(c);
        break;
    case 'E':
        index_down(c);
        t->column = 0;
        break;
    case 'M':
        index_up(c);
        break;
    case 'H':
        t->stops[t->column] = true;
        break;
    case 'V':
        set_area(t, PROTECTED);
        break;
    case 'W':
        set_area(t, 0);
        break;
    case 'S':
        return send_block(c, measure_block(t, false));
    case 'c':
        fresh(c);
        break;
    case '`':
        t->manual = true;
        break;
    case 'b':
        t->manual = false;
        unlock(t);
        break;
    default:
        refuse(t, UNKNOWN_COMMAND, byte);
    }
    return true;
}

/* How many arguments a command may have; 0 for one that isn't listed. */
static unsigned most_arguments(uint8_t final)
{
    switch (final) {
    case 'A': case 'B': case 'C': case 'D': case 'E': case 'F': case 'G': case 'd':
    case 'I': case 'Z': case 'W': case 'J': case 'K': case 'n': case 'o':
        return 1;
    case 'H': case 'f':
        return 2;
    case 'm': case 'h': case 'l':
        return 8;
    default:
        return 0;
    }
}

/* rows and columns from 1 on; false if off the page */
static bool go_to(struct plain *t, unsigned row, unsigned column)
{
    if (row > t->rows || column > t->columns)
        return false;
    t->row = (uint16_t)(row - 1);
    t->column = (uint16_t)(column - 1);
    return true;
}

static bool erase_page(struct call *c, unsigned which)
{
    unsigned here = cursor(c->t);
    switch (which) {
    case 0:
        erase(c, here, cells(c->t));
        return true;
    case 1:
        erase(c, 0, here + 1);
        return true;
    case 2:
        erase(c, 0, cells(c->t));
        return true;
    default:
        return false;
    }
}

static bool erase_row(struct call *c, unsigned which)
{
    unsigned here = cursor(c->t), start = here - c->t->column;
    switch (which) {
    case 0:
        erase(c, here, start + c->t->columns);
        return true;
    case 1:
        erase(c, start, here + 1);
        return true;
    case 2:
        erase(c, start, start + c->t->columns);
        return true;
    default:
        return false;
    }
}

static bool change_stops(struct plain *t, unsigned which)
{
    switch (which) {
    case 0:
        t->stops[t->column] = true;
        return true;
    case 2:
        t->stops[t->column] = false;
        return true;
    case 5:
        memset(t->stops, 0, sizeof t->stops);
        return true;
    default:
        return false;
    }
}

/* The values act only after all of them were found good. */
static bool change_pen(struct plain *t)
{
    uint16_t pen = t->pen;
    for (unsigned i = 0; i < t->count; i++) {
        switch (t->arguments[i]) {
        case 0:
            pen &= (uint16_t)~VISUAL;
            break;
        case 1:
            pen |= 1 << 2;
            break;
        case 4:
            pen |= 1 << 3;
            break;
        case 5:
            pen |= 1 << 4;
            break;
        case 7:
            pen |= 1 << 5;
            break;
        case 8:
            pen |= 1 << 6;
            break;
        default:
            return false;
        }
    }
    t->pen = pen;
    return true;
}

/* REQUIRED comes beside any area but PROTECTED; false beside that */
static bool add_required(struct plain *t)
{
    if (t->pen & PROTECTED)
        return false;
    t->pen |= REQUIRED;
    return true;
}

static bool change_area(struct plain *t, unsigned which)
{
    switch (which) {
    case 0:
        set_area(t, 0);
        return true;
    case 1:
        set_area(t, PROTECTED);
        return true;
    case 3:
        set_area(t, NUMERIC);
        return true;
    case 4:
        set_area(t, ALPHABETIC);
        return true;
    case 20:
        return add_required(t);
    default:
        return false;
    }
}

static bool change_mode(struct plain *t, bool set)
{
    for (unsigned i = 0; i < t->count; i++)
        if (t->arguments[i] != 6)
            return false;
    t->erasure = set;
    return true;
}

/* false if an argument is not allowed */
static bool do_command(struct call *c, uint8_t final)
{
    struct plain *t = c->t;
    unsigned first = t->arguments[0], second = t->arguments[1];
    unsigned n = first ? first : 1, m = second ? second : 1;
    switch (final) {
    case 'A':
        go_up(t, n);
        return true;
    case 'B':
        go_down(t, n);
        return true;
    case 'C':
        go_right(t, n);
        return true;
    case 'D':
        go_left(t, n);
        return true;
    case 'E':
        go_down(t, n);
        t->column = 0;
        return true;
    case 'F':
        go_up(t, n);
        t->column = 0;
        return true;
    case 'G':
        if (n <= t->columns)
            t->column = (uint16_t)(n - 1);
        return true;
    case 'd':
        return go_to(t, n, t->column + 1u);
    case 'H':
        return go_to(t, n, m);
    case 'f':
        return go_to(t, n, first > 0 && second == 0 ? t->column + 1u : m);
    case 'I':
        tab_on(t, n);
        return true;
    case 'Z':
        tab_back(t, n);
        return true;
    case 'W':
        return change_stops(t, first);
    case 'J':
        return erase_page(c, first);
    case 'K':
        return erase_row(c, first);
    case 'm':
        return change_pen(t);
    case 'o':
        return change_area(t, first);
    default:
        return change_mode(t, final == 'h');
    }
}

static bool bracket_command(struct call *c, uint8_t final)
{
    struct plain *t = c->t;
    unsigned most = most_arguments(final);
    if (t->spoilt)
        refuse(t, BROKEN_SEQUENCE, final);
    else if (most == 0)
        refuse(t, UNKNOWN_COMMAND, final);
    else if (t->count > most)
        refuse(t, WRONG_ARGUMENTS, final);
    else if (final == 'n' && (t->arguments[0] == 5 || t->arguments[0] == 6))
        return send_report(c, t->arguments[0]);
    else if (final == 'n' || !do_command(c, final))
        refuse(t, WRONG_ARGUMENTS, final);
    return true;
}

/* ESC [ > 6 h and l are the one private command there is: any other form counts as spoilt. */
static void private_command(struct plain *t, uint8_t final)
{
    if (t->arguments[0] == 6 && (final == 'h' || final == 'l'))
        t->full = final == 'l';
    else
        refuse(t, BROKEN_SEQUENCE, final);
}

/* -- reading host bytes */

static void drop_sequence(struct plain *t)
{
    t->kind = PLAIN_OUTSIDE;
    t->spoilt = false;
    t->count = 0;
    memset(t->arguments, 0, sizeof t->arguments);
}

/* a spoilt sequence is one after ESC [, however it began */
static void spoil(struct plain *t)
{
    t->kind = PLAIN_AFTER_BRACKET;
    t->spoilt = true;
    t->count = 1;
    memset(t->arguments, 0, sizeof t->arguments);
}

static void store_text(struct call *c, uint8_t byte)
{
    struct plain *t = c->t;
    unsigned cell = cursor(t);
    t->characters[cell] = byte;
    t->marks[cell] = t->pen;
    c->stored++;
    step_on(t);
}

static void control_byte(struct call *c, uint8_t byte)
{
    switch (byte) {
    case BS:
        go_left(c->t, 1);
        break;
    case TAB:
        tab_on(c->t, 1);
        break;
    case LF:
        index_down(c);
        break;
    case CR:
        c->t->column = 0;
        break;
    }
}

static bool outside_byte(struct call *c, uint8_t byte)
{
    if (byte >= ' ' && byte < DEL)
        store_text(c, byte);
    else if (byte == ESC)
        c->t->kind = PLAIN_AFTER_ESC;
    else if (byte >= 0x80)
        refuse(c->t, HIGH_BYTE, byte);
    else
        control_byte(c, byte);
    return true;
}

static bool after_escape(struct call *c, uint8_t byte)
{
    if (byte == '[') {
        c->t->kind = PLAIN_BRACKET_ALONE;
        c->t->count = 1;
        return true;
    }
    if (byte < 0x30) {
        c->t->kind = PLAIN_AFTER_INTERMEDIATE;
        return true;
    }
    if (!escape_command(c, byte))
        return false;
    c->t->kind = PLAIN_OUTSIDE;
    return true;
}

static bool after_intermediate(struct call *c, uint8_t byte)
{
    if (byte >= 0x30) {
        refuse(c->t, UNKNOWN_COMMAND, byte);
        c->t->kind = PLAIN_OUTSIDE;
    }
    return true;
}

static bool is_digit(uint8_t byte)
{
    return byte >= '0' && byte <= '9';
}

static void digit(struct plain *t, uint8_t byte)
{
    unsigned number = t->arguments[t->count - 1] * 10u + byte - '0';
    if (number > 9999)
        spoil(t);
    else
        t->arguments[t->count - 1] = (uint16_t)number;
}

static bool after_bracket(struct call *c, uint8_t byte)
{
    struct plain *t = c->t;
    if (byte >= 0x40) {
        if (!bracket_command(c, byte))
            return false;
        drop_sequence(t);
    } else if (t->spoilt) {
        return true;
    } else if (is_digit(byte)) {
        digit(t, byte);
    } else if (byte == ';' && t->count < PLAIN_MOST_ARGUMENTS) {
        t->count++;
    } else {
        spoil(t);
    }
    return true;
}

/* The first byte after ESC [ decides what it is. No command without arguments sends: the byte is always taken. */
static void begin_arguments(struct plain *t, uint8_t byte)
{
    t->kind = byte == '>' ? PLAIN_AFTER_PRIVATE_MARK : PLAIN_AFTER_BRACKET;
}

static bool after_private_mark(struct plain *t, uint8_t byte)
{
    if (byte >= 0x40) {
        private_command(t, byte);
        drop_sequence(t);
    } else if (is_digit(byte)) {
        digit(t, byte);
    } else {
        spoil(t);
    }
    return true;
}

/* a byte that ends the half-read sequence without a command */
static void break_off(struct plain *t, uint8_t byte)
{
    drop_sequence(t);
    if (byte == ESC)
        t->kind = PLAIN_AFTER_ESC;
    else if (byte >= 0x80)
        refuse(t, HIGH_BYTE, byte);
    else if (byte != CAN && byte != SUB)
        refuse(t, BROKEN_SEQUENCE, byte);
}

/* false if what the byte asks for doesn't fit: it isn't taken then */
static bool host_byte(struct call *c, uint8_t byte)
{
    if (c->t->kind == PLAIN_OUTSIDE)
        return outside_byte(c, byte);
    if (byte < ' ' || byte >= DEL) {
        break_off(c->t, byte);
        return true;
    }
    switch (c->t->kind) {
    case PLAIN_AFTER_ESC:
        return after_escape(c, byte);
    case PLAIN_AFTER_INTERMEDIATE:
        return after_intermediate(c, byte);
    case PLAIN_AFTER_PRIVATE_MARK:
        return after_private_mark(c->t, byte);
    case PLAIN_BRACKET_ALONE:
        begin_arguments(c->t, byte);
        if (byte == '>')
            return true;
        break;
    }
    return after_bracket(c, byte);
}

/* -- what a cell takes from a key; the host's text isn't asked */

static bool is_numeric(uint8_t character)
{
    return (character >= '0' && character <= '9') || character == '-' || character == '.';
}

static bool is_alphabetic(uint8_t character)
{
    return (character >= 'A' && character <= 'Z') || (character >= 'a' && character <= 'z') || character == '-' ||
           character == '.';
}

/* a blank is taken everywhere */
static bool takes(const struct plain *t, unsigned cell, uint8_t character)
{
    if (character == ' ')
        return true;
    if (t->marks[cell] & NUMERIC)
        return is_numeric(character);
    return !(t->marks[cell] & ALPHABETIC) || is_alphabetic(character);
}

/* whether the cells from this one on take these characters, each its own */
static bool take_all(const struct plain *t, unsigned from, unsigned length, const uint8_t *characters)
{
    for (unsigned i = 0; i < length; i++)
        if (!takes(t, from + i, characters[i]))
            return false;
    return true;
}

/* the cursor's character goes, and a blank comes in at the field's end: neither is asked for */
static bool can_delete(const struct plain *t)
{
    unsigned here = cursor(t), moved = field_end(t, here) - here - 1;
    return take_all(t, here, moved, t->characters + here + 1);
}

/* the field's last character goes, and a blank comes in at the cursor */
static bool can_insert(const struct plain *t)
{
    unsigned here = cursor(t), moved = field_end(t, here) - here - 1;
    return take_all(t, here + 1, moved, t->characters + here);
}

/* -- keys; each is called only where it has a cell, and its cells take what it brings */

static void type(struct call *c, uint8_t character)
{
    struct plain *t = c->t;
    unsigned cell = cursor(t);
    t->characters[cell] = character;
    t->marks[cell] |= MODIFIED;
    c->stored++;
    do
        step_on(t);
    while (is_protected(t, cursor(t)));
}

static bool next_field(struct plain *t)
{
    unsigned all = cells(t), here = cursor(t);
    for (unsigned cell = here + 1; cell < all; cell++)
        if (starts_field(t, cell)) {
            go_to_cell(t, cell);
            return true;
        }
    for (unsigned cell = 0; cell <= here; cell++)
        if (starts_field(t, cell)) {
            go_to_cell(t, cell);
            return true;
        }
    return false;
}

static bool previous_field(struct plain *t)
{
    unsigned all = cells(t), here = cursor(t);
    for (unsigned cell = here; cell > 0; cell--)
        if (starts_field(t, cell - 1)) {
            go_to_cell(t, cell - 1);
            return true;
        }
    for (unsigned cell = all; cell > here; cell--)
        if (starts_field(t, cell - 1)) {
            go_to_cell(t, cell - 1);
            return true;
        }
    return false;
}

static void first_cell(struct plain *t)
{
    unsigned all = cells(t), cell = 0;
    while (cell < all && is_protected(t, cell))
        cell++;
    go_to_cell(t, cell < all ? cell : 0);
}

static void set_modified(struct call *c, unsigned from, unsigned to)
{
    for (unsigned cell = from; cell < to; cell++)
        c->t->marks[cell] |= MODIFIED;
    c->stored += to - from;
}

static void blank_field(struct call *c)
{
    struct plain *t = c->t;
    unsigned from = field_start(t, cursor(t)), to = field_end(t, cursor(t));
    memset(t->characters + from, ' ', to - from);
    set_modified(c, from, to);
    go_to_cell(t, from);
}

static void delete_character(struct call *c)
{
    struct plain *t = c->t;
    unsigned from = cursor(t), to = field_end(t, from);
    memmove(t->characters + from, t->characters + from + 1, to - from - 1);
    t->characters[to - 1] = ' ';
    set_modified(c, from, to);
}

static void insert_blank(struct call *c)
{
    struct plain *t = c->t;
    unsigned from = cursor(t), to = field_end(t, from);
    memmove(t->characters + from + 1, t->characters + from, to - from - 1);
    t->characters[from] = ' ';
    set_modified(c, from, to);
}

static bool is_character(size_t key)
{
    return key >= ' ' && key < DEL;
}

static bool is_known(size_t key)
{
    return is_character(key) || (key >= UP && key <= SEND) || key == UNLOCK;
}

static bool is_taken(const struct plain *t, size_t key)
{
    switch (key) {
    case DELETE:
        return can_delete(t);
    case INSERT:
        return can_insert(t);
    default:
        return !is_character(key) || takes(t, cursor(t), (uint8_t)key);
    }
}

/* a blank required field holds the block back before its room is looked at */
static uint32_t send_key(struct call *c)
{
    struct block block = measure_block(c->t, !c->t->full);
    if (block.required_blank)
        return REQUIRED_BLANK;
    return send_block(c, block) ? DONE : NO_ROOM;
}

static uint32_t do_key(struct call *c, size_t key)
{
    struct plain *t = c->t;
    if (!is_known(key))
        return UNKNOWN_KEY;
    if ((t->manual || t->soft) && key != UNLOCK)
        return LOCKED;
    if ((is_character(key) || (key >= BLANK_FIELD && key <= INSERT)) && is_protected(t, cursor(t)))
        return NO_CELL;
    if (!is_taken(t, key))
        return NOT_TAKEN;
    switch (key) {
    case UP:
        go_up(t, 1);
        break;
    case DOWN:
        go_down(t, 1);
        break;
    case LEFT:
        go_left(t, 1);
        break;
    case RIGHT:
        go_right(t, 1);
        break;
    case NEXT_FIELD:
        return next_field(t) ? DONE : NO_CELL;
    case PREVIOUS_FIELD:
        return previous_field(t) ? DONE : NO_CELL;
    case FIRST_CELL:
        first_cell(t);
        break;
    case BLANK_FIELD:
        blank_field(c);
        break;
    case DELETE:
        delete_character(c);
        break;
    case INSERT:
        insert_blank(c);
        break;
    case SEND:
        return send_key(c);
    case UNLOCK:
        unlock(t);
        break;
    default:
        type(c, (uint8_t)key);
    }
    return DONE;
}

/* -- the calls */

static struct plain_answer refused_call(uint32_t number)
{
    return (struct plain_answer){number, 0, 0, 0};
}

struct plain_answer plain_start(struct plain *terminal, size_t rows, size_t columns)
{
    struct call c = {terminal, NULL, 0, 0, 0};
    if (!listed_size(rows, columns)) {
        memset(terminal, 0, offsetof(struct plain, characters));
        return refused_call(WRONG_SIZE);
    }
    terminal->rows = (uint16_t)rows;
    terminal->columns = (uint16_t)columns;
    fresh(&c);
    return (struct plain_answer){DONE, 0, 0, c.stored};
}

struct plain_answer plain_host(struct plain *terminal, const uint8_t *bytes, size_t length,
                               uint8_t *output, size_t room)
{
    struct call c = {terminal, output, room, 0, 0};
    if (!listed_size(terminal->rows, terminal->columns))
        return refused_call(WRONG_SIZE);
    if (terminal->row >= terminal->rows || terminal->column >= terminal->columns)
        return refused_call(WRONG_STATE);
    if (length > PLAIN_MOST_HOST_BYTES)
        return refused_call(TOO_LONG);
    size_t taken = 0;
    while (taken < length && host_byte(&c, bytes[taken]))
        taken++;
    return (struct plain_answer){taken < length ? NO_ROOM : DONE, (uint32_t)taken, (uint32_t)c.sent, c.stored};
}

struct plain_answer plain_key(struct plain *terminal, size_t key, uint8_t *output, size_t room)
{
    struct call c = {terminal, output, room, 0, 0};
    if (!listed_size(terminal->rows, terminal->columns))
        return refused_call(WRONG_SIZE);
    if (terminal->row >= terminal->rows || terminal->column >= terminal->columns)
        return refused_call(WRONG_STATE);
    uint32_t number = do_key(&c, key);
    return number == DONE ? (struct plain_answer){DONE, 0, (uint32_t)c.sent, c.stored} : refused_call(number);
}
