/* M-106: the Send key sends what changed or the whole form, as the host chose; what chooses, however it is cut into
   calls, what is refused or has nothing to do with it, and what is sent then. */
#include "lent.h"

#include "panel.h"

#include <stdio.h>
#include <stdlib.h>
#include <string.h>

#define CELLS (24 * 80)
#define CHANGED "\033[>6h"
#define WHOLE "\033[>6l"

static uint8_t record[PANEL_RECORD_LENGTH], characters[CELLS], marks[2 * CELLS], result[PANEL_RESULT_LENGTH];
static uint8_t host_bytes[CELLS];
static struct kept kept = {
    {record, characters, marks, host_bytes, NULL, result},
    {PANEL_RECORD_LENGTH, CELLS, 2 * CELLS, 0, PANEL_ROOM, PANEL_RESULT_LENGTH},
};

static long blocks, forms;

static uint32_t count(size_t place)
{
    return panel_four_bytes(result + place);
}

static void feed(const char *bytes, size_t length)
{
    memcpy(host_bytes, bytes, length);
    kept.length[BYTES] = length;
    if (lend(HOST, 0, 0, &kept) != PANEL_DONE)
        fault("host bytes were not taken");
}

static void feed_text(const char *text)
{
    feed(text, strlen(text));
}

static void press(size_t key, uint8_t wanted)
{
    uint8_t number = lend(KEY, key, 0, &kept);
    if (number != wanted)
        fault("key %zu: number %d, wanted %d", key, number, wanted);
}

static void start(void)
{
    if (lend(START, 24, 80, &kept) != PANEL_DONE)
        fault("no page");
}

/* Two fields, ABC at 3;15 and DE at 4;15, and the cursor in the first. */
static void paint(void)
{
    static char blanks[CELLS];
    memset(blanks, ' ', sizeof blanks);
    feed_text("\033V");
    feed(blanks, sizeof blanks);
    feed_text("\033W\033[3;15fABC\033[4;15fDE\033[3;15f");
}

static void choose(bool whole)
{
    feed_text(whole ? WHOLE : CHANGED);
}

/* -- what is sent */

static void want_sent(const char *what, const char *wanted)
{
    blocks++;
    if (count(PANEL_RESULT_SENT) != strlen(wanted) || memcmp(sent_bytes(), wanted, strlen(wanted)) != 0)
        fault("%s: other bytes were sent than wanted", what);
    if (count(PANEL_RESULT_STORED) != 0)
        fault("%s: cells were stored", what);
}

static void send_by_key(const char *wanted)
{
    press(PANEL_KEY_SEND, PANEL_DONE);
    want_sent("key 266", wanted);
}

/* ESC S sends the whole form, whatever was chosen, and leaves the choice. */
static void send_by_host(const char *wanted)
{
    uint8_t chosen = record[PANEL_RECORD_FULL];
    feed_text("\033S");
    want_sent("ESC S", wanted);
    if (record[PANEL_RECORD_FULL] != chosen)
        fault("ESC S chose what is sent");
}

/* Either block takes the modified marks off, so that the next one of what changed has nothing that is older. */
static void try_blocks(void)
{
    start();
    paint();
    send_by_key("\003");
    press('Y', PANEL_DONE);
    send_by_key("\033[3;15fYBC\003");
    send_by_host("\033[3;15fYBC\033[4;15fDE\003");
    choose(true);
    send_by_key("\033[3;15fYBC\033[4;15fDE\003");
    press('Z', PANEL_DONE);
    send_by_key("\033[3;15fYZC\033[4;15fDE\003");
    choose(false);
    send_by_key("\003");
    press('X', PANEL_DONE);
    press('W', PANEL_DONE);
    choose(true);
    send_by_host("\033[3;15fYZX\033[4;15fWE\003");
    choose(false);
    send_by_key("\003");
    press('V', PANEL_DONE);
    choose(true);
    choose(false);
    send_by_key("\033[4;15fWV\003");
}

/* 267 was the key for the whole form. */
static void try_old_key(void)
{
    for (int i = 0; i < 4; i++) {
        start();
        paint();
        choose(i & 1);
        if (i & 2)
            feed_text("\033`");
        press(267, PANEL_UNKNOWN_KEY);
    }
}

/* -- what chooses */

static void want_record(const char *what, const uint8_t *wanted)
{
    for (size_t i = 0; i < PANEL_RECORD_LENGTH; i++)
        if (record[i] != wanted[i])
            fault("%s: byte %zu of the record is %d, wanted %d", what, i, record[i], wanted[i]);
}

/* The record that `before` becomes by the first bytes of ESC [ > 6 h or ESC [ > 6 l. */
static void make_record(uint8_t *wanted, const uint8_t *before, size_t read, bool whole)
{
    static const uint8_t kinds[] = {PANEL_KIND_NONE, PANEL_KIND_AFTER_ESC, PANEL_KIND_BRACKET_ALONE,
                                    PANEL_KIND_AFTER_PRIVATE_MARK, PANEL_KIND_AFTER_PRIVATE_MARK, PANEL_KIND_NONE};
    memcpy(wanted, before, PANEL_RECORD_LENGTH);
    wanted[PANEL_RECORD_KIND] = kinds[read];
    wanted[PANEL_RECORD_COUNT] = read >= 2 && read <= 4;
    wanted[PANEL_RECORD_ARGUMENTS] = read == 4 ? 6 : 0;
    if (read == 5)
        wanted[PANEL_RECORD_FULL] = whole;
}

/* One cutting: a bit for each place between two bytes. That a call stores and sends nothing is looked at too. */
static void choose_cut(bool whole, unsigned cuts)
{
    const char *bytes = whole ? WHOLE : CHANGED;
    uint8_t before[PANEL_RECORD_LENGTH], wanted[PANEL_RECORD_LENGTH];
    memcpy(before, record, sizeof before);
    for (size_t from = 0, to = 1; to <= 5; to++) {
        if (to < 5 && !(cuts >> (to - 1) & 1))
            continue;
        feed(bytes + from, to - from);
        make_record(wanted, before, to, whole);
        want_record("a part of ESC [ > 6", wanted);
        if (count(PANEL_RESULT_SENT) != 0 || count(PANEL_RESULT_STORED) != 0)
            fault("a part of ESC [ > 6 sent or stored something");
        from = to;
    }
    forms++;
}

/* In every cutting, from either choice to either; the locks don't matter, and stay as they are. */
static void try_cuttings(void)
{
    static const char *const locks[] = {"", "\033`", "\200", "\033`\033[25d"};
    for (unsigned i = 0; i < 4 * 16 * 4; i++) {
        start();
        paint();
        choose(i & 1);
        feed_text(locks[i / 64]);
        choose_cut(i & 2, i / 4 % 16);
    }
}

/* Host bytes, the message and its byte after them, and whether a 266 then sends the whole form: only what the guide
   has, as the only argument, chooses. */
static const struct {
    const char *fed;
    uint8_t message;
    char byte;
    bool whole;
} tried_forms[] = {
    {"\033[>06l", 0, 0, true},
    {"\033[>0000000006l", 0, 0, true},
    {"\033[>6l\033[>06h", 0, 0, false},
    {"\033[>5l", 3, 'l', false},
    {"\033[>l", 3, 'l', false},
    {"\033[>0l", 3, 'l', false},
    {"\033[>66l", 3, 'l', false},
    {"\033[>9999l", 3, 'l', false},
    {"\033[>10006l", 3, 'l', false},
    {"\033[>6;l", 3, 'l', false},
    {"\033[>;6l", 3, 'l', false},
    {"\033[>6;6l", 3, 'l', false},
    {"\033[>>6l", 3, 'l', false},
    {"\033[>6>l", 3, 'l', false},
    {"\033[>?6l", 3, 'l', false},
    {"\033[?6l", 3, 'l', false},
    {"\033[> 6l", 3, 'l', false},
    {"\033[>6 l", 3, 'l', false},
    {"\033[0>6l", 3, 'l', false},
    {"\033[6>l", 3, 'l', false},
    {"\033[;>6l", 3, 'l', false},
    {"\033[>6m", 3, 'm', false},
    {"\033[>6L", 3, 'L', false},
    {"\033[>4m", 3, 'm', false},
    {"\033[>6l\033[>5h", 3, 'h', true},
    {"\033[>6l\033[>h", 3, 'h', true},
    {"\033[>6l\033[>6;h", 3, 'h', true},
    {"\033[>6l\033[0>6h", 3, 'h', true},
    {"\033[>6l\033[6>h", 3, 'h', true},
    {"\033[>6l\033[>>6h", 3, 'h', true},
    {"\033[>6l\033[>6m", 3, 'm', true},
    {"\033[>6l\033[>10006h", 3, 'h', true},
    /* erasure mode has the same number */
    {"\033[6l", 0, 0, false},
    {"\033[>6l\033[6h", 0, 0, true},
    /* broken off; 18 and 1A only drop it, and ESC begins anew */
    {"\033[>6\r", 3, '\r', false},
    {"\033[>6\177", 3, '\177', false},
    {"\033[>\233", 4, '\233', false},
    {"\033[>6\030", 0, 0, false},
    {"\033[>6\032", 0, 0, false},
    {"\033[>6\033[>6l", 0, 0, true},
    /* a fresh terminal */
    {"\033[>6l\033c", 0, 0, false},
};

/* What a form left, and the block that follows: of a form that nobody typed in, what changed is nothing. */
static void want_form(size_t i)
{
    bool whole = tried_forms[i].whole, is_fresh = strstr(tried_forms[i].fed, "\033c") != NULL;
    if (record[PANEL_RECORD_MESSAGE] != tried_forms[i].message ||
        record[PANEL_RECORD_BYTE] != (uint8_t)tried_forms[i].byte ||
        record[PANEL_RECORD_SOFT] != (tried_forms[i].message != 0))
        fault("form %zu: message %d, byte %02X", i, record[PANEL_RECORD_MESSAGE], (unsigned)record[PANEL_RECORD_BYTE]);
    if (record[PANEL_RECORD_KIND] != PANEL_KIND_NONE || record[PANEL_RECORD_FULL] != whole)
        fault("form %zu: kind %d, flag %d", i, record[PANEL_RECORD_KIND], record[PANEL_RECORD_FULL]);
    press(PANEL_KEY_UNLOCK, PANEL_DONE);
    send_by_key(whole ? "\033[3;15fABC\033[4;15fDE\003" : "\003");
    if (!is_fresh)
        send_by_host("\033[3;15fABC\033[4;15fDE\003");
    forms++;
}

/* Each in one call, and a byte a call. A start takes off what the one before chose. */
static void try_forms(void)
{
    for (size_t i = 0; i < sizeof tried_forms / sizeof *tried_forms; i++) {
        start();
        paint();
        feed_text(tried_forms[i].fed);
        want_form(i);
        choose(true);
        start();
        paint();
        for (const char *at = tried_forms[i].fed; *at; at++)
            feed(at, 1);
        want_form(i);
        choose(true);
    }
}

int main(void)
{
    prepare();
    try_blocks();
    try_old_key();
    try_cuttings();
    try_forms();
    want_clean_output();
    printf("%ld blocks and %ld forms that choose, or don't, were as they should be\n", blocks, forms);
    return 0;
}
