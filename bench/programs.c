#include "programs.h"

#include "plain.h"

#include <stdlib.h>
#include <string.h>

uint8_t output[65536];

void put_two_bytes(uint8_t *at, size_t number)
{
    at[0] = (uint8_t)number;
    at[1] = (uint8_t)(number >> 8);
}

/* -- ours */

static struct snapshot our;
static uint8_t result[PANEL_RESULT_LENGTH];
static size_t our_cells;

static void put_ours(const struct snapshot *from)
{
    our = *from;
    our_cells = panel_two_bytes(our.record + PANEL_RECORD_ROWS);
    our_cells *= panel_two_bytes(our.record + PANEL_RECORD_COLUMNS);
}

static void get_ours(struct snapshot *to)
{
    *to = our;
}

static void our_result(struct told *told)
{
    told->number = result[PANEL_RESULT_NUMBER];
    told->taken += panel_four_bytes(result + PANEL_RESULT_TAKEN);
    told->sent += panel_four_bytes(result + PANEL_RESULT_SENT);
    told->stored += panel_four_bytes(result + PANEL_RESULT_STORED);
}

static void start_ours(size_t rows, size_t columns, struct told *told)
{
    our_cells = rows * columns;
    panel_start(rows, columns, our.record, sizeof our.record, our.characters, our_cells, our.marks, 2 * our_cells,
                result, sizeof result);
    our_result(told);
}

static void host_ours(const uint8_t *bytes, size_t length, size_t call, struct told *told)
{
    while (length > 0) {
        size_t now = call < length ? call : length;
        uint8_t number = panel_host(our.record, sizeof our.record, our.characters, our_cells, our.marks, 2 * our_cells,
                                    bytes, now, output, sizeof output, result, sizeof result);
        if (number != PANEL_DONE && number != PANEL_NO_ROOM)
            abort();
        our_result(told);
        now = panel_four_bytes(result + PANEL_RESULT_TAKEN);
        bytes += now;
        length -= now;
    }
}

static void key_ours(size_t key, struct told *told)
{
    panel_key(our.record, sizeof our.record, our.characters, our_cells, our.marks, 2 * our_cells,
              key, output, sizeof output, result, sizeof result);
    our_result(told);
}

const struct program ours = {"ours", put_ours, get_ours, start_ours, host_ours, key_ours};

/* -- plain C, whose state is put into the record's layout and taken out of it */

static struct plain by_hand;

static void put_plain(const struct snapshot *from)
{
    const uint8_t *record = from->record;
    by_hand.rows = panel_two_bytes(record + PANEL_RECORD_ROWS);
    by_hand.columns = panel_two_bytes(record + PANEL_RECORD_COLUMNS);
    by_hand.row = (uint16_t)(panel_two_bytes(record + PANEL_RECORD_ROW) - 1);
    by_hand.column = (uint16_t)(panel_two_bytes(record + PANEL_RECORD_COLUMN) - 1);
    by_hand.pen = panel_two_bytes(record + PANEL_RECORD_PEN);
    by_hand.erasure = record[PANEL_RECORD_ERASURE];
    by_hand.full = record[PANEL_RECORD_FULL];
    by_hand.manual = record[PANEL_RECORD_MANUAL];
    by_hand.soft = record[PANEL_RECORD_SOFT];
    by_hand.message = record[PANEL_RECORD_MESSAGE];
    by_hand.refused_at = record[PANEL_RECORD_BYTE];
    by_hand.kind = record[PANEL_RECORD_KIND];
    by_hand.spoilt = record[PANEL_RECORD_SPOILT];
    by_hand.count = record[PANEL_RECORD_COUNT];
    for (int i = 0; i < PLAIN_MOST_ARGUMENTS; i++)
        by_hand.arguments[i] = panel_two_bytes(record + PANEL_RECORD_ARGUMENTS + 2 * i);
    for (int i = 0; i < PLAIN_MOST_COLUMNS; i++)
        by_hand.stops[i] = record[PANEL_RECORD_STOPS + i];
    memcpy(by_hand.characters, from->characters, sizeof by_hand.characters);
    for (int i = 0; i < PLAIN_MOST_CELLS; i++)
        by_hand.marks[i] = panel_two_bytes(from->marks + 2 * i);
}

static void get_plain(struct snapshot *to)
{
    uint8_t *record = to->record;
    put_two_bytes(record + PANEL_RECORD_ROWS, by_hand.rows);
    put_two_bytes(record + PANEL_RECORD_COLUMNS, by_hand.columns);
    put_two_bytes(record + PANEL_RECORD_ROW, by_hand.row + 1u);
    put_two_bytes(record + PANEL_RECORD_COLUMN, by_hand.column + 1u);
    put_two_bytes(record + PANEL_RECORD_PEN, by_hand.pen);
    record[PANEL_RECORD_ERASURE] = by_hand.erasure;
    record[PANEL_RECORD_FULL] = by_hand.full;
    record[PANEL_RECORD_MANUAL] = by_hand.manual;
    record[PANEL_RECORD_SOFT] = by_hand.soft;
    record[PANEL_RECORD_MESSAGE] = by_hand.message;
    record[PANEL_RECORD_BYTE] = by_hand.refused_at;
    record[PANEL_RECORD_KIND] = by_hand.kind;
    record[PANEL_RECORD_SPOILT] = by_hand.spoilt;
    record[PANEL_RECORD_COUNT] = by_hand.count;
    for (int i = 0; i < PLAIN_MOST_ARGUMENTS; i++)
        put_two_bytes(record + PANEL_RECORD_ARGUMENTS + 2 * i, by_hand.arguments[i]);
    for (int i = 0; i < PLAIN_MOST_COLUMNS; i++)
        record[PANEL_RECORD_STOPS + i] = by_hand.stops[i];
    memcpy(to->characters, by_hand.characters, sizeof to->characters);
    for (int i = 0; i < PLAIN_MOST_CELLS; i++)
        put_two_bytes(to->marks + 2 * i, by_hand.marks[i]);
}

static void plain_result(const struct plain_answer *answer, struct told *told)
{
    told->number = (uint8_t)answer->number;
    told->taken += answer->taken;
    told->sent += answer->sent;
    told->stored += answer->stored;
}

static void start_plain(size_t rows, size_t columns, struct told *told)
{
    struct plain_answer answer = plain_start(&by_hand, rows, columns);
    plain_result(&answer, told);
}

static void host_plain(const uint8_t *bytes, size_t length, size_t call, struct told *told)
{
    while (length > 0) {
        size_t now = call < length ? call : length;
        struct plain_answer answer = plain_host(&by_hand, bytes, now, output, sizeof output);
        if (answer.number != PANEL_DONE && answer.number != PANEL_NO_ROOM)
            abort();
        plain_result(&answer, told);
        bytes += answer.taken;
        length -= answer.taken;
    }
}

static void key_plain(size_t key, struct told *told)
{
    struct plain_answer answer = plain_key(&by_hand, key, output, sizeof output);
    plain_result(&answer, told);
}

const struct program plain = {"plain", put_plain, get_plain, start_plain, host_plain, key_plain};

const struct program *program_named(const char *name)
{
    return strcmp(name, "ours") == 0 ? &ours : strcmp(name, "plain") == 0 ? &plain : NULL;
}
