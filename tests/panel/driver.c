/* The programs `transcript` and `calls` of second/FORMATS.md over the exported functions. What it knows of the state is
   the layout in panel.h. Every call is made by lent.c, which ends the program where a slice isn't kept to. */
#include "lent.h"

#include "panel.h"

#include <stdio.h>
#include <stdlib.h>
#include <string.h>

#define ROOM 65536
#define KEPT 8192
#define HOST_FRAME 256

static uint8_t record[PANEL_RECORD_LENGTH], characters[KEPT], marks[2 * KEPT], result[PANEL_RESULT_LENGTH];
static uint8_t host_bytes[LONGEST];
static struct kept kept = {
    {record, characters, marks, host_bytes, NULL, result},
    {PANEL_RECORD_LENGTH, 0, 0, 0, ROOM, PANEL_RESULT_LENGTH},
};

static void put_hex(const uint8_t *bytes, size_t length)
{
    static const char digits[] = "0123456789ABCDEF";
    static char text[2 * ROOM];
    for (size_t i = 0; i < length; i++) {
        text[2 * i] = digits[bytes[i] >> 4];
        text[2 * i + 1] = digits[bytes[i] & 15];
    }
    fwrite(text, 1, 2 * length, stdout);
}

/* The formats have the high byte first. */
static void put_number(uint32_t number, int length)
{
    for (int i = length - 1; i >= 0; i--) {
        uint8_t byte = (uint8_t)(number >> 8 * i);
        put_hex(&byte, 1);
    }
}

static uint32_t number_in(const uint8_t *bytes, int length)
{
    uint32_t number = 0;
    for (int i = 0; i < length; i++)
        number = number << 8 | bytes[i];
    return number;
}

static void put_line(const uint8_t *bytes, size_t length)
{
    put_hex(bytes, length);
    putchar('\n');
}

static void refuse_line(void)
{
    put_line((const uint8_t *)"\xFF", 1);
}

static uint32_t count(int place)
{
    return panel_four_bytes(result + place);
}

/* The formats count marks, C their bytes. */
static void lend_page(size_t character_count, size_t mark_count)
{
    kept.length[CHARACTERS] = character_count;
    kept.length[MARKS] = 2 * mark_count;
}

/* -- transcript */

static bool going;

static void print_transcript(uint8_t number)
{
    put_number(number, 1);
    put_number(panel_two_bytes(record + PANEL_RECORD_ROW), 1);
    put_number(panel_two_bytes(record + PANEL_RECORD_COLUMN), 1);
    put_number(count(PANEL_RESULT_STORED), 4);
    put_line(sent_bytes(), count(PANEL_RESULT_SENT));
}

/* A size that isn't listed may ask for more cells than are kept; it is refused whatever is lent. */
static void transcript_start(uint8_t rows, uint8_t columns)
{
    size_t cells = (size_t)rows * columns;
    if (cells > KEPT)
        cells = KEPT;
    lend_page(cells, cells);
    uint8_t number = lend(START, rows, columns, &kept);
    going = number == PANEL_DONE;
    print_transcript(number);
}

static void transcript_host(const uint8_t *bytes, size_t length)
{
    uint8_t number;
    do {
        memcpy(host_bytes, bytes, length);
        kept.length[BYTES] = length;
        number = lend(HOST, 0, 0, &kept);
        print_transcript(number);
        bytes += count(PANEL_RESULT_TAKEN);
        length -= count(PANEL_RESULT_TAKEN);
    } while (number == PANEL_NO_ROOM);
}

static void transcript_frame(const uint8_t *frame, size_t length)
{
    if (length == 3 && frame[0] == 0x00)
        transcript_start(frame[1], frame[2]);
    else if (length >= 1 && frame[0] == 0x01 && going)
        transcript_host(frame + 1, length - 1);
    else if (length == 3 && frame[0] == 0x02 && going)
        print_transcript(lend(KEY, number_in(frame + 1, 2), 0, &kept));
    else
        refuse_line();
}

/* -- calls */

#define FIELDS 182

/* Where a field of the state is in the record, and what it is. */
enum form { TWO_BYTES, BYTE, FLAG };

static enum form field(unsigned number, size_t *place)
{
    static const struct {
        uint8_t place;
        enum form form;
    } parts[12] = {
        {PANEL_RECORD_ROWS, TWO_BYTES},    {PANEL_RECORD_COLUMNS, TWO_BYTES},
        {PANEL_RECORD_ROW, TWO_BYTES},     {PANEL_RECORD_COLUMN, TWO_BYTES},
        {PANEL_RECORD_PEN, TWO_BYTES},     {PANEL_RECORD_ERASURE, FLAG},
        {PANEL_RECORD_MANUAL, FLAG},       {PANEL_RECORD_SOFT, FLAG},
        {PANEL_RECORD_MESSAGE, BYTE},      {PANEL_RECORD_KIND, BYTE},
        {PANEL_RECORD_SPOILT, FLAG},       {PANEL_RECORD_COUNT, BYTE},
    };
    if (number < 12) {
        *place = parts[number].place;
        return parts[number].form;
    }
    if (number < 20) {
        *place = PANEL_RECORD_ARGUMENTS + 2 * (number - 12);
        return TWO_BYTES;
    }
    if (number < 180) {
        *place = PANEL_RECORD_STOPS + (number - 20);
        return FLAG;
    }
    *place = number == 180 ? PANEL_RECORD_BYTE : PANEL_RECORD_FULL;
    return number == 180 ? BYTE : FLAG;
}

/* Low byte first, as record and marks have them. */
static void put_two_bytes(uint8_t *at, unsigned value)
{
    at[0] = (uint8_t)value;
    at[1] = (uint8_t)(value >> 8);
}

static bool set_field(unsigned number, unsigned value)
{
    size_t place;
    if (number >= FIELDS)
        return false;
    enum form form = field(number, &place);
    if (form == BYTE && value > 255)
        return false;
    if (form == TWO_BYTES)
        put_two_bytes(record + place, value);
    else
        record[place] = form == FLAG ? value != 0 : (uint8_t)value;
    return true;
}

static unsigned field_value(unsigned number)
{
    size_t place;
    return field(number, &place) == TWO_BYTES ? panel_two_bytes(record + place) : record[place];
}

/* High byte first, as all numbers of the formats. */
static void print_marks(void)
{
    static uint8_t turned[2 * KEPT];
    for (size_t i = 0; i < kept.length[MARKS]; i++)
        turned[i] = marks[i ^ 1];
    put_line(turned, kept.length[MARKS]);
}

/* That the output past the bytes sent is still A5 lent.c looks after. */
static void print_call(uint8_t number)
{
    put_number(number, 1);
    put_number(count(PANEL_RESULT_TAKEN), 4);
    put_number(count(PANEL_RESULT_SENT), 4);
    put_number(count(PANEL_RESULT_STORED), 4);
    put_line(sent_bytes(), count(PANEL_RESULT_SENT));
    printf("00000 ");
    for (unsigned i = 0; i < FIELDS; i++)
        put_number(field_value(i), 2);
    putchar('\n');
    put_line(characters, kept.length[CHARACTERS]);
    print_marks();
}

static void calls_host(const uint8_t *bytes, size_t pattern, size_t length)
{
    for (size_t i = 0; i < length; i++)
        host_bytes[i] = bytes[i % pattern];
    kept.length[BYTES] = length;
    print_call(lend(HOST, 0, 0, &kept));
}

/* False for another line than a frame. */
static bool calls_frame(const uint8_t *frame, size_t length)
{
    const uint8_t *rest = frame + 1;
    if (length == 0)
        return false;
    length--;
    if (frame[0] == 0x20 && length == 4) {
        print_call(lend(START, number_in(rest, 2), number_in(rest + 2, 2), &kept));
        return true;
    }
    if (frame[0] == 0x21) {
        calls_host(rest, length, length);
        return true;
    }
    if (frame[0] == 0x22 && length >= 5 && length <= 254 && number_in(rest, 4) <= PANEL_MOST_HOST_BYTES + 1) {
        calls_host(rest + 4, length - 4, number_in(rest, 4));
        return true;
    }
    if (frame[0] == 0x23 && length == 4) {
        print_call(lend(KEY, number_in(rest, 4), 0, &kept));
        return true;
    }
    if (frame[0] == 0x24 && length == 4 && number_in(rest, 2) <= KEPT && number_in(rest + 2, 2) <= KEPT) {
        lend_page(number_in(rest, 2), number_in(rest + 2, 2));
    } else if (frame[0] == 0x25 && length == 4 && number_in(rest, 4) <= ROOM) {
        kept.length[OUTPUT] = number_in(rest, 4);
    } else if (frame[0] == 0x26 && length == 3 && number_in(rest, 2) < KEPT) {
        characters[number_in(rest, 2)] = rest[2];
    } else if (frame[0] == 0x27 && length == 4 && number_in(rest, 2) < KEPT) {
        put_two_bytes(marks + 2 * number_in(rest, 2), number_in(rest + 2, 2));
    } else if (frame[0] != 0x28 || length != 4 || !set_field(number_in(rest, 2), number_in(rest + 2, 2))) {
        return false;
    }
    put_line((const uint8_t *)"\0", 1);
    return true;
}

/* -- lines */

static int digit(char byte)
{
    return byte >= '0' && byte <= '9' ? byte - '0' : byte >= 'A' && byte <= 'F' ? byte - 'A' + 10 : -1;
}

/* The bytes that a line tells; 0, which no frame is as long as, for another line. */
static size_t bytes_of(const char *line, size_t length, uint8_t *bytes)
{
    if (length % 2 != 0 || length > 2 * HOST_FRAME)
        return 0;
    for (size_t i = 0; i < length / 2; i++) {
        int high = digit(line[2 * i]), low = digit(line[2 * i + 1]);
        if (high < 0 || low < 0)
            return 0;
        bytes[i] = (uint8_t)(high << 4 | low);
    }
    return length / 2;
}

int main(int argument_count, char **arguments)
{
    bool calls = argument_count == 2 && strcmp(arguments[1], "calls") == 0;
    if (!calls && (argument_count != 2 || strcmp(arguments[1], "transcript") != 0)) {
        fprintf(stderr, "usage: driver transcript | calls\n");
        return 2;
    }
    if (calls)
        lend_page(1920, 1920);
    prepare();
    /* a longer line is no frame, however it goes on */
    char line[2 * HOST_FRAME + 2];
    size_t length = 0;
    int byte;
    do {
        byte = getchar();
        if (byte != '\n' && byte != EOF) {
            if (length < sizeof line)
                line[length++] = (char)byte;
            continue;
        }
        if (byte == EOF && length == 0)
            break;
        uint8_t frame[HOST_FRAME];
        size_t frame_length = bytes_of(line, length, frame);
        if (!calls)
            transcript_frame(frame, frame_length);
        else if (!calls_frame(frame, frame_length))
            refuse_line();
        length = 0;
    } while (byte != EOF);
    want_clean_output();
    if (fflush(stdout) != 0)
        fault("standard output can't be written");
    return 0;
}
