/* The terminal of documents 01 and 02, called from C. docs/PANEL.md is the page that goes with it.

   Slices are lent for the call only. They must not overlap: the proof takes them as apart. An empty one may be NULL.
   No alignment is asked. Numbers of more than one byte have the low byte first. There is no global data. */
#ifndef PANEL_H
#define PANEL_H

#include <stddef.h>
#include <stdint.h>

#ifdef __cplusplus
extern "C" {
#endif

/* The lengths of record and result slice. The record's changes with the layout, so that an old header is refused. */
#define PANEL_RECORD_LENGTH 195
#define PANEL_RESULT_LENGTH 13

/* The most cells that a page has (48 by 160): so many bytes of characters, and twice as many of marks. The most host
   bytes of a call, an output room that holds any block. */
#define PANEL_MOST_CELLS 7680
#define PANEL_MOST_HOST_BYTES 65536
#define PANEL_ROOM 35138

/* Places in the record: a program may look, and writes nothing there. A flag is 0 or 1. */
#define PANEL_RECORD_ROWS 0       /* 2 bytes */
#define PANEL_RECORD_COLUMNS 2    /* 2 bytes */
#define PANEL_RECORD_ROW 4        /* of the cursor, from 1 on, 2 bytes */
#define PANEL_RECORD_COLUMN 6     /* of the cursor, from 1 on, 2 bytes */
#define PANEL_RECORD_PEN 8        /* bits of a mark, 2 bytes */
#define PANEL_RECORD_ERASURE 10   /* flag: erasing takes protected cells too */
#define PANEL_RECORD_FULL 11      /* flag: the Send key sends the whole form, not what changed */
#define PANEL_RECORD_MANUAL 12    /* flag: manual input disabled */
#define PANEL_RECORD_SOFT 13      /* flag: the soft lock */
#define PANEL_RECORD_MESSAGE 14   /* why a command was refused */
#define PANEL_RECORD_BYTE 15      /* the byte at which it was refused */
#define PANEL_RECORD_KIND 16      /* of the half-read sequence */
#define PANEL_RECORD_SPOILT 17    /* flag */
#define PANEL_RECORD_COUNT 18     /* arguments reached */
#define PANEL_RECORD_ARGUMENTS 19 /* 8 arguments, 2 bytes each */
#define PANEL_RECORD_STOPS 35     /* 160 flags: the tab stops of columns 1 to 160 */

/* Places in the result slice. */
#define PANEL_RESULT_NUMBER 0 /* as returned */
#define PANEL_RESULT_TAKEN 1  /* host bytes taken, 4 bytes */
#define PANEL_RESULT_SENT 5   /* bytes put into the output, 4 bytes */
#define PANEL_RESULT_STORED 9 /* cells stored, 4 bytes */

/* The number that a call gives back. */
#define PANEL_DONE 0
#define PANEL_WRONG_SIZE 1  /* or the result slice's length is wrong */
#define PANEL_WRONG_STATE 2 /* or the record's length is wrong */
#define PANEL_NO_ROOM 3
#define PANEL_UNKNOWN_KEY 4
#define PANEL_LOCKED 5
#define PANEL_TOO_LONG 6
#define PANEL_NO_CELL 7
#define PANEL_NOT_TAKEN 8
#define PANEL_REQUIRED_BLANK 9

/* Messages. */
#define PANEL_MESSAGE_NONE 0
#define PANEL_MESSAGE_UNKNOWN_COMMAND 1
#define PANEL_MESSAGE_WRONG_ARGUMENTS 2
#define PANEL_MESSAGE_BROKEN_SEQUENCE 3
#define PANEL_MESSAGE_HIGH_BYTE 4

/* Keys; 32 to 126 are the characters. 267 is no key. */
#define PANEL_KEY_UP 256
#define PANEL_KEY_DOWN 257
#define PANEL_KEY_LEFT 258
#define PANEL_KEY_RIGHT 259
#define PANEL_KEY_NEXT_FIELD 260
#define PANEL_KEY_PREVIOUS_FIELD 261
#define PANEL_KEY_FIRST_CELL 262
#define PANEL_KEY_BLANK_FIELD 263
#define PANEL_KEY_DELETE 264
#define PANEL_KEY_INSERT 265
#define PANEL_KEY_SEND 266
#define PANEL_KEY_UNLOCK 268

/* The bits of a mark, which has 2 bytes; bits 10 to 15 are zero. The glass shows those from bold to concealed. Of
   protected, numeric and alphabetic a mark has one at most, and a required one is never protected. */
#define PANEL_MARK_PROTECTED 0x01
#define PANEL_MARK_MODIFIED 0x02
#define PANEL_MARK_BOLD 0x04
#define PANEL_MARK_UNDERLINED 0x08
#define PANEL_MARK_BLINKING 0x10
#define PANEL_MARK_REVERSED 0x20
#define PANEL_MARK_CONCEALED 0x40
#define PANEL_MARK_NUMERIC 0x80
#define PANEL_MARK_ALPHABETIC 0x100
#define PANEL_MARK_REQUIRED 0x200

/* Kinds of the half-read sequence. */
#define PANEL_KIND_NONE 0
#define PANEL_KIND_AFTER_ESC 1
#define PANEL_KIND_AFTER_INTERMEDIATE 2
#define PANEL_KIND_AFTER_BRACKET 3      /* ESC [ and more */
#define PANEL_KIND_BRACKET_ALONE 4      /* ESC [ with nothing after it yet */
#define PANEL_KIND_AFTER_PRIVATE_MARK 5 /* ESC [ > with one argument */

/* A number of 2 or 4 bytes: panel_four_bytes(result + PANEL_RESULT_SENT), or the mark of a cell (from 0 on),
   panel_two_bytes(marks + 2 * cell). */
static inline uint16_t panel_two_bytes(const uint8_t *at)
{
    return (uint16_t)(at[0] | at[1] << 8);
}

static inline uint32_t panel_four_bytes(const uint8_t *at)
{
    return panel_two_bytes(at) | (uint32_t)panel_two_bytes(at + 2) << 16;
}

/* Makes a fresh page and its record, whatever they held; characters have rows x columns bytes, marks twice as many. */
uint8_t panel_start(size_t rows, size_t columns, uint8_t *record, size_t record_length,
                    uint8_t *characters, size_t characters_length, uint8_t *marks, size_t marks_length,
                    uint8_t *result, size_t result_length);

/* Takes bytes from the host. What is to be sent to it are the first bytes of the output, as many as the result says. */
uint8_t panel_host(uint8_t *record, size_t record_length,
                   uint8_t *characters, size_t characters_length, uint8_t *marks, size_t marks_length,
                   const uint8_t *bytes, size_t bytes_length, uint8_t *output, size_t output_length,
                   uint8_t *result, size_t result_length);

/* Takes one key; what is to be sent is told as by panel_host. */
uint8_t panel_key(uint8_t *record, size_t record_length,
                  uint8_t *characters, size_t characters_length, uint8_t *marks, size_t marks_length,
                  size_t key, uint8_t *output, size_t output_length,
                  uint8_t *result, size_t result_length);

#ifdef __cplusplus
}
#endif

#endif
