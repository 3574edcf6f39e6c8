/* The terminal of documents 01 and 02 (M-101 to M-103, M-105 to M-107) as a programmer writes it by hand: something to
   measure the proved one by. It was written from the papers, without sight of the proved one's code. */
#ifndef PLAIN_H
#define PLAIN_H

#include <stdbool.h>
#include <stddef.h>
#include <stdint.h>

#define PLAIN_MOST_CELLS (48 * 160)
#define PLAIN_MOST_COLUMNS 160
#define PLAIN_MOST_ARGUMENTS 8
#define PLAIN_MOST_HOST_BYTES 65536

enum plain_kind {
    PLAIN_OUTSIDE,
    PLAIN_AFTER_ESC,
    PLAIN_AFTER_INTERMEDIATE,
    PLAIN_AFTER_BRACKET,
    PLAIN_BRACKET_ALONE,
    PLAIN_AFTER_PRIVATE_MARK
};

struct plain {
    uint16_t rows, columns;
    uint16_t row, column; /* of the cursor, from 0 on */
    uint16_t pen;         /* marks for text */
    bool erasure;
    bool full; /* the Send key sends the whole form, not what changed */
    bool manual, soft;
    uint8_t message, refused_at;
    uint8_t kind; /* of the half-read sequence */
    bool spoilt;
    uint8_t count; /* arguments reached */
    uint16_t arguments[PLAIN_MOST_ARGUMENTS];
    bool stops[PLAIN_MOST_COLUMNS];
    uint8_t characters[PLAIN_MOST_CELLS];
    uint16_t marks[PLAIN_MOST_CELLS];
};

/* The number that a call gives back, and its counts. */
struct plain_answer {
    uint32_t number, taken, sent, stored;
};

struct plain_answer plain_start(struct plain *terminal, size_t rows, size_t columns);
struct plain_answer plain_host(struct plain *terminal, const uint8_t *bytes, size_t length,
                               uint8_t *output, size_t room);
struct plain_answer plain_key(struct plain *terminal, size_t key, uint8_t *output, size_t room);

#endif
