/* Ours and plain C behind one face, so that one driver measures both and compares what they leave. */
#ifndef PROGRAMS_H
#define PROGRAMS_H

#include "panel.h"

/* What a terminal is at a moment, as docs/PANEL.md lays it out. */
struct snapshot {
    uint8_t record[PANEL_RECORD_LENGTH];
    uint8_t characters[PANEL_MOST_CELLS], marks[2 * PANEL_MOST_CELLS];
};

/* What calls gave: the last one's number, and the counts of all of them. */
struct told {
    uint8_t number;
    uint64_t taken, sent, stored;
};

/* Two bytes, low one first, as record and marks have them. */
void put_two_bytes(uint8_t *at, size_t number);

struct program {
    const char *name;
    void (*put)(const struct snapshot *from); /* makes this the terminal */
    void (*get)(struct snapshot *to);
    void (*start)(size_t rows, size_t columns, struct told *told);
    /* the bytes in calls of this length; on a want of room it goes on with the rest */
    void (*host)(const uint8_t *bytes, size_t length, size_t call, struct told *told);
    void (*key)(size_t key, struct told *told);
};

/* Where both send to: the output of the last call. */
extern uint8_t output[65536];

extern const struct program ours, plain;

const struct program *program_named(const char *name);

#endif
