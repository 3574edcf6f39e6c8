/* Calls whose slices lie between pages that may not be touched. Whatever is wrong is told, and ends the program. */
#ifndef LENT_H
#define LENT_H

#include <stdbool.h>
#include <stddef.h>
#include <stdint.h>

enum slice { RECORD, CHARACTERS, MARKS, BYTES, OUTPUT, RESULT, SLICES };

enum call { START, HOST, KEY };

/* What a caller keeps, and lends copies of. The output is not kept: before each call all of it is A5. */
struct kept {
    uint8_t *at[SLICES];
    size_t length[SLICES];
};

/* The longest slice that can be lent. */
#define LONGEST 65537

#define FILL 0xA5

/* Maps the memory that is lent; once, before all else. */
void prepare(void);

/* Makes a call twice from equal copies, and gives its number: once with each slice ending right before a page that may
   not be touched, once beginning right after one (an empty slice is then NULL). Host bytes can only be read; if the
   call is refused, so can, the second time, all that a refusal does not write. It ends the program unless both leave
   the same bytes, and the result slice is as docs/PANEL.md has it, as far as that can be told without knowing the
   terminal. For a start the numbers are rows and columns, for a key the first is its number. */
uint8_t lend(enum call call, size_t first, size_t second, struct kept *kept);

/* What the last call put into the output: as many bytes as its result says, or none if it was refused. */
const uint8_t *sent_bytes(void);

/* Ends the program if any call has changed the output past the bytes sent: once, after all calls. */
void want_clean_output(void);

/* Says what is wrong, and ends the program with status 1. */
void fault(const char *format, ...);

#endif
