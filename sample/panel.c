/* One session with nobody at the panel: a page is started, the stow form of sample/stow.txt comes from the host, here
   with a wind field that takes digits only; the readings are typed, and the block that goes back is printed, a field a
   line, as C writes strings: it has all three fields, since all were typed in.
   README and docs/PANEL.md tell how to build and run it. */
#include "panel.h"

#include <stdio.h>
#include <stdlib.h>
#include <string.h>

#define ROWS 24
#define COLUMNS 80

/* What a panel keeps from call to call, .. */
static uint8_t record[PANEL_RECORD_LENGTH], characters[ROWS * COLUMNS], marks[2 * ROWS * COLUMNS];
/* .. and what one call fills in. */
static uint8_t output[PANEL_ROOM], result[PANEL_RESULT_LENGTH];

/* Nothing here should be refused. */
static void want_done(const char *call, uint8_t number)
{
    if (number != PANEL_DONE) {
        fprintf(stderr, "%s: %d\n", call, number);
        exit(1);
    }
}

static void host(const char *text)
{
    want_done("host", panel_host(record, sizeof record, characters, sizeof characters, marks, sizeof marks,
                                 (const uint8_t *)text, strlen(text), output, sizeof output, result, sizeof result));
}

static void key(size_t number)
{
    want_done("key", panel_key(record, sizeof record, characters, sizeof characters, marks, sizeof marks,
                               number, output, sizeof output, result, sizeof result));
}

static void type(const char *text)
{
    while (*text)
        key((uint8_t)*text++);
}

/* A new line for each ESC and for the end, 03. */
static void print_block(const uint8_t *bytes, size_t length)
{
    for (size_t i = 0; i < length; i++) {
        if (bytes[i] >= 0x20)
            putchar(bytes[i]);
        else
            printf("%s\"\\x%02X", i == 0 ? "" : "\"\n", bytes[i]);
    }
    printf("\"\n");
}

int main(void)
{
    want_done("start", panel_start(ROWS, COLUMNS, record, sizeof record, characters, sizeof characters,
                                   marks, sizeof marks, result, sizeof result));

    /* protected blanks everywhere, the labels, then three unprotected fields: the wind's takes digits only, and the
       remark's goes on in the next row */
    host("\033V");
    for (int row = 1; row <= ROWS; row++) {
        char blanks[COLUMNS + 1];
        sprintf(blanks, "%*s", COLUMNS, "");
        host(blanks);
    }
    host("\033[1;1fSTOW PANEL   PARK 7\033[3;1fWIND (KNOTS)\033[4;1fROWS STOWED\033[6;1fREMARK");
    host("\033[3o\033[3;15f   \033W\033[4;15f  \033[6;15f");
    for (int cell = 1; cell <= 86; cell++)
        host(" ");
    host("\033[3;15f");

    type("34");
    key(PANEL_KEY_NEXT_FIELD);
    type("11"); /* fills its field, so the cursor goes to the next by itself */
    type("GGUSTS FROM THE WEST SINCE NOON; ROW 9 CREAKED AND WAS STOWED FIRST, SENT FOR FITTER");

    key(PANEL_KEY_SEND);
    print_block(output, panel_four_bytes(result + PANEL_RESULT_SENT));
    return 0;
}
