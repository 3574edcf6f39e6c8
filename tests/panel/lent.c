#define _GNU_SOURCE
#include "lent.h"

#include "panel.h"

#include <signal.h>
#include <stdarg.h>
#include <stdio.h>
#include <stdlib.h>
#include <string.h>
#include <sys/mman.h>
#include <unistd.h>

static const char *const slice_name[SLICES] = {"record", "characters", "marks", "bytes", "output", "result"};
static const char *const call_name[] = {"start", "host", "key"};

/* A multiple of every machine's page; and room for a slice at either end of what is between two guards. */
#define GUARD 65536
#define INSIDE (4 * GUARD)

enum place { ENDS, BEGINS };

/* The same memory is seen twice, each time between guards: as it can be written, and as it can only be read. So nothing
   has to be protected anew for a call. */
static uint8_t *writable_view[SLICES], *readable_view[SLICES];

/* The call going on: told by a fault. */
static enum call now;
static size_t now_first, now_second;
static uint8_t *now_at[SLICES];
static size_t now_length[SLICES];

/* What may no longer be A5 of the output's memory, at each place. */
static uint8_t *dirty[2];
static size_t dirty_length[2];

/* So far past the bytes sent each call is looked at; all of the output's memory now and then, and at the end. */
#define NEAR 2048
static uint8_t clean[NEAR];

void fault(const char *format, ...)
{
    va_list values;
    va_start(values, format);
    fflush(stdout);
    fprintf(stderr, "panel: ");
    vfprintf(stderr, format, values);
    fprintf(stderr, "\n  last call: %s %zu %zu", call_name[now], now_first, now_second);
    for (int i = 0; i < SLICES; i++)
        fprintf(stderr, ", %s %zu", slice_name[i], now_length[i]);
    fprintf(stderr, "\n");
    va_end(values);
    exit(1);
}

#ifdef __x86_64__
/* the emulator comes to a handler with the stack 8 bytes off, which printing can't bear */
__attribute__((force_align_arg_pointer))
#endif
/* An access that is not allowed. Nothing of the program goes on after it, so it may print. */
static void on_signal(int number, siginfo_t *info, void *context)
{
    (void)number;
    (void)context;
    const uint8_t *touched = info->si_addr;
    for (int i = 0; i < SLICES; i++) {
        const uint8_t *views[] = {writable_view[i], readable_view[i]};
        for (int j = 0; j < 2; j++) {
            if (touched < views[j] - GUARD || touched >= views[j] + INSIDE + GUARD)
                continue;
            fault("%s: touched at %td, which may not be %s", slice_name[i], touched - now_at[i],
                  touched >= views[j] && touched < views[j] + INSIDE ? "written" : "touched");
        }
    }
    fault("memory was touched that is no slice: %p", (const void *)touched);
}

static uint8_t *map(int file, int protection)
{
    uint8_t *area = mmap(NULL, INSIDE + 3 * GUARD, PROT_NONE, MAP_PRIVATE | MAP_ANONYMOUS, -1, 0);
    if (area == MAP_FAILED)
        fault("no memory");
    area += 2 * GUARD - (uintptr_t)area % GUARD;
    if (mmap(area, INSIDE, protection, MAP_SHARED | MAP_FIXED, file, 0) != area)
        fault("no memory");
    return area;
}

/* Whether a byte can be read, and whether it can be written: asked of the system, which would copy it. */
static void want_access(const int *pipe_ends, uint8_t *at, bool can_read, bool can_write)
{
    uint8_t byte = 0;
    bool was_read = write(pipe_ends[1], at, 1) == 1;
    if (!was_read && write(pipe_ends[1], &byte, 1) != 1)
        fault("no pipe");
    bool was_written = read(pipe_ends[0], at, 1) == 1;
    if (!was_written && read(pipe_ends[0], &byte, 1) != 1)
        fault("no pipe");
    if (was_read != can_read || was_written != can_write)
        fault("the pages of this test don't guard");
}

static void want_guards(void)
{
    int ends[2];
    if (pipe(ends) != 0)
        fault("no pipe");
    for (int i = 0; i < SLICES; i++) {
        uint8_t *views[] = {writable_view[i], readable_view[i]};
        for (int j = 0; j < 2; j++) {
            want_access(ends, views[j] - 1, false, false);
            want_access(ends, views[j], true, j == 0);
            want_access(ends, views[j] + INSIDE - 1, true, j == 0);
            want_access(ends, views[j] + INSIDE, false, false);
        }
    }
    close(ends[0]);
    close(ends[1]);
}

void prepare(void)
{
    for (int i = 0; i < SLICES; i++) {
        int file = memfd_create(slice_name[i], 0);
        if (file < 0 || ftruncate(file, INSIDE) != 0)
            fault("no memory");
        writable_view[i] = map(file, PROT_READ | PROT_WRITE);
        readable_view[i] = map(file, PROT_READ);
        close(file);
    }
    want_guards();
    memset(clean, FILL, sizeof clean);
    memset(writable_view[OUTPUT], FILL, INSIDE);
    struct sigaction action;
    memset(&action, 0, sizeof action);
    action.sa_sigaction = on_signal;
    action.sa_flags = SA_SIGINFO | SA_RESETHAND;
    sigaction(SIGSEGV, &action, NULL);
    sigaction(SIGBUS, &action, NULL);
}

static void make_clean(enum place place)
{
    if (dirty_length[place] != 0)
        memset(dirty[place], FILL, dirty_length[place]);
    dirty_length[place] = 0;
}

/* What was written past the bytes sent is still there. */
void want_clean_output(void)
{
    const uint8_t *all = writable_view[OUTPUT];
    make_clean(ENDS);
    make_clean(BEGINS);
    if (all[0] != FILL || memcmp(all, all + 1, INSIDE - 1) != 0)
        fault("in this call or one of the last ones the output was changed past the bytes sent");
}

static bool takes(enum call call, int slice)
{
    return slice == BYTES ? call == HOST : slice == OUTPUT ? call != START : true;
}

static size_t offset(size_t length, enum place place)
{
    return place == BEGINS ? 0 : INSIDE - length;
}

/* What the last call at a place left of a slice. */
static uint8_t *left(int slice, enum place place)
{
    return writable_view[slice] + offset(now_length[slice], place);
}

/* One call from copies. Only slices whose bit is set in `writable` can be written. */
static uint8_t lend_at(enum place place, unsigned writable, const struct kept *kept)
{
    uint8_t **at = now_at;
    const size_t *length = now_length;
    for (int i = 0; i < SLICES; i++) {
        if (!takes(now, i))
            continue;
        if (i == OUTPUT) {
            make_clean(place);
            dirty[place] = left(i, place);
            dirty_length[place] = length[i];
        } else if (length[i] != 0) {
            memcpy(left(i, place), kept->at[i], length[i]);
        }
        at[i] = (writable >> i & 1 ? writable_view[i] : readable_view[i]) + offset(length[i], place);
        if (length[i] == 0 && place == BEGINS)
            at[i] = NULL;
    }
    switch (now) {
    case START:
        return panel_start(now_first, now_second, at[RECORD], length[RECORD], at[CHARACTERS], length[CHARACTERS],
                           at[MARKS], length[MARKS], at[RESULT], length[RESULT]);
    case HOST:
        return panel_host(at[RECORD], length[RECORD], at[CHARACTERS], length[CHARACTERS], at[MARKS], length[MARKS],
                          at[BYTES], length[BYTES], at[OUTPUT], length[OUTPUT], at[RESULT], length[RESULT]);
    default:
        return panel_key(at[RECORD], length[RECORD], at[CHARACTERS], length[CHARACTERS], at[MARKS], length[MARKS],
                         now_first, at[OUTPUT], length[OUTPUT], at[RESULT], length[RESULT]);
    }
}

#define ALL (~0u & ~(1u << BYTES))

/* The slices that a call with this number may write. */
static unsigned may_write(uint8_t number)
{
    if (now_length[RESULT] != PANEL_RESULT_LENGTH || now_length[RECORD] != PANEL_RECORD_LENGTH)
        return 0;
    if (number == PANEL_DONE || (number == PANEL_NO_ROOM && now == HOST))
        return ALL;
    return 1u << RESULT | (now == START ? 1u << RECORD : 0);
}

static uint32_t sent_now;

/* The number and what the call at a place left, held to docs/PANEL.md. */
static void check(uint8_t number, enum place place)
{
    static const uint8_t zeros[PANEL_RECORD_LENGTH];
    unsigned writes = may_write(number);
    sent_now = 0;
    if (writes == 0) {
        if (number != (now_length[RESULT] != PANEL_RESULT_LENGTH ? PANEL_WRONG_SIZE : PANEL_WRONG_STATE))
            fault("number %d, though the result or the record has a wrong length", number);
    } else {
        const uint8_t *result = left(RESULT, place);
        uint32_t taken = panel_four_bytes(result + PANEL_RESULT_TAKEN);
        uint32_t sent = panel_four_bytes(result + PANEL_RESULT_SENT);
        size_t given = now == HOST ? now_length[BYTES] : 0, room = now == START ? 0 : now_length[OUTPUT];
        if (result[PANEL_RESULT_NUMBER] != number || number > PANEL_REQUIRED_BLANK)
            fault("number %d returned, %d in the result", number, result[PANEL_RESULT_NUMBER]);
        if (taken > given || sent > room || (number == PANEL_DONE && taken != given))
            fault("number %d, taken %u, sent %u", number, taken, sent);
        if (writes != ALL && memcmp(result + 1, zeros, PANEL_RESULT_LENGTH - 1) != 0)
            fault("refused with %d, and the counts are not zeros", number);
        if (now == START && number != PANEL_DONE && memcmp(left(RECORD, place), zeros, PANEL_RECORD_LENGTH) != 0)
            fault("a refused start left a record that is not all zeros");
        sent_now = sent;
    }
    if (takes(now, OUTPUT)) {
        size_t past = now_length[OUTPUT] - sent_now;
        if (memcmp(left(OUTPUT, place) + sent_now, clean, past < NEAR ? past : NEAR) != 0)
            fault("number %d: the output past the %u bytes sent was changed", number, sent_now);
        dirty_length[place] = sent_now;
    }
}

uint8_t lend(enum call call, size_t first, size_t second, struct kept *kept)
{
    static unsigned lent;
    if (++lent % 64 == 0)
        want_clean_output();
    now = call;
    now_first = first;
    now_second = second;
    for (int i = 0; i < SLICES; i++) {
        now_length[i] = kept->length[i];
        if (now_length[i] > LONGEST)
            fault("%s is too long for this test", slice_name[i]);
    }
    uint8_t number = lend_at(ENDS, ALL, kept);
    unsigned writes = may_write(number);
    check(number, ENDS);
    if (lend_at(BEGINS, writes, kept) != number)
        fault("number %d, and another one with the slices lying elsewhere", number);
    check(number, BEGINS);
    for (int i = 0; i < SLICES; i++) {
        size_t compared = i == OUTPUT ? sent_now : now_length[i];
        if (!takes(call, i) || compared == 0)
            continue;
        if (memcmp(left(i, ENDS), left(i, BEGINS), compared) != 0)
            fault("number %d: %s is left another with the slices lying elsewhere", number, slice_name[i]);
        if (i == OUTPUT)
            continue;
        if (writes >> i & 1)
            memcpy(kept->at[i], left(i, ENDS), compared);
        else if (memcmp(left(i, ENDS), kept->at[i], compared) != 0)
            fault("number %d: %s was changed, and may not be", number, slice_name[i]);
    }
    return number;
}

const uint8_t *sent_bytes(void)
{
    return left(OUTPUT, ENDS);
}
