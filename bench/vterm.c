/* libvterm's screen layer over a stream, as a program that draws would use it: vterm FILE ROWS COLUMNS CALL BYTES. Its
   rules are others, so that nothing is compared: it shows what a terminal in use costs. */
#include <stdint.h>
#include <stdio.h>
#include <stdlib.h>
#include <time.h>
#include <vterm.h>

static unsigned long damaged;

static int damage(VTermRect rect, void *user)
{
    (void)user;
    damaged += (unsigned long)(rect.end_row - rect.start_row) * (unsigned long)(rect.end_col - rect.start_col);
    return 1;
}

static const VTermScreenCallbacks callbacks = {.damage = damage};

static double seconds(void)
{
    struct timespec now;
    clock_gettime(CLOCK_MONOTONIC, &now);
    return (double)now.tv_sec + (double)now.tv_nsec / 1e9;
}

/* the whole file, whatever part is used, as drive.c does */
static char *contents(const char *name, size_t *length)
{
    FILE *file = fopen(name, "rb");
    if (!file || fseek(file, 0, SEEK_END) != 0)
        exit(2);
    *length = (size_t)ftell(file);
    rewind(file);
    char *bytes = malloc(*length + 1);
    if (!bytes || fread(bytes, 1, *length, file) != *length)
        exit(2);
    fclose(file);
    return bytes;
}

int main(int count, char **words)
{
    if (count != 6) {
        fputs("usage: vterm FILE ROWS COLUMNS CALL BYTES\n", stderr);
        return 2;
    }
    size_t have, call = strtoul(words[4], NULL, 10), length = strtoul(words[5], NULL, 10);
    char *bytes = contents(words[1], &have);
    VTerm *terminal = vterm_new(atoi(words[2]), atoi(words[3]));
    VTermScreen *screen = vterm_obtain_screen(terminal);
    if (length > have || call == 0)
        return 2;
    vterm_set_utf8(terminal, 1);
    vterm_screen_set_callbacks(screen, &callbacks, NULL);
    vterm_screen_set_damage_merge(screen, VTERM_DAMAGE_SCROLL);
    vterm_screen_reset(screen, 1);
    double before = seconds();
    for (size_t at = 0; at < length; at += call) {
        vterm_input_write(terminal, bytes + at, call < length - at ? call : length - at);
        vterm_screen_flush_damage(screen);
    }
    double after = seconds();
    printf("damaged %lu\nMB/s %.3f\n", damaged, (double)length / 1e6 / (after - before));
    vterm_free(terminal);
    free(bytes);
    return 0;
}
