/* The deepest stack of each function of the archive: each is called on a painted stack of its own over the sheets named on the command line,
   and the paint that is gone is counted, less that of an empty call. It takes no memory from the heap itself, so valgrind, where nothing is
   painted, counts the library's. */
#include <fcntl.h>
#include <stdint.h>
#include <stdio.h>
#include <string.h>
#include <ucontext.h>
#include <unistd.h>
#include <valgrind/valgrind.h>
#include "bliskoru.h"

enum { STACK = 1 << 20, PAINT = 0xA5 };

static uint8_t stack[STACK] __attribute__((aligned(64)));
static uint8_t sheet[1048576], out[512], tape[3 * sizeof sheet], again[sizeof sheet], moved[sizeof sheet];
static size_t len, tape_len, again_len, moved_len, place;
static uint64_t answers[18];
static int64_t values[6];
static ucontext_t here, there;

static void nothing(void) {}
static void list(void) { bliskoru_list(sheet, len, out, sizeof out); }
static void judge(void) { bliskoru_judge(sheet, len, &place); }
static void price(void) { bliskoru_answers(sheet, len, answers, &place); }
static void read_all(void) {
    size_t at = 0;
    while (bliskoru_read(sheet, len, at, values, &at) == 0)
        ;
}
static void to_tape(void) { bliskoru_sheet_to_tape(sheet, len, tape, sizeof tape, &tape_len, &place); }
static void to_sheet(void) { bliskoru_tape_to_sheet(tape, tape_len, again, sizeof again, &again_len, &place); }
static void to_new(void) { bliskoru_to_new_header(sheet, len, moved, sizeof moved, &moved_len, &place); }
static void to_old(void) { bliskoru_to_old_header(moved, moved_len, again, sizeof again, &again_len, &place); }
static void write_each(void) {
    bliskoru_write_header(out, sizeof out, 0, 1, 0, &place);
    bliskoru_write_long_header(out, sizeof out, 0, 1, 0, 1, &place);
    bliskoru_write_previous_close(out, sizeof out, 0, 11, -250, &place);
    bliskoru_write_trade(out, sizeof out, 0, 58500000, 0, 1800040, 3, &place);
    bliskoru_write_quote(out, sizeof out, 0, 58500000, 0, 3, 1800000, 1800010, &place);
    bliskoru_write_end(out, sizeof out, 0, 10, &place);
}

static size_t depth(void (*run)(void)) {
    if (RUNNING_ON_VALGRIND) {
        run();
        return 0;
    }
    memset(stack, PAINT, sizeof stack);
    getcontext(&there);
    there.uc_stack.ss_sp = stack;
    there.uc_stack.ss_size = sizeof stack;
    there.uc_link = &here;
    makecontext(&there, run, 0);
    swapcontext(&here, &there);
    size_t untouched = 0;
    while (untouched < sizeof stack && stack[untouched] == PAINT) untouched++;
    return sizeof stack - untouched;
}

static int say(const char *name, void (*run)(void)) {
    char line[80];
    int n = snprintf(line, sizeof line, "%-8s %zu bytes of stack\n", name, depth(run) - depth(nothing));
    return write(1, line, n) == n;
}

int main(int count, char **names) {
    for (int i = 1; i < count; i++) {
        int file = open(names[i], O_RDONLY);
        ssize_t got = 0;
        for (len = 0; (got = read(file, sheet + len, sizeof sheet - len)) > 0; len += got)
            ;
        close(file);
        char line[300];
        int n = snprintf(line, sizeof line, "%s, %zu bytes\n", names[i], len);
        if (write(1, line, n) != n) return 1;
        say("list", list), say("judge", judge), say("answers", price), say("read", read_all), say("write", write_each);
        say("to-tape", to_tape), say("to-sheet", to_sheet), say("to-new", to_new), say("to-old", to_old);
    }
    return 0;
}
