/* libFuzzer: every function of the archive against the independent program linked beside it, which is instrumented and leads the way.
   A difference prints both and aborts. */
#include <stdint.h>
#include <stdio.h>
#include <stdlib.h>
#include <string.h>
#include "bliskoru.h"

enum { LIST = 512, ROOM = 1 << 14 };

uint8_t second_judge(const uint8_t *sheet, size_t len, size_t *at);
uint8_t second_answers(const uint8_t *sheet, size_t len, uint64_t answers[18], size_t *at);
size_t second_list(const uint8_t *sheet, size_t len, uint8_t *out, size_t room);
uint8_t second_read(const uint8_t *sheet, size_t len, size_t at, int64_t values[6], size_t *next);
uint8_t second_tape_to_sheet(const uint8_t *tape, size_t len, uint8_t *sheet, size_t room, size_t *length, size_t *at);
uint8_t second_sheet_to_tape(const uint8_t *sheet, size_t len, uint8_t *tape, size_t room, size_t *length, size_t *at);
uint8_t second_to_new_header(const uint8_t *sheet, size_t len, uint8_t *out, size_t room, size_t *length, size_t *at);
uint8_t second_to_old_header(const uint8_t *sheet, size_t len, uint8_t *out, size_t room, size_t *length, size_t *at);

static unsigned long compared, accepted, texts, moved;

static void differ(const char *what, long long library, long long second) {
    fprintf(stderr, "DIFFERENCE in %s: library %lld, independent %lld\n", what, library, second);
    abort();
}

static void same(const char *what, long long library, long long second) {
    if (library != second) differ(what, library, second);
}

static uint8_t write_back(const int64_t v[6], uint8_t *out, size_t room, size_t *next) {
    switch (v[0]) {
    case 1: return bliskoru_write_header(out, room, 0, v[1], v[2], next);
    case 2: return bliskoru_write_previous_close(out, room, 0, v[1], v[2], next);
    case 3: return bliskoru_write_trade(out, room, 0, v[1], v[2], v[3], v[4], next);
    case 4: return bliskoru_write_quote(out, room, 0, v[1], v[2], v[3], v[4], v[5], next);
    case 6: return bliskoru_write_long_header(out, room, 0, v[1], v[2], v[3], next);
    default: return bliskoru_write_end(out, room, 0, v[1], next);
    }
}

/* Every field that can be read one behind the other, and written back as the same bytes. */
static void compare_fields(const uint8_t *sheet, size_t len) {
    size_t at = 0;
    for (;;) {
        int64_t a[6] = {0}, b[6] = {0};
        size_t next = at, second = at;
        uint8_t number = bliskoru_read(sheet, len, at, a, &next);
        same("a field's number", number, second_read(sheet, len, at, b, &second));
        same("the place behind a field", next, second);
        for (int i = 0; i < 6; i++) same("a field's value", a[i], b[i]);
        if (number) return;
        uint8_t bytes[17];
        size_t written = 0;
        same("a field written back", write_back(a, bytes, next - at, &written), 0);
        same("the length of a field written back", written, next - at);
        if (memcmp(bytes, sheet + at, written)) differ("the bytes of a field written back", 0, 0);
        at = next;
    }
}

static void compare_prices(const uint8_t *sheet, size_t len) {
    uint64_t a[18] = {0}, b[18] = {0};
    size_t at = 0, second = 0;
    uint8_t number = second_answers(sheet, len, b, &second);
    accepted += !number;
    same("the answers' number", bliskoru_answers(sheet, len, a, &at), number);
    same("the answers' byte", at, second);
    for (int i = 0; i < 18; i++) same("an answer", a[i], b[i]);
    uint8_t list[LIST], second_lines[LIST];
    size_t length = bliskoru_list(sheet, len, list, LIST);
    same("the list's length", length, second_list(sheet, len, second_lines, LIST));
    if (memcmp(list, second_lines, length)) differ("the list", 0, 0);
}

/* A turning by both. */
typedef uint8_t turning(const uint8_t *, size_t, uint8_t *, size_t, size_t *, size_t *);
static const struct turn {
    turning *library, *second;
} to_sheet = {bliskoru_tape_to_sheet, second_tape_to_sheet}, to_tape = {bliskoru_sheet_to_tape, second_sheet_to_tape},
  to_new = {bliskoru_to_new_header, second_to_new_header}, to_old = {bliskoru_to_old_header, second_to_old_header};

/* What both make of the same bytes in so much room, which is left in `out`; its length, or 0. */
static size_t compare_turned(const struct turn *turn, const uint8_t *bytes, size_t len, uint8_t *out, size_t room) {
    static uint8_t second[ROOM];
    size_t length = 0, second_length = 0, at = 0, second_at = 0;
    memset(out, 0xA5, room), memset(second, 0xA5, room);
    uint8_t number = turn->library(bytes, len, out, room, &length, &at);
    same("a turning's number", number, turn->second(bytes, len, second, room, &second_length, &second_at));
    same("a turning's place", at, second_at);
    same("a turning's length", length, second_length);
    if (memcmp(out, second, room)) differ("what was turned", 0, 0);
    return length;
}

/* Bytes turned as a tape or as a sheet, or moved to another header: in ample room, and where they are accepted in exact room, in a byte less, and
   back again. */
static int compare_there_and_back(const struct turn *there, const struct turn *back, const uint8_t *bytes, size_t len) {
    static uint8_t turned[ROOM], again[ROOM];
    size_t length = compare_turned(there, bytes, len, turned, ROOM);
    if (!length) return 0;
    same("a length in a byte too little", compare_turned(there, bytes, len, turned, length - 1), 0);
    same("a length in exact room", compare_turned(there, bytes, len, turned, length), length);
    same("a length there and back", compare_turned(back, turned, length, again, ROOM), len);
    if (memcmp(again, bytes, len)) differ("what comes back", 0, 0);
    return 1;
}

static void report(void) {
    fprintf(stderr, "%lu sheets and texts compared, %lu sheets accepted and priced, %lu moved to another header; %lu texts accepted\n", compared,
            accepted, moved, texts);
}

int LLVMFuzzerInitialize(int *count, char ***words) {
    (void)count, (void)words;
    atexit(report);
    return 0;
}

int LLVMFuzzerTestOneInput(const uint8_t *sheet, size_t len) {
    static const uint8_t none[1];
    if (!len) sheet = none;
    size_t at = 0, second = 0;
    uint8_t number = bliskoru_judge(sheet, len, &at);
    same("the judgement", number, second_judge(sheet, len, &second));
    same("the judgement's byte", at, second);
    compare_fields(sheet, len);
    compare_prices(sheet, len);
    compare_there_and_back(&to_tape, &to_sheet, sheet, len);
    texts += compare_there_and_back(&to_sheet, &to_tape, sheet, len);
    moved += compare_there_and_back(&to_new, &to_old, sheet, len) + compare_there_and_back(&to_old, &to_new, sheet, len);
    compared++;
    return 0;
}

size_t LLVMFuzzerMutate(uint8_t *bytes, size_t len, size_t most);

/* libFuzzer's own change; then, half of the time, a sheet's end field is put right, so that those with more or fewer fields are accepted too. A
   text starts with a letter or a digit and is left as it is. */
size_t LLVMFuzzerCustomMutator(uint8_t *bytes, size_t len, size_t most, unsigned seed) {
    static const size_t size[7] = {0, 6, 8, 14, 17, 0, 7}; /* by tag, and none for the end */
    len = LLVMFuzzerMutate(bytes, len, most);
    if (seed % 2 || (len && bytes[0] >= '0')) return len;
    size_t at = 0;
    uint32_t count = 0;
    while (at < len && bytes[at] <= 6 && size[bytes[at]] && at + size[bytes[at]] <= len) at += size[bytes[at]], count++;
    if (at + 7 > most) return len;
    size_t next;
    bliskoru_write_end(bytes, most, at, count, &next);
    return next;
}
