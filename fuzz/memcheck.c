/* Calls every function of the archive with memory of exactly the size it is lent, each piece in a heap block of its own, so that valgrind sees
   every byte that is read or written outside it and every byte that is told without having been written.
   memcheck SHEET TAPE SHEETS TAPES: a sheet and a text that are cut and flipped, and a stream of many of each (four bytes of length, then it). */
#include <stdint.h>
#include <stdio.h>
#include <stdlib.h>
#include <string.h>
#include "bliskoru.h"

enum { LIMIT = 1048576, LIST = 512 };

static unsigned long calls, sheets, texts;
static uint64_t sum; /* of all that the calls told: printed, so that a byte that was never written is noticed */

static void fail(const char *what) {
    printf("memcheck: %s\n", what);
    exit(1);
}

static void *block(size_t size) {
    void *p = malloc(size);
    if (!p) fail("no memory");
    return p;
}

static uint8_t *copy(const uint8_t *bytes, size_t size) {
    uint8_t *p = block(size);
    memcpy(p, bytes, size);
    return p;
}

static void read_at(const uint8_t *sheet, size_t len, size_t at) {
    int64_t *values = block(6 * sizeof *values);
    size_t *next = block(sizeof *next);
    if (bliskoru_read(sheet, len, at, values, next) == 0) {
        for (int i = 0; i < 6; i++) sum += (uint64_t)values[i];
        sum += *next;
    }
    calls++;
    free(values), free(next);
}

/* The list into a buffer of this size: whole, or not a byte changed. */
static void list_into(const uint8_t *sheet, size_t len, size_t room) {
    uint8_t *out = block(room);
    memset(out, 0xA5, room);
    size_t told = bliskoru_list(sheet, len, out, room);
    if (told > room) fail("a list longer than its buffer");
    for (size_t i = told; i < room; i++)
        if (out[i] != 0xA5) fail("a byte behind the list was changed");
    for (size_t i = 0; i < told; i++) sum += out[i];
    calls++;
    free(out);
}

static void price(const uint8_t *sheet, size_t len) {
    uint64_t *answers = block(18 * sizeof *answers);
    size_t *at = block(sizeof *at);
    if (bliskoru_answers(sheet, len, answers, at) == 0)
        for (int i = 0; i < 18; i++) sum += answers[i];
    else
        sum += *at;
    calls++;
    list_into(sheet, len, LIST);
    free(answers), free(at);
}

/* One of the four functions that make a sheet or a tape of another. */
typedef uint8_t turning(const uint8_t *, size_t, uint8_t *, size_t, size_t *, size_t *);

/* Turned into a buffer of this size: whole, or not a byte changed. Its length, or 0. */
static size_t turn_into(turning *turn, const uint8_t *bytes, size_t len, uint8_t *out, size_t room) {
    size_t *length = block(sizeof *length), *at = block(sizeof *at), told = 0;
    memset(out, 0xA5, room);
    if (turn(bytes, len, out, room, length, at) == 0) told = *length;
    else sum += *at;
    if (told > room) fail("more was turned than there is room for");
    for (size_t i = told; i < room; i++)
        if (out[i] != 0xA5) fail("a byte behind what was turned was changed");
    for (size_t i = 0; i < told; i++) sum += out[i];
    calls++;
    free(length), free(at);
    return told;
}

static size_t turn_in_room(turning *turn, const uint8_t *bytes, size_t len, size_t room) {
    uint8_t *out = block(room);
    size_t told = turn_into(turn, bytes, len, out, room);
    free(out);
    return told;
}

/* In room that is ample and none; what is accepted also in exact room, in a byte less, and back again. */
static void there_and_back(turning *there, turning *back, const uint8_t *bytes, size_t len) {
    size_t told = turn_in_room(there, bytes, len, 3 * len);
    if (turn_in_room(there, bytes, len, 0)) fail("something was turned without room");
    if (!told) return;
    if (turn_in_room(there, bytes, len, told - 1)) fail("more was turned than there is room for");
    uint8_t *turned = block(told), *again = block(len);
    if (turn_into(there, bytes, len, turned, told) != told) fail("no turning into exact room");
    if (turn_into(back, turned, told, again, len) != len || memcmp(again, bytes, len)) fail("another one comes back");
    free(turned), free(again);
}

static void as_text(const uint8_t *bytes, size_t len) {
    uint8_t *tape = copy(bytes, len);
    there_and_back(bliskoru_tape_to_sheet, bliskoru_sheet_to_tape, tape, len);
    texts++;
    free(tape);
}

/* Moved to either header. */
static void moves(const uint8_t *sheet, size_t len) {
    there_and_back(bliskoru_to_new_header, bliskoru_to_old_header, sheet, len);
    there_and_back(bliskoru_to_old_header, bliskoru_to_new_header, sheet, len);
}

/* Judged, priced, read at every place (a long sheet at a few), turned into text, and moved to either header. */
static void everything(const uint8_t *bytes, size_t len) {
    uint8_t *sheet = copy(bytes, len);
    size_t *at = block(sizeof *at);
    uint8_t number = bliskoru_judge(sheet, len, at);
    sum += number ? *at : 0;
    calls++, sheets++;
    price(sheet, len);
    size_t step = len < 2000 ? 1 : len / 500;
    for (size_t place = 0; place <= len + 3; place += step) read_at(sheet, len, place);
    read_at(sheet, len, SIZE_MAX), read_at(sheet, len, SIZE_MAX - 2);
    there_and_back(bliskoru_sheet_to_tape, bliskoru_tape_to_sheet, sheet, len);
    moves(sheet, len);
    free(sheet), free(at);
}

typedef void look(const uint8_t *bytes, size_t len);

static void cuts(look *each, const uint8_t *bytes, size_t len) {
    for (size_t n = 0; n <= len; n++) each(bytes, n);
}

static void flips(look *each, const uint8_t *bytes, size_t len) {
    uint8_t *flipped = copy(bytes, len);
    for (size_t bit = 0; bit < 8 * len; bit++) {
        flipped[bit / 8] ^= 1u << bit % 8;
        each(flipped, len);
        flipped[bit / 8] ^= 1u << bit % 8;
    }
    free(flipped);
}

/* One writer over a buffer of this size at this place, with values inside or outside their ranges. */
static uint8_t write_one(int kind, uint8_t *buffer, size_t len, size_t at, int good, size_t *next) {
    switch (kind) {
    case 0: return bliskoru_write_header(buffer, len, at, good ? 5 : 6, 2047, next);
    case 1: return bliskoru_write_previous_close(buffer, len, at, 11, good ? -9999999 : -10000000, next);
    case 2: return bliskoru_write_trade(buffer, len, at, 86399999, 0, 99999999, good ? 10000 : 10001, next);
    case 3: return bliskoru_write_quote(buffer, len, at, 0, 1, 3, good ? 0 : 1, 0, next);
    case 4: return bliskoru_write_long_header(buffer, len, at, 1, 0, good ? 2 : 3, next);
    default: return bliskoru_write_end(buffer, len, at, good ? UINT32_MAX : 0, next);
    }
}

static void write_at(int kind, size_t len, size_t at, int good) {
    uint8_t *buffer = block(len), *before = block(len);
    size_t *next = block(sizeof *next);
    memset(buffer, 0x5A, len), memset(before, 0x5A, len);
    if (write_one(kind, buffer, len, at, good, next) == 0) {
        if (*next > len || *next < at) fail("a place outside the buffer");
        if (memcmp(buffer, before, at) || memcmp(buffer + *next, before, len - *next)) fail("a byte outside the field was changed");
        sum += *next;
        read_at(buffer, *next, at);
    } else if (memcmp(buffer, before, len))
        fail("a refused write changed a byte");
    calls++;
    free(buffer), free(before), free(next);
}

static void writers(void) {
    for (int kind = 0; kind < 6; kind++)
        for (int good = 0; good < 2; good++)
            for (size_t len = 0; len <= 20; len++) {
                for (size_t at = 0; at <= len + 1; at++) write_at(kind, len, at, good);
                for (size_t less = 0; less < 20; less++) write_at(kind, len, SIZE_MAX - less, good);
            }
}

/* A sheet at its limit and one byte longer, with one field behind the other. */
static void longest(void) {
    uint8_t *sheet = block(LIMIT + 1);
    size_t at = 0;
    memset(sheet, 0, LIMIT + 1);
    bliskoru_write_header(sheet, LIMIT, at, 1, 0, &at);
    while (bliskoru_write_trade(sheet, LIMIT, at, 58500000, 0, 1800000, 1, &at) == 0) calls++;
    everything(sheet, LIMIT), everything(sheet, LIMIT + 1);
    free(sheet);
}

/* The longest sheet with a short header that can be moved, 1,048,575 bytes, and the longest there is, which cannot: 14 bytes a trade, 17 a quote.
   Both are accepted and priced. */
static void longest_moves(void) {
    static const size_t trades[2] = {74890, 74884}, quotes[2] = {6, 11};
    for (int i = 0; i < 2; i++) {
        size_t len = 6 + 14 * trades[i] + 17 * quotes[i] + 7, at = 0;
        uint8_t *sheet = block(len);
        bliskoru_write_header(sheet, len, at, 1, 0, &at);
        for (size_t k = 0; k < trades[i]; k++) bliskoru_write_trade(sheet, len, at, 58500000, 0, 1800000, 1, &at);
        for (size_t k = 0; k < quotes[i]; k++) bliskoru_write_quote(sheet, len, at, 58500000, 0, 0, 0, 0, &at);
        bliskoru_write_end(sheet, len, at, 1 + trades[i] + quotes[i], &at);
        calls += 2 + trades[i] + quotes[i];
        if (turn_in_room(bliskoru_to_new_header, sheet, at, len + 1) != (len < LIMIT ? len + 1 : 0)) fail("a long sheet's move");
        price(sheet, len), moves(sheet, len);
        free(sheet);
    }
}

/* A text of the longest sheet that has trades alone behind a long header, 74,897 of them, and one with a line more. */
static void longest_text(void) {
    static const char metal[] = "METAL,Nickel,0,1\n", trade[] = "58500000,3M,TRADE,18000.00,10000\n";
    enum { TRADES = 74897, METAL = sizeof metal - 1, TRADE = sizeof trade - 1 };
    uint8_t *tape = block(METAL + TRADE * (TRADES + 1)), *at = tape + METAL;
    memcpy(tape, metal, METAL);
    for (int i = 0; i <= TRADES; i++) memcpy(at, trade, TRADE), at += TRADE;
    as_text(tape, METAL + TRADE * TRADES), as_text(tape, METAL + TRADE * (TRADES + 1));
    free(tape);
}

/* A sheet with a long header and all contracts by VWAP. Flipped to 1 or 2 its third value bars a trade. */
static size_t long_headed(uint8_t *sheet, size_t room) {
    static const uint8_t spreads[5] = {1, 3, 5, 7, 11};
    size_t at = 0;
    bliskoru_write_long_header(sheet, room, at, 1, 0, 0, &at);
    for (int i = 0; i < 5; i++) bliskoru_write_trade(sheet, room, at, 58200000, spreads[i], -300, 6, &at);
    bliskoru_write_trade(sheet, room, at, 58500000, 0, 1800040, 6, &at);
    bliskoru_write_end(sheet, room, at, 7, &at);
    calls += 8;
    return at;
}

static uint8_t *file(const char *name, size_t *len) {
    FILE *f = fopen(name, "rb");
    if (!f) fail(name);
    uint8_t *bytes = block(1 << 24);
    *len = fread(bytes, 1, 1 << 24, f);
    fclose(f);
    return bytes;
}

static void stream(const char *name, look *each) {
    size_t len;
    uint8_t *bytes = file(name, &len);
    for (size_t at = 0; at + 4 <= len;) {
        size_t n = (size_t)bytes[at] << 24 | bytes[at + 1] << 16 | bytes[at + 2] << 8 | bytes[at + 3];
        each(bytes + at + 4, n);
        at += 4 + n;
    }
    free(bytes);
}

/* What it is turned into in each room up to 300 bytes. */
static void rooms(turning *turn, const uint8_t *bytes, size_t len) {
    uint8_t *exact = copy(bytes, len);
    for (size_t room = 0; room <= 300; room++) turn_in_room(turn, exact, len, room);
    free(exact);
}

/* Every cut and every flipped bit of a file, and what it is turned into in each room. */
static void around(const char *name, look *each, turning *turn) {
    size_t len;
    uint8_t *given = file(name, &len);
    cuts(each, given, len), flips(each, given, len);
    rooms(turn, given, len);
    free(given);
}

int main(int count, char **names) {
    if (count != 5) fail("usage: memcheck SHEET TAPE SHEETS TAPES");
    around(names[1], everything, bliskoru_sheet_to_tape);
    around(names[2], as_text, bliskoru_tape_to_sheet);

    uint8_t made[200], old[200];
    size_t len = long_headed(made, sizeof made), old_len = turn_into(bliskoru_to_old_header, made, len, old, sizeof old);
    cuts(everything, made, len), flips(everything, made, len);
    rooms(bliskoru_to_old_header, made, len), rooms(bliskoru_to_new_header, old, old_len);
    uint8_t *exact = copy(made, len);
    for (size_t room = 0; room <= LIST; room++) list_into(exact, len, room);
    free(exact);

    writers();
    longest();
    longest_moves();
    longest_text();
    stream(names[3], everything);
    stream(names[4], as_text);
    printf("memcheck: %lu calls over %lu sheets and %lu texts; sum %llu\n", calls, sheets, texts, (unsigned long long)sum);
    return 0;
}
