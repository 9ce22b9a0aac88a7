/* What plain.c and limit.c have in common: big-endian loads, the tables of docs/RULES.md, pricing once the trades of a day are added up, and a
   judged sheet copied behind another header. */
#ifndef PRICING_H
#define PRICING_H

#include <stddef.h>
#include <stdint.h>
#include <string.h>

#if __BYTE_ORDER__ != __ORDER_LITTLE_ENDIAN__
#error "written for processors that store the lowest byte first"
#endif

#define INLINE static inline __attribute__((always_inline))

typedef const uint8_t *Bytes;

enum { LONGEST = 1048576, WINDOW = 300000, DAY = 86400000, CONTRACTS = 6, INSTRUMENTS = 12 };

INLINE uint32_t big16(Bytes p) {
    uint16_t word;
    memcpy(&word, p, sizeof word);
    return __builtin_bswap16(word);
}

INLINE uint32_t big32(Bytes p) {
    uint32_t word;
    memcpy(&word, p, sizeof word);
    return __builtin_bswap32(word);
}

/* The lots and lots times price of an instrument's trades. */
struct total {
    int64_t lots, value;
};

/* By metal. The anchor window follows upon the spread window. */
static const struct metal {
    char name[12];
    uint32_t length, spread_start, step;
} METALS[6] = {
    {"", 0, 0, 1},
    {"Nickel\n", 7, 58200000, 100},
    {"Aluminium\n", 10, 58800000, 50},
    {"Zinc\n", 5, 59400000, 50},
    {"Copper\n", 7, 60000000, 50},
    {"Lead\n", 5, 60600000, 50},
};

/* The first millisecond of an instrument's window, once the sheet's header is judged. */
INLINE uint32_t window_start(Bytes sheet, int instrument) {
    return METALS[sheet[3]].spread_start + (instrument ? 0 : WINDOW);
}

/* Contract k is priced from the instruments FIRST[k] up to FIRST[k + 1], and by TWAP from ASKED[k]. */
static const uint8_t FIRST[CONTRACTS + 1] = {0, 1, 2, 4, 7, 11, 12};
static const uint8_t ASKED[CONTRACTS] = {0, 1, 3, 5, 7, 11};

/* The contract at an instrument's other leg; 3M outright has none, whose close is 0. */
enum { NOTHING = CONTRACTS };
static const uint8_t OTHER[INSTRUMENTS] = {NOTHING, 0, 0, 1, 2, 1, 0, 2, 1, 0, 3, 4};

/* By a long header's third value: the instruments that may have no field, a bit each, and the contract that has the answer of 3M. */
static const struct third {
    uint16_t barred;
    uint8_t named;
} THIRDS[3] = {
    {0, NOTHING},
    {1 << 1 | 1 << 2 | 1 << 6 | 1 << 9, 1},
    {1 << 4 | 1 << 5 | 1 << 6 | 1 << 10, 3},
};

/* What a sheet's header says of 3M, once it is judged. A short header says the same as 0. */
INLINE struct third third(Bytes sheet) {
    return THIRDS[sheet[0] == 6 ? sheet[6] : 0];
}

/* The spreads that are taken from their other leg: those of M4. A mark turns a spread round. */
enum { TAKEN = 1 << 4 | 1 << 5 | 1 << 6 };

INLINE int64_t turned(uint32_t less, int instrument, int64_t price) {
    return less >> instrument & 1 ? -price : price;
}

/* sum / parts to a step, halves up; 0 for what lies below 0, since neither is a close. */
INLINE uint64_t rounded(int64_t sum, int64_t parts, int64_t step) {
    int64_t above = 2 * sum + parts * step;
    return above < 0 ? 0 : (uint64_t)above / (uint64_t)(2 * parts * step) * (uint64_t)step;
}

/* The sum of an instrument's indicator over the milliseconds of its window; `refused` where no price stands at the first. */
typedef int64_t Indicated(void *day, int instrument, int *refused);

/* The row of a contract from the totals inside the windows; its number says whether the list goes on. */
INLINE int contract(int k, int64_t step, const struct total *totals, uint32_t less, Indicated *indicated, void *day, int64_t *closes,
                    uint64_t *row) {
    int method = 1, refused = 0, asked = ASKED[k];
    int64_t lots = 0, sum = 0, parts;
    for (int i = FIRST[k]; i < FIRST[k + 1]; i++) {
        lots += totals[i].lots;
        sum += totals[i].lots * closes[OTHER[i]] + turned(less, i, totals[i].value);
    }
    parts = lots;
    if (lots < 5) {
        method = 2, parts = WINDOW;
        sum = WINDOW * closes[OTHER[asked]] + turned(less, asked, indicated(day, asked, &refused));
    }
    uint64_t close = rounded(sum, parts, step);
    if (refused || close - 1 >= 99999999) method = refused ? 13 : 14, close = 0;
    row[0] = (uint64_t)method, row[1] = close, row[2] = (uint64_t)lots;
    closes[k] = (int64_t)close;
    return method <= 2;
}

/* The row of 3M once more, for the contract that is 3M. */
INLINE void take(int k, int64_t *closes, uint64_t *rows) {
    memcpy(rows + 3 * k, rows, 3 * sizeof *rows);
    closes[k] = closes[0];
}

/* The six rows of a judged sheet. */
INLINE void price(Bytes sheet, const struct total *totals, Indicated *indicated, void *day, uint64_t *rows) {
    int64_t closes[CONTRACTS + 1];
    uint32_t less = big16(sheet + 4) << 1 ^ TAKEN;
    closes[NOTHING] = 0;
    int k = 1, named = third(sheet).named, open = contract(0, METALS[sheet[3]].step, totals, less, indicated, day, closes, rows);
    for (; k < CONTRACTS && open; k++)
        if (k == named) take(k, closes, rows);
        else open = contract(k, 1, totals, less, indicated, day, closes, rows + 3 * k);
    for (; k < CONTRACTS; k++) rows[3 * k] = 15, rows[3 * k + 1] = rows[3 * k + 2] = 0;
}

/* A sheet judged, and copied behind the header with this tag: 6 for the long one, 1 for the short one. */
typedef uint8_t Judging(const uint8_t *sheet, size_t len, size_t *at);
INLINE uint8_t moved(Judging *judge, int tag, Bytes sheet, size_t len, uint8_t *out, size_t room, size_t *length, size_t *at) {
    uint8_t number = judge(sheet, len, at);
    if (number) return number;
    size_t from = sheet[0] == 6 ? 7 : 6, to = tag == 6 ? 7 : 6, size = len - from + to;
    number = sheet[0] == tag || third(sheet).named != NOTHING ? 19 : size > LONGEST ? 1 : size > room ? 16 : 0;
    if (number) return *at = 0, number;
    memcpy(out + to, sheet + from, len - from);
    if (tag == 6) out[6] = 0;
    memcpy(out + 3, sheet + 3, 3);
    out[0] = (uint8_t)tag, out[1] = 0, out[2] = (uint8_t)(to - 3);
    *length = size;
    return 0;
}

#endif
