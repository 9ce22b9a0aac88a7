/*
 * The limit: a day sheet judged, read, priced and listed by C written for speed, with the results of hosts/c/bliskoru.h's functions of
 * the same shapes. Nothing is copied and nothing is kept; no heap.
 *
 * A good sheet is taken in one pass that only asks "is this record good?". Where it stops, `refusal` finds the number field by field.
 */
#include "sides.h"
#include "pricing.h"

#define UNLIKELY(test) __builtin_expect(!!(test), 0)

enum { LONGEST_LISTED = 65536, LIST_ROOM = 256 };

/* A field's three head bytes as `head` loads them, and the bytes of the whole field. */
#define HEAD(tag, length) ((tag) | (length) << 16)
enum { HEADER = HEAD(1, 3), CLOSE = HEAD(2, 5), TRADE = HEAD(3, 11), QUOTE = HEAD(4, 14), END = HEAD(5, 4), LONG_HEADER = HEAD(6, 4) };
enum { HEADER_BYTES = 6, CLOSE_BYTES = 8, TRADE_BYTES = 14, QUOTE_BYTES = 17, END_BYTES = 7, LONG_HEADER_BYTES = 7 };

INLINE uint64_t big64(Bytes p) {
    uint64_t word;
    memcpy(&word, p, sizeof word);
    return __builtin_bswap64(word);
}

/* Needs four bytes. */
INLINE uint32_t head(Bytes p) {
    uint32_t word;
    memcpy(&word, p, sizeof word);
    return word & 0xFFFFFF;
}

/* The prices of an instrument: `count` of them from `low` on. None for a byte that is no instrument or a barred one, so that one comparison judges
   all three. */
struct range {
    uint32_t low, count;
};
#define OUTRIGHT {1, 99999999}
#define SPREAD {(uint32_t)-9999999, 19999999}
#define BARRED {0, 0}
/* By a header's third value, with 0 for a short header too. */
static const struct range RANGES[3][256] = {
    {OUTRIGHT, SPREAD, SPREAD, SPREAD, SPREAD, SPREAD, SPREAD, SPREAD, SPREAD, SPREAD, SPREAD, SPREAD},
    {OUTRIGHT, BARRED, BARRED, SPREAD, SPREAD, SPREAD, BARRED, SPREAD, SPREAD, BARRED, SPREAD, SPREAD},
    {OUTRIGHT, SPREAD, SPREAD, SPREAD, BARRED, BARRED, BARRED, SPREAD, SPREAD, SPREAD, BARRED, SPREAD},
};

INLINE struct range range_of(const struct range *ranges, uint8_t instrument) {
    uint64_t word;
    memcpy(&word, &ranges[instrument], sizeof word);
    return (struct range){(uint32_t)word, (uint32_t)(word >> 32)};
}

INLINE int priced(struct range range, uint32_t price) {
    return price - range.low < range.count;
}

/* A quote with sides other than 3 is good, its time aside. */
static __attribute__((noinline)) int good_with_a_side_absent(Bytes p, const struct range *ranges) {
    struct range range = range_of(ranges, p[7]);
    uint32_t sides = p[8], bid = big32(p + 9), offer = big32(p + 13);
    return sides < 3 && range.count && (sides & 1 ? priced(range, bid) : !bid) && (sides & 2 ? priced(range, offer) : !offer);
}

/* A whole header, short or long, by its tag. */
INLINE int good_header(Bytes p) {
    return p[3] - 1u < 5 && big16(p + 4) < 0x800 && (p[0] == 1 || p[6] < 3);
}

/* All tests of a trade at once: they nearly always hold. */
INLINE int good_trade(Bytes p, const struct range *ranges, uint32_t time, uint32_t least, uint32_t until) {
    struct range range = range_of(ranges, p[7]);
    uint64_t tail = big64(p + 6);
    return !((time < least) | (until && time >= until) | !priced(range, (uint32_t)(tail >> 16)) | ((uint32_t)(tail & 0xFFFF) - 1 >= 10000));
}

/* An offer in range and a bid not above it put both in range. */
INLINE int good_quote(Bytes p, const struct range *ranges, uint32_t time, uint32_t least, uint32_t until) {
    struct range range = range_of(ranges, p[7]);
    uint64_t both = big64(p + 9);
    uint32_t bid = (uint32_t)(both >> 32) - range.low, offer = (uint32_t)both - range.low;
    if (UNLIKELY(time < least || (until && time >= until))) return 0;
    if (UNLIKELY(p[8] != 3 || offer >= range.count || bid > offer)) return good_with_a_side_absent(p, ranges);
    return 1;
}

/* What a field's head earns before its values are looked at: 2, 3, 4 or 0. */
static unsigned shape(Bytes p, size_t left, size_t *bytes) {
    static const uint8_t LENGTHS[7] = {0, 3, 5, 11, 14, 4, 4};
    if (left < 3) return 2;
    if (p[0] - 1u >= 6) return 3;
    if (big16(p + 1) != LENGTHS[p[0]]) return 4;
    *bytes = 3u + LENGTHS[p[0]];
    return left < *bytes ? 2 : 0;
}

static unsigned quote_fault(Bytes p, struct range range) {
    uint32_t sides = p[8], bid = big32(p + 9), offer = big32(p + 13);
    if (sides > 3 || (!(sides & 1) && bid) || (!(sides & 2) && offer)) return 11;
    if (((sides & 1) && !priced(range, bid)) || ((sides & 2) && !priced(range, offer))) return 9;
    return sides == 3 && (int32_t)bid > (int32_t)offer ? 11 : 0;
}

/* What the values of a whole field earn, its time being at least so much and its instrument one that has a range here: 6 to 11, 18 or 0. */
static unsigned fault(Bytes p, const struct range *ranges, uint32_t least) {
    if (p[0] == 1 || p[0] == 6) return good_header(p) ? 0 : 6;
    if (p[0] == 5) return 0;
    uint8_t instrument = p[p[0] == 2 ? 3 : 7];
    struct range range = RANGES[0][instrument];
    if (!range.count) return 7;
    if (!ranges[instrument].count) return 18;
    if (p[0] == 2) return priced(range, big32(p + 4)) ? 0 : 9;
    if (big32(p + 3) >= DAY || big32(p + 3) < least) return 8;
    if (p[0] == 4) return quote_fault(p, range);
    if (!priced(range, big32(p + 8))) return 9;
    return big16(p + 12) - 1 < 10000 ? 0 : 10;
}

/* How far a sheet is good: the place, the ranges by its header, the fields before it, the latest close's instrument and record's time. */
struct good {
    Bytes p;
    const struct range *ranges;
    uint32_t fields, time;
    int close, records;
};

static int in_place(Bytes p, const struct good *good) {
    int header = p[0] == 1 || p[0] == 6;
    if (!good->fields || header) return !good->fields && header;
    return p[0] != 2 || (!good->records && p[3] > good->close);
}

/* The refusal of a sheet that is good so far, field by field. */
static __attribute__((noinline, cold)) unsigned refusal(Bytes sheet, size_t len, struct good good, size_t *at) {
    Bytes end = sheet + len;
    for (;; good.fields++) {
        size_t bytes;
        unsigned number = shape(good.p, (size_t)(end - good.p), &bytes);
        if (!number && !in_place(good.p, &good)) number = 5;
        if (!number) number = fault(good.p, good.ranges, good.time);
        if (!number && good.p[0] == 5 && big32(good.p + 3) != good.fields) number = 12;
        *at = (size_t)(good.p - sheet);
        if (number) return number;
        if (good.p[0] == 5) {
            *at += END_BYTES;
            return *at == len ? 0 : 5;
        }
        if (good.p[0] == 6) good.ranges = RANGES[good.p[6]];
        if (good.p[0] == 2) good.close = good.p[3];
        if (good.p[0] == 3 || good.p[0] == 4) good.time = big32(good.p + 3), good.records = 1;
        good.p += bytes;
    }
}

enum { NONE = INT32_MIN };

/* What stands at a moment of the day: each instrument's reference, NONE where it has none, and its latest quote, null where it has none. */
struct standing {
    int32_t references[INSTRUMENTS];
    Bytes quotes[INSTRUMENTS];
};

/* The header and the closes as far as they are good; where wanted, the closes are kept as references. */
INLINE struct good opening(Bytes sheet, size_t len, struct standing *kept) {
    struct good good = {sheet, RANGES[0], 0, 0, -1, 0};
    Bytes end = sheet + len;
    if (UNLIKELY(len < HEADER_BYTES + END_BYTES)) return good;
    int is_long = head(sheet) == LONG_HEADER;
    if (UNLIKELY((!is_long && head(sheet) != HEADER) || !good_header(sheet))) return good;
    if (is_long) good.ranges = RANGES[sheet[6]];
    good.p += is_long ? LONG_HEADER_BYTES : HEADER_BYTES;
    good.fields = 1;
    while (end - good.p >= CLOSE_BYTES + END_BYTES && head(good.p) == CLOSE) {
        int instrument = good.p[3];
        uint32_t price = big32(good.p + 4);
        if (UNLIKELY(instrument <= good.close || !priced(good.ranges[instrument], price))) break;
        if (kept) kept->references[instrument] = (int32_t)price;
        good.close = instrument;
        good.p += CLOSE_BYTES;
        good.fields++;
    }
    return good;
}

/*
 * The records as far as they are good and stand before a time. Each has an end field behind it, so one comparison keeps every load inside the
 * sheet. Where wanted, each trade's price and each quote are kept and the lots are added, whatever the instrument: no branch asks for it.
 */
INLINE struct good records(struct good good, Bytes end, uint32_t until, struct standing *kept, struct total *totals) {
    if (end - good.p < TRADE_BYTES + END_BYTES) return good;
    Bytes p = good.p, first = p, last = end - (TRADE_BYTES + END_BYTES);
    const struct range *ranges = good.ranges;
    uint32_t time = good.time, quotes = 0;
    while (p <= last) {
        uint32_t kind = head(p);
        if (kind == TRADE) {
            uint32_t now = big32(p + 3);
            if (UNLIKELY(!good_trade(p, ranges, now, time, until))) break;
            int32_t price = (int32_t)big32(p + 8);
            if (kept) kept->references[p[7]] = price;
            if (totals) {
                int64_t lots = big16(p + 12);
                totals[p[7]].lots += lots;
                totals[p[7]].value += lots * price;
            }
            time = now;
            p += TRADE_BYTES;
        } else {
            if (UNLIKELY(kind != QUOTE)) break;
            uint32_t now = big32(p + 3);
            if (UNLIKELY(!good_quote(p, ranges, now, time, until))) break;
            if (kept) kept->quotes[p[7]] = p;
            time = now;
            p += QUOTE_BYTES;
            quotes++;
        }
    }
    size_t bytes = (size_t)(p - first);
    good.fields += (uint32_t)((bytes - QUOTE_BYTES * (size_t)quotes) / TRADE_BYTES) + quotes;
    good.records |= p > first;
    good.time = time;
    good.p = p;
    return good;
}

INLINE int ends(struct good good, Bytes end) {
    return end - good.p == END_BYTES && good.fields && head(good.p) == END && big32(good.p + 3) == good.fields;
}

uint8_t limit_judge(const uint8_t *sheet, size_t len, size_t *at) {
    if (UNLIKELY(len > LONGEST)) return *at = 0, 1;
    Bytes end = sheet + len;
    struct good start = opening(sheet, len, NULL), good = start;
    /* Times never fall, so the last one tells whether all are in range. */
    if (good.fields) good = records(start, end, 0, NULL, NULL);
    if (UNLIKELY(good.time >= DAY)) return (uint8_t)refusal(sheet, len, start, at);
    return ends(good, end) ? 0 : (uint8_t)refusal(sheet, len, good, at);
}

INLINE void put(int64_t *values, int64_t tag, int64_t a, int64_t b, int64_t c, int64_t d, int64_t e) {
    values[0] = tag, values[1] = a, values[2] = b, values[3] = c, values[4] = d, values[5] = e;
}

static __attribute__((noinline, cold)) unsigned read_refusal(Bytes p, size_t left) {
    size_t bytes;
    unsigned number = shape(p, left, &bytes);
    return number ? number : fault(p, RANGES[0], 0);
}

uint8_t limit_read(const uint8_t *sheet, size_t len, size_t at, int64_t *values, size_t *next) {
    size_t left = at < len ? len - at : 0, bytes;
    Bytes p = sheet + (left ? at : 0);
    uint32_t kind = left >= HEADER_BYTES ? head(p) : 0;
    if (kind == TRADE && left >= TRADE_BYTES && good_trade(p, RANGES[0], big32(p + 3), 0, DAY)) {
        bytes = TRADE_BYTES;
        put(values, 3, big32(p + 3), p[7], (int32_t)big32(p + 8), big16(p + 12), 0);
    } else if (kind == QUOTE && left >= QUOTE_BYTES && good_quote(p, RANGES[0], big32(p + 3), 0, DAY)) {
        bytes = QUOTE_BYTES;
        put(values, 4, big32(p + 3), p[7], p[8], (int32_t)big32(p + 9), (int32_t)big32(p + 13));
    } else if (kind == CLOSE && left >= CLOSE_BYTES && priced(RANGES[0][p[3]], big32(p + 4))) {
        bytes = CLOSE_BYTES;
        put(values, 2, p[3], (int32_t)big32(p + 4), 0, 0, 0);
    } else if (kind == END && left >= END_BYTES) {
        bytes = END_BYTES;
        put(values, 5, big32(p + 3), 0, 0, 0, 0);
    } else if (kind == HEADER && good_header(p)) {
        bytes = HEADER_BYTES;
        put(values, 1, p[3], big16(p + 4), 0, 0, 0);
    } else if (kind == LONG_HEADER && left >= LONG_HEADER_BYTES && good_header(p)) {
        bytes = LONG_HEADER_BYTES;
        put(values, 6, p[3], big16(p + 4), p[6], 0, 0);
    } else {
        return (uint8_t)read_refusal(p, left);
    }
    *next = at + bytes;
    return 0;
}

/* A judged day: the part of the sheet inside each window, what was traded in it, and what stands at its start. */
struct day {
    uint32_t starts[2];
    Bytes from[2], to[2];
    struct total totals[2][INSTRUMENTS];
    struct standing standing[2];
};

enum { SPREADS, ANCHOR };

/* Judges a sheet and adds up its day. Times never fall, so the windows cut the records into four runs, and no record asks which it is in. */
static unsigned survey(Bytes sheet, size_t len, struct day *day, size_t *at) {
    if (UNLIKELY(len > LONGEST)) return *at = 0, 1;
    Bytes end = sheet + len;
    struct standing *standing = &day->standing[SPREADS], *later = &day->standing[ANCHOR];
    for (int i = 0; i < INSTRUMENTS; i++) standing->references[i] = NONE, standing->quotes[i] = NULL;
    memset(day->totals, 0, sizeof day->totals);
    struct good good = opening(sheet, len, standing);
    if (UNLIKELY(!good.fields)) return refusal(sheet, len, good, at);
    uint32_t spread = METALS[sheet[3]].spread_start, anchor = spread + WINDOW;
    day->starts[SPREADS] = spread;
    day->starts[ANCHOR] = anchor;
    good = records(good, end, spread, standing, NULL);
    *later = *standing;
    day->from[SPREADS] = good.p;
    good = records(good, end, anchor, later, day->totals[SPREADS]);
    day->to[SPREADS] = day->from[ANCHOR] = good.p;
    good = records(good, end, anchor + WINDOW, NULL, day->totals[ANCHOR]);
    day->to[ANCHOR] = good.p;
    good = records(good, end, DAY, NULL, NULL);
    return ends(good, end) ? 0 : refusal(sheet, len, good, at);
}

/* An instrument's indicator; an absent bid is below and an absent offer above every price. `sum` is over the window's milliseconds. */
struct book {
    int32_t reference, bid, offer, indicator;
    int64_t sum;
};

INLINE void put_sides(struct book *book, Bytes quote) {
    book->bid = quote[8] & 1 ? (int32_t)big32(quote + 9) : INT32_MIN;
    book->offer = quote[8] & 2 ? (int32_t)big32(quote + 13) : INT32_MAX;
}

/* The indicator goes by the book from now on, for so many milliseconds that are left. */
INLINE void indicate(struct book *book, uint32_t left) {
    int32_t high = book->reference < book->offer ? book->reference : book->offer;
    int32_t indicator = high > book->bid ? high : book->bid;
    book->sum += ((int64_t)indicator - book->indicator) * left;
    book->indicator = indicator;
}

/* The indicators of all instruments over a window. A change counts for the milliseconds that are left, so only records are visited. */
static void walk(const struct day *day, int window, struct book *books) {
    uint32_t until = day->starts[window] + WINDOW;
    for (int i = 0; i < INSTRUMENTS; i++) {
        Bytes quote = day->standing[window].quotes[i];
        books[i] = (struct book){day->standing[window].references[i], INT32_MIN, INT32_MAX, 0, 0};
        if (quote) put_sides(&books[i], quote);
        indicate(&books[i], WINDOW);
    }
    for (Bytes p = day->from[window]; p < day->to[window];) {
        struct book *book = &books[p[7]];
        uint32_t left = until - big32(p + 3);
        if (p[0] == 3) {
            book->reference = (int32_t)big32(p + 8);
            p += TRADE_BYTES;
        } else {
            put_sides(book, p);
            p += QUOTE_BYTES;
        }
        indicate(book, left);
    }
}

/* Is there a price to start from: one before the window, or a trade at its first millisecond? */
static int has_reference(const struct day *day, int window, int instrument) {
    if (day->standing[window].references[instrument] != NONE) return 1;
    for (Bytes p = day->from[window]; p < day->to[window] && big32(p + 3) == day->starts[window];) {
        if (p[0] == 3 && p[7] == instrument) return 1;
        p += p[0] == 3 ? TRADE_BYTES : QUOTE_BYTES;
    }
    return 0;
}

/* The indicators of a judged day, of each window once a contract asked for one. */
struct walks {
    const struct day *day;
    int walked[2];
    struct book books[2][INSTRUMENTS];
};

static int64_t indicated(void *given, int instrument, int *refused) {
    struct walks *walks = given;
    int window = instrument ? SPREADS : ANCHOR;
    if (!walks->walked[window]++) walk(walks->day, window, walks->books[window]);
    *refused = !has_reference(walks->day, window, instrument);
    return walks->books[window][instrument].sum;
}

/* The six rows of a judged day. */
static void price_day(struct day *day, Bytes sheet, uint64_t *rows) {
    struct walks walks;
    walks.day = day;
    walks.walked[SPREADS] = walks.walked[ANCHOR] = 0;
    day->totals[SPREADS][0] = day->totals[ANCHOR][0];
    price(sheet, day->totals[SPREADS], indicated, &walks, rows);
}

uint8_t limit_answers(const uint8_t *sheet, size_t len, uint64_t *answers, size_t *at) {
    struct day day;
    unsigned number = survey(sheet, len, &day, at);
    if (!number) price_day(&day, sheet, answers);
    return (uint8_t)number;
}

/* Text of up to eight bytes. All eight are copied: in a list enough bytes follow a shorter one to overwrite the rest. */
struct text {
    char bytes[8];
    size_t length;
};
static const struct text NAMES[CONTRACTS] = {{"3M ", 3}, {"M3 ", 3}, {"M2 ", 3}, {"M4 ", 3}, {"M1 ", 3}, {"Cash ", 5}};
static const struct text METHODS[3] = {{"refused ", 8}, {"VWAP ", 5}, {"TWAP ", 5}};

INLINE uint8_t *put_text(uint8_t *out, const struct text *text) {
    memcpy(out, text->bytes, 8);
    return out + text->length;
}

/* A number and the byte behind it, two digits at a time straight to their places. */
static uint8_t *put_number(uint8_t *out, uint32_t number, char behind) {
    static const char PAIRS[201] = "00010203040506070809101112131415161718192021222324252627282930313233343536373839404142434445464748495051"
                                   "525354555657585960616263646566676869707172737475767778798081828384858687888990919293949596979899";
    int digits = 1;
    for (uint64_t power = 10; number >= power; power *= 10) digits++;
    uint8_t *to = out + digits;
    *to = (uint8_t)behind;
    for (; number >= 100; number /= 100) memcpy(to -= 2, PAIRS + 2 * (number % 100), 2);
    if (number >= 10) memcpy(to - 2, PAIRS + 2 * number, 2);
    else to[-1] = (uint8_t)('0' + number);
    return out + digits + 1;
}

static uint8_t *put_row(uint8_t *out, int k, const uint64_t *row) {
    int priced = row[0] <= 2;
    out = put_text(out, &NAMES[k]);
    out = put_text(out, &METHODS[priced ? row[0] : 0]);
    out = put_number(out, (uint32_t)(priced ? row[1] : row[0]), ' ');
    return put_number(out, (uint32_t)row[2], '\n');
}

/* The list into a room that holds every list; its end. */
static uint8_t *put_list(Bytes sheet, size_t len, uint8_t *out) {
    struct day day;
    uint64_t rows[3 * CONTRACTS];
    size_t at;
    if (UNLIKELY(len > LONGEST_LISTED)) return memcpy(out, "too long\n", 9), out + 9;
    unsigned number = survey(sheet, len, &day, &at);
    if (number) return put_number(put_number(put_text(out, &METHODS[0]), number, ' '), (uint32_t)at, '\n');
    price_day(&day, sheet, rows);
    memcpy(out, METALS[sheet[3]].name, sizeof METALS->name);
    out += METALS[sheet[3]].length;
    for (int k = 0; k < CONTRACTS; k++) out = put_row(out, k, rows + 3 * k);
    return out;
}

size_t limit_list(const uint8_t *sheet, size_t len, uint8_t *out, size_t room) {
    if (room >= LIST_ROOM) return (size_t)(put_list(sheet, len, out) - out);
    uint8_t own[LIST_ROOM];
    size_t length = (size_t)(put_list(sheet, len, own) - own);
    if (length > room) return 0;
    memcpy(out, own, length);
    return length;
}

uint8_t limit_to_new_header(const uint8_t *sheet, size_t len, uint8_t *out, size_t room, size_t *length, size_t *at) {
    return moved(limit_judge, 6, sheet, len, out, room, length, at);
}

uint8_t limit_to_old_header(const uint8_t *sheet, size_t len, uint8_t *out, size_t room, size_t *length, size_t *at) {
    return moved(limit_judge, 1, sheet, len, out, room, length, at);
}
