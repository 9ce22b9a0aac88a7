/* A day sheet judged, read and priced by plain C: one pass over the fields, and the first test that fails gives its number. */
#include "pricing.h"
#include "sides.h"

/* What may stand at a place: a bit for each tag, the least instrument of a close, the least time of a record, a bit for each barred instrument. */
enum { HEADERS = 1 << 1 | 1 << 6, CLOSES = 1 << 2, RECORDS = 1 << 3 | 1 << 4 | 1 << 5, ANY = HEADERS | CLOSES | RECORDS };
struct place { int tags; uint32_t instrument, time, barred; };

INLINE unsigned shape(Bytes p, size_t left, size_t length, int tags) {
    return big16(p + 1) != length ? 4 : left < 3 + length ? 2 : tags >> p[0] & 1 ? 0 : 5;
}
INLINE int in_range(int64_t instrument, int64_t price) {
    return instrument ? price >= -9999999 && price <= 9999999 : price >= 1 && price <= 99999999;
}
INLINE unsigned instrument_fault(int64_t instrument, uint32_t barred) {
    return instrument > 11 ? 7 : barred >> instrument & 1 ? 18 : 0;
}

/* The number that a field earns, in the order of docs/SHEET.md, section 5, or 0 and its tag and values. */
INLINE unsigned field(Bytes p, size_t left, struct place place, int64_t *v) {
    unsigned number;
    if (left < 3) return 2;
    switch (v[0] = p[0]) {
    case 1:
        if ((number = shape(p, left, 3, place.tags))) return number;
        v[1] = p[3], v[2] = big16(p + 4);
        return v[1] < 1 || v[1] > 5 || v[2] > 2047 ? 6 : 0;
    case 6:
        if ((number = shape(p, left, 4, place.tags))) return number;
        v[1] = p[3], v[2] = big16(p + 4), v[3] = p[6];
        return v[1] < 1 || v[1] > 5 || v[2] > 2047 || v[3] > 2 ? 6 : 0;
    case 2:
        if ((number = shape(p, left, 5, place.tags))) return number;
        v[1] = p[3], v[2] = (int32_t)big32(p + 4);
        if (v[1] < place.instrument) return 5;
        return (number = instrument_fault(v[1], place.barred)) ? number : in_range(v[1], v[2]) ? 0 : 9;
    case 3:
        if ((number = shape(p, left, 11, place.tags))) return number;
        v[1] = big32(p + 3), v[2] = p[7], v[3] = (int32_t)big32(p + 8), v[4] = big16(p + 12);
        if ((number = instrument_fault(v[2], place.barred))) return number;
        if (v[1] >= DAY || v[1] < place.time) return 8;
        if (!in_range(v[2], v[3])) return 9;
        return v[4] < 1 || v[4] > 10000 ? 10 : 0;
    case 4:
        if ((number = shape(p, left, 14, place.tags))) return number;
        v[1] = big32(p + 3), v[2] = p[7], v[3] = p[8], v[4] = (int32_t)big32(p + 9), v[5] = (int32_t)big32(p + 13);
        if ((number = instrument_fault(v[2], place.barred))) return number;
        if (v[1] >= DAY || v[1] < place.time) return 8;
        if (v[3] > 3 || (!(v[3] & 1) && v[4]) || (!(v[3] & 2) && v[5])) return 11;
        if (((v[3] & 1) && !in_range(v[2], v[4])) || ((v[3] & 2) && !in_range(v[2], v[5]))) return 9;
        return v[3] == 3 && v[4] > v[5] ? 11 : 0;
    case 5:
        if ((number = shape(p, left, 4, place.tags))) return number;
        v[1] = big32(p + 3);
        return 0;
    default: return 3;
    }
}

/* The number that a sheet earns, and the byte; where totals are wanted, trades inside their windows are added to them. */
INLINE unsigned pass(Bytes sheet, size_t len, size_t *at, struct total *totals) {
    struct place place = {HEADERS, 0, 0, 0};
    int64_t v[6], fields = 0;
    *at = 0;
    if (len > LONGEST) return 1;
    for (;; fields++) {
        unsigned number = field(sheet + *at, len - *at, place, v);
        if (number) return number;
        switch (v[0]) {
        case 1: place.tags = CLOSES | RECORDS, *at += 6; break;
        case 6: place.tags = CLOSES | RECORDS, place.barred = third(sheet).barred, *at += 7; break;
        case 2: place.instrument = (uint32_t)v[1] + 1, *at += 8; break;
        case 3:
            place.tags = RECORDS, place.time = (uint32_t)v[1], *at += 14;
            if (totals && (uint64_t)(v[1] - window_start(sheet, (int)v[2])) < WINDOW)
                totals[v[2]].lots += v[4], totals[v[2]].value += v[4] * v[3];
            break;
        case 4: place.tags = RECORDS, place.time = (uint32_t)v[1], *at += 17; break;
        case 5:
            if (v[1] != fields) return 12;
            return (*at += 7) == len ? 0 : 5;
        }
    }
}

uint8_t plain_judge(const uint8_t *sheet, size_t len, size_t *at) {
    size_t place;
    unsigned number = pass(sheet, len, &place, NULL);
    return number ? *at = place, (uint8_t)number : 0;
}

uint8_t plain_read(const uint8_t *sheet, size_t len, size_t at, int64_t *values, size_t *next) {
    int64_t v[6] = {0};
    unsigned number = at < len ? field(sheet + at, len - at, (struct place){ANY, 0, 0, 0}, v) : 2;
    if (number) return (uint8_t)number;
    memcpy(values, v, sizeof v);
    *next = at + 3 + big16(sheet + at + 1);
    return 0;
}

/* An instrument's indicator summed over its window by the spans between its records. */
static int64_t spans(void *sheet, int instrument, int *refused) {
    int64_t reference = INT32_MIN, bid = INT32_MIN, offer = INT32_MAX, now = INT32_MIN, sum = 0;
    int64_t start = window_start(sheet, instrument), since = start, until = start + WINDOW;
    for (Bytes p = (Bytes)sheet + 3 + big16((Bytes)sheet + 1); p[0] == 2 || (p[0] != 5 && big32(p + 3) < until); p += 3 + big16(p + 1)) {
        if (p[p[0] == 2 ? 3 : 7] != instrument) continue;
        int64_t time = p[0] == 2 || big32(p + 3) < start ? start : big32(p + 3);
        *refused |= time > start && reference == INT32_MIN;
        sum += now * (time - since), since = time;
        if (p[0] == 4) {
            bid = p[8] & 1 ? (int32_t)big32(p + 9) : INT32_MIN;
            offer = p[8] & 2 ? (int32_t)big32(p + 13) : INT32_MAX;
        } else {
            reference = (int32_t)big32(p[0] == 2 ? p + 4 : p + 8);
        }
        now = bid > reference ? bid : offer < reference ? offer : reference;
    }
    *refused |= reference == INT32_MIN;
    return sum + now * (until - since);
}

uint8_t plain_answers(const uint8_t *sheet, size_t len, uint64_t *answers, size_t *at) {
    struct total totals[INSTRUMENTS] = {{0, 0}};
    size_t place;
    unsigned number = pass(sheet, len, &place, totals);
    if (number) return *at = place, (uint8_t)number;
    price(sheet, totals, spans, (void *)sheet, answers);
    return 0;
}

uint8_t plain_to_new_header(const uint8_t *sheet, size_t len, uint8_t *out, size_t room, size_t *length, size_t *at) {
    return moved(plain_judge, 6, sheet, len, out, room, length, at);
}

uint8_t plain_to_old_header(const uint8_t *sheet, size_t len, uint8_t *out, size_t room, size_t *length, size_t *at) {
    return moved(plain_judge, 1, sheet, len, out, room, length, at);
}
