/*
 * Every function of bliskoru.h at its edges: each number that it can give, with all that was lent compared byte for byte behind the call.
 * Usage: edges FOLDER, where FOLDER is the repository. The cases of hosts/edges are its tables; what takes long sheets or texts stands here.
 * It compiles as C99 and as C++.
 */
#include <stdio.h>
#include <stdlib.h>
#include <string.h>

#include "bliskoru.h"

#define FILL 0xA5  /* what all lent memory is filled with */
#define GUARD 32   /* bytes of it before and behind each lent buffer */
#define ROOM 1024  /* the longest buffer between the guards */

static unsigned long made, failed;

/* All that a call may write but buffers. Every part has eight bytes or a multiple of them, so there are no holes. */
struct lent {
    uint64_t guard_1, answers[BLISKORU_ANSWERS];
    uint64_t guard_2;
    int64_t values[BLISKORU_VALUES];
    uint64_t guard_3;
    size_t place;
    uint64_t guard_4;
    size_t length;
    uint64_t guard_5;
};

/* A line of a table: numbers, then bytes, in the table of moves the moved bytes behind them. */
struct row {
    uint64_t numbers[BLISKORU_ANSWERS]; /* a negative one as its two's complement */
    uint8_t bytes[ROOM], moved[ROOM];
    size_t length, moved_len;
    char text[2 * ROOM];
};

/* A line of the table of tapes: number and line of a refusal, or zeros; the text; where it is accepted, its sheet. */
struct tape_row {
    uint8_t number;
    size_t line;
    uint8_t tape[ROOM], sheet[ROOM];
    size_t tape_len, sheet_len;
    char text[2 * ROOM];
};

static void expect(int holds, const char *what, const char *text)
{
    made++;
    if (!holds) {
        failed++;
        printf("failed: %s: %s\n", what, text);
    }
}

static void expect_same(const void *got, const void *wanted, size_t size, const char *what, const char *text)
{
    expect(memcmp(got, wanted, size) == 0, what, text);
}

static void fill(struct lent *lent)
{
    memset(lent, FILL, sizeof *lent);
}

/* ---- tables */

static int digit_of(char c)
{
    static const char digits[] = "0123456789abcdef";
    const char *found = c == '\0' ? NULL : strchr(digits, c);
    return found == NULL ? -1 : (int)(found - digits);
}

/* The bytes of hexadecimal digits up to a colon, a comment or the line's end. */
static size_t bytes_of(const char *text, uint8_t *bytes)
{
    size_t digits = 0;
    for (; *text != '\0' && *text != '#' && *text != ':'; text++) {
        int digit = digit_of(*text);
        if (digit < 0)
            continue;
        if (digits % 2 == 0)
            bytes[digits / 2] = (uint8_t)(digit << 4);
        else
            bytes[digits / 2] = (uint8_t)(bytes[digits / 2] | digit);
        digits++;
    }
    return digits / 2;
}

/* The next line that is no comment; 0 at the table's end. */
static int next_row(FILE *table, struct row *row)
{
    while (fgets(row->text, sizeof row->text, table) != NULL) {
        char *rest = strchr(row->text, ':');
        char *number = row->text;
        int k = 0;
        row->text[strcspn(row->text, "\n")] = '\0';
        if (row->text[0] == '#' || rest == NULL)
            continue;
        for (; *number != ':' && k < BLISKORU_ANSWERS; k++) {
            row->numbers[k] = strtoull(number, &number, 10); /* it takes a minus as two's complement */
            number += strspn(number, " ");
        }
        row->length = bytes_of(rest + 1, row->bytes);
        rest += 1 + strcspn(rest + 1, ":#");
        row->moved_len = *rest == ':' ? bytes_of(rest + 1, row->moved) : 0;
        return 1;
    }
    return 0;
}

static FILE *opened(const char *folder, const char *name)
{
    char path[4096];
    FILE *file;
    snprintf(path, sizeof path, "%s/%s", folder, name);
    file = fopen(path, "rb");
    if (file == NULL) {
        printf("no file %s\n", path);
        exit(2);
    }
    return file;
}

/* Each line of a table, which has `least` lines or more. */
static void each_row(const char *folder, const char *name, unsigned long least, void (*look)(const struct row *))
{
    static struct row row;
    unsigned long rows = 0;
    FILE *table = opened(folder, name);
    for (; next_row(table, &row); rows++)
        look(&row);
    fclose(table);
    expect(rows >= least, "the table has its lines", name);
}

/* The byte that a character or an escape of a quoted text stands for; the text is moved behind it. */
static uint8_t unescaped(const char **text)
{
    const char *at = *text;
    if (at[0] != '\\') {
        *text += 1;
        return (uint8_t)at[0];
    }
    *text += at[1] == 'x' ? 4 : 2;
    switch (at[1]) {
    case 'n':
        return '\n';
    case 'r':
        return '\r';
    case 't':
        return '\t';
    default:
        return (uint8_t)(digit_of(at[2]) << 4 | digit_of(at[3]));
    }
}

/* The next line of the table of tapes that is no comment; 0 at the table's end. */
static int next_tape(FILE *table, struct tape_row *row)
{
    while (fgets(row->text, sizeof row->text, table) != NULL) {
        const char *text = strchr(row->text, '"');
        char *rest;
        row->text[strcspn(row->text, "\n")] = '\0';
        if (row->text[0] == '#' || text == NULL)
            continue;
        row->number = (uint8_t)strtoul(row->text, &rest, 10);
        row->line = strtoul(rest, NULL, 10);
        row->tape_len = 0;
        for (text++; *text != '"';)
            row->tape[row->tape_len++] = unescaped(&text);
        row->sheet_len = bytes_of(text, row->sheet);
        return 1;
    }
    return 0;
}

/* Memory of exactly so many bytes. Never null. */
static uint8_t *memory(size_t length)
{
    uint8_t *bytes = (uint8_t *)malloc(length == 0 ? 1 : length);
    if (bytes == NULL)
        exit(2);
    return bytes;
}

/* A copy of exactly so many bytes in memory of its own, so that a memory checker sees a step over its end. */
static uint8_t *copy_of(const uint8_t *bytes, size_t length)
{
    uint8_t *copy = memory(length);
    memcpy(copy, bytes, length);
    return copy;
}

/* A filled buffer of so many bytes between its guards. */
static uint8_t *filled(size_t room)
{
    uint8_t *buffer = memory(GUARD + room + GUARD);
    memset(buffer, FILL, GUARD + room + GUARD);
    return buffer;
}

/* ---- turnings: tapes into sheets, sheets into tapes, sheets into those with another header */

/* One of the four functions that make a sheet or a tape of another. */
typedef uint8_t turning(const uint8_t *, size_t, uint8_t *, size_t, size_t *, size_t *);

/* What it has to say: a refusal at a place, or 0 and the bytes that then stand in the buffer. */
struct turned {
    uint8_t number;
    size_t place;
    const uint8_t *bytes;
    size_t length;
};

static struct turned refused_at(uint8_t number, size_t place)
{
    struct turned told = {number, place, NULL, 0};
    return told;
}

static struct turned turned_into(const uint8_t *bytes, size_t length)
{
    struct turned told = {BLISKORU_YES, 0, bytes, length};
    return told;
}

/* Turning into a buffer of `room` bytes: the refusal, else 16 at place 0 where it doesn't fit, else the bytes at its start and no other. */
static void look_at_turning(turning *turn, const uint8_t *bytes, size_t length, struct turned told, size_t room, const char *text)
{
    struct lent got, wanted;
    uint8_t *given = copy_of(bytes, length), *buffer = filled(room), *behind = filled(room);
    fill(&got);
    fill(&wanted);
    if (told.number == BLISKORU_YES && told.length > room)
        told = refused_at(BLISKORU_DOES_NOT_FIT, 0);
    if (told.number == BLISKORU_YES) {
        memcpy(behind + GUARD, told.bytes, told.length);
        wanted.length = told.length;
    } else {
        wanted.place = told.place;
    }
    expect(turn(given, length, buffer + GUARD, room, &got.length, &got.place) == told.number, "the turning's number", text);
    expect_same(&got, &wanted, sizeof got, "what the turning was lent", text);
    expect_same(buffer, behind, GUARD + room + GUARD, "the turning's buffer", text);
    expect_same(given, bytes, length, "what is turned", text);
    free(given);
    free(buffer);
    free(behind);
}

/* Room that is ample, one byte more, exact, one byte too little, and none. */
static void look_at_rooms(turning *turn, const uint8_t *bytes, size_t length, struct turned told, const char *text)
{
    look_at_turning(turn, bytes, length, told, told.length + 100, text);
    look_at_turning(turn, bytes, length, told, told.length + 1, text);
    look_at_turning(turn, bytes, length, told, told.length, text);
    if (told.length > 0)
        look_at_turning(turn, bytes, length, told, told.length - 1, text);
    look_at_turning(turn, bytes, length, told, 0, text);
}

/* An accepted text and its sheet, each turned into the other. */
static void look_at_pair(const uint8_t *tape, size_t tape_len, const uint8_t *sheet, size_t sheet_len, const char *text)
{
    look_at_rooms(bliskoru_tape_to_sheet, tape, tape_len, turned_into(sheet, sheet_len), text);
    look_at_rooms(bliskoru_sheet_to_tape, sheet, sheet_len, turned_into(tape, tape_len), text);
}

/* An accepted sheet of which no text was written by hand: what it is turned into is turned back, with three bytes of text for each of its own. */
static void look_there_and_back(const uint8_t *sheet, size_t length, const char *text)
{
    uint8_t *tape = memory(3 * length);
    size_t tape_len = 0, at = 0;
    expect(bliskoru_sheet_to_tape(sheet, length, tape, 3 * length, &tape_len, &at) == BLISKORU_YES, "the sheet has a text", text);
    look_at_pair(tape, tape_len, sheet, length, text);
    free(tape);
}

/* Each line of the table of tapes, which has `least` lines or more. */
static void each_tape(const char *folder, const char *name, unsigned long least)
{
    static struct tape_row row;
    unsigned long rows = 0;
    FILE *table = opened(folder, name);
    for (; next_tape(table, &row); rows++) {
        if (row.number == BLISKORU_YES)
            look_at_pair(row.tape, row.tape_len, row.sheet, row.sheet_len, row.text);
        else
            look_at_rooms(bliskoru_tape_to_sheet, row.tape, row.tape_len, refused_at(row.number, row.line), row.text);
    }
    fclose(table);
    expect(rows >= least, "the table has its lines", name);
}

/* ---- moves to another header */

/* A sheet that neither move takes, for one and the same reason. */
static void look_at_unmoved(const uint8_t *sheet, size_t length, uint8_t number, size_t byte, const char *text)
{
    look_at_rooms(bliskoru_to_new_header, sheet, length, refused_at(number, byte), text);
    look_at_rooms(bliskoru_to_old_header, sheet, length, refused_at(number, byte), text);
}

/* An accepted sheet with a short header and the same with a long one, each moved to the other, and none to the header that it has. */
static void look_at_moves(const uint8_t *old_sheet, size_t old_len, const uint8_t *new_sheet, size_t new_len, const char *text)
{
    const struct turned already = refused_at(BLISKORU_HEADER_FORM, 0);
    look_at_rooms(bliskoru_to_new_header, old_sheet, old_len, turned_into(new_sheet, new_len), text);
    look_at_rooms(bliskoru_to_old_header, new_sheet, new_len, turned_into(old_sheet, old_len), text);
    look_at_rooms(bliskoru_to_new_header, new_sheet, new_len, already, text);
    look_at_rooms(bliskoru_to_old_header, old_sheet, old_len, already, text);
}

/* A line of the table of moves in its own room; where it is moved in every room and back, and where it is refused but for room in every room. */
static void look_at_move(const struct row *row)
{
    const uint8_t number = (uint8_t)row->numbers[2];
    const int to_new = row->numbers[0] == BLISKORU_LONG_HEADER;
    turning *move = to_new ? bliskoru_to_new_header : bliskoru_to_old_header;
    struct turned told = refused_at(number, (size_t)row->numbers[3]);
    if (number == BLISKORU_YES)
        told = turned_into(row->moved, row->moved_len);
    look_at_turning(move, row->bytes, row->length, told, (size_t)row->numbers[1], row->text);
    if (number == BLISKORU_YES && to_new)
        look_at_moves(row->bytes, row->length, row->moved, row->moved_len, row->text);
    else if (number == BLISKORU_YES)
        look_at_moves(row->moved, row->moved_len, row->bytes, row->length, row->text);
    else if (number != BLISKORU_DOES_NOT_FIT)
        look_at_rooms(move, row->bytes, row->length, told, row->text);
}

/* ---- whole sheets */

/* The list into a buffer of `room` bytes: all of it, or nothing where it is longer. */
static void look_at_room(const uint8_t *sheet, size_t length, const char *list, size_t room, const char *text)
{
    uint8_t got[GUARD + ROOM + GUARD], wanted[sizeof got];
    size_t listed = strlen(list), told;
    memset(got, FILL, sizeof got);
    memset(wanted, FILL, sizeof wanted);
    if (listed <= room)
        memcpy(wanted + GUARD, list, listed);
    told = bliskoru_list(sheet, length, got + GUARD, room);
    expect(told == (listed <= room ? listed : 0), "the list's length", text);
    expect_same(got, wanted, sizeof got, "the list's buffer", text);
}

static void look_at_list(const uint8_t *bytes, size_t length, const char *list, const char *text)
{
    uint8_t *sheet = copy_of(bytes, length);
    size_t listed = strlen(list);
    look_at_room(sheet, length, list, BLISKORU_LIST_ROOM, text);
    look_at_room(sheet, length, list, listed + 1, text);
    look_at_room(sheet, length, list, listed, text);
    look_at_room(sheet, length, list, listed - 1, text);
    look_at_room(sheet, length, list, 0, text);
    expect_same(sheet, bytes, length, "the listed sheet", text);
    free(sheet);
}

/* Judgement and answers of a sheet: a refusal at a byte, or 0 and these answers. */
static void look_at_sheet(const uint8_t *bytes, size_t length, uint8_t number, size_t byte, const uint64_t *answers, const char *text)
{
    struct lent got, wanted;
    uint8_t *sheet = copy_of(bytes, length);
    fill(&got);
    fill(&wanted);
    if (number != BLISKORU_YES)
        wanted.place = byte;
    expect(bliskoru_judge(sheet, length, &got.place) == number, "the judgement's number", text);
    expect_same(&got, &wanted, sizeof got, "what the judgement was lent", text);

    fill(&got);
    if (number == BLISKORU_YES)
        memcpy(wanted.answers, answers, sizeof wanted.answers);
    expect(bliskoru_answers(sheet, length, got.answers, &got.place) == number, "the answers' number", text);
    expect_same(&got, &wanted, sizeof got, "what the answers were lent", text);
    expect_same(sheet, bytes, length, "the judged sheet", text);
    free(sheet);
}

static void look_at_refused(const struct row *row)
{
    char list[64];
    uint8_t number = (uint8_t)row->numbers[0];
    size_t byte = (size_t)row->numbers[1];
    snprintf(list, sizeof list, "refused %u %lu\n", (unsigned)number, (unsigned long)byte);
    look_at_sheet(row->bytes, row->length, number, byte, NULL, row->text);
    look_at_list(row->bytes, row->length, list, row->text);
    look_at_rooms(bliskoru_sheet_to_tape, row->bytes, row->length, refused_at(number, byte), row->text);
    look_at_unmoved(row->bytes, row->length, number, byte, row->text);
}

/* The sheet of a row, with a short header or with the third value 0, moved to the other header, which is laid out here: the same answers. */
static void look_at_moved_answers(const struct row *row)
{
    static const uint8_t short_head[] = {1, 0, 3}, long_head[] = {6, 0, 4};
    const int is_short = row->bytes[0] == BLISKORU_HEADER;
    const size_t from = is_short ? 6 : 7, to = is_short ? 7 : 6, moved_len = row->length - from + to;
    uint8_t *moved = memory(moved_len);
    memcpy(moved, is_short ? long_head : short_head, 3);
    memcpy(moved + 3, row->bytes + 3, 3);
    moved[6] = BLISKORU_3M_IS_NO_MONTH;
    memcpy(moved + to, row->bytes + from, row->length - from);
    look_at_sheet(moved, moved_len, BLISKORU_YES, 0, row->numbers, row->text);
    if (is_short)
        look_at_moves(row->bytes, row->length, moved, moved_len, row->text);
    else
        look_at_moves(moved, moved_len, row->bytes, row->length, row->text);
    free(moved);
}

static void look_at_accepted(const struct row *row)
{
    look_at_sheet(row->bytes, row->length, BLISKORU_YES, 0, row->numbers, row->text);
    look_there_and_back(row->bytes, row->length, row->text);
    if (row->bytes[0] == BLISKORU_LONG_HEADER && row->bytes[6] != BLISKORU_3M_IS_NO_MONTH)
        look_at_unmoved(row->bytes, row->length, BLISKORU_HEADER_FORM, 0, row->text);
    else
        look_at_moved_answers(row);
}

/* A file of the samples, which is shorter than the room for it. */
static size_t sample(const char *folder, const char *name, const char *kind, uint8_t *bytes)
{
    char path[256];
    size_t length;
    FILE *file;
    snprintf(path, sizeof path, "examples/%s.%s", name, kind);
    file = opened(folder, path);
    length = fread(bytes, 1, ROOM, file);
    fclose(file);
    expect(length > 0 && length < ROOM, "the sample's length", path);
    return length;
}

/* A sample sheet of the repository and the list beside it. */
static void look_at_sample(const char *folder, const char *name)
{
    char list[ROOM + 1];
    uint8_t sheet[ROOM];
    size_t length = sample(folder, name, "sheet", sheet);
    list[sample(folder, name, "list", (uint8_t *)list)] = '\0';
    look_at_list(sheet, length, list, name);
}

/* A sample sheet and the text beside it. */
static void look_at_sample_tape(const char *folder, const char *name)
{
    uint8_t sheet[ROOM], tape[ROOM];
    size_t length = sample(folder, name, "sheet", sheet);
    look_at_pair(tape, sample(folder, name, "tape", tape), sheet, length, name);
}

/* ---- one field */

/* Reading at a place: a refusal, or 0 with these values and the place behind. */
static void look_at_read(const uint8_t *bytes, size_t length, size_t at, uint8_t number, const uint64_t *values, size_t next, const char *text)
{
    struct lent got, wanted;
    uint8_t *sheet = copy_of(bytes, length);
    fill(&got);
    fill(&wanted);
    if (number == BLISKORU_YES) {
        memcpy(wanted.values, values, sizeof wanted.values);
        wanted.place = next;
    }
    expect(bliskoru_read(sheet, length, at, got.values, &got.place) == number, "the reader's number", text);
    expect_same(&got, &wanted, sizeof got, "what the reader was lent", text);
    expect_same(sheet, bytes, length, "the read sheet", text);
    free(sheet);
}

static void look_at_head(const struct row *row)
{
    look_at_read(row->bytes, row->length, (size_t)row->numbers[1], (uint8_t)row->numbers[0], NULL, 0, row->text);
}

/* The field of a row by the function of its tag. */
static uint8_t written(const struct row *row, uint8_t *buffer, size_t length, size_t at, size_t *next)
{
    const uint64_t *v = row->numbers + 2;
    switch (row->numbers[1]) {
    case BLISKORU_HEADER:
        return bliskoru_write_header(buffer, length, at, (uint8_t)v[0], (uint16_t)v[1], next);
    case BLISKORU_LONG_HEADER:
        return bliskoru_write_long_header(buffer, length, at, (uint8_t)v[0], (uint16_t)v[1], (uint8_t)v[2], next);
    case BLISKORU_PREVIOUS_CLOSE:
        return bliskoru_write_previous_close(buffer, length, at, (uint8_t)v[0], (int32_t)v[1], next);
    case BLISKORU_TRADE:
        return bliskoru_write_trade(buffer, length, at, (uint32_t)v[0], (uint8_t)v[1], (int32_t)v[2], (uint16_t)v[3], next);
    case BLISKORU_QUOTE:
        return bliskoru_write_quote(buffer, length, at, (uint32_t)v[0], (uint8_t)v[1], (uint8_t)v[2], (int32_t)v[3], (int32_t)v[4], next);
    default:
        return bliskoru_write_end(buffer, length, at, (uint32_t)v[0], next);
    }
}

/* Writing at a place of a buffer of `length` bytes: the values' number, else 16 where it doesn't fit, else the field's bytes and no other. */
static void look_at_write(const struct row *row, size_t length, size_t at)
{
    struct lent got, wanted;
    uint8_t buffer[GUARD + ROOM + GUARD], behind[sizeof buffer];
    uint8_t number = (uint8_t)row->numbers[0];
    fill(&got);
    fill(&wanted);
    memset(buffer, FILL, sizeof buffer);
    memset(behind, FILL, sizeof behind);
    if (number == BLISKORU_YES && (at > length || length - at < row->length))
        number = BLISKORU_DOES_NOT_FIT;
    if (number == BLISKORU_YES) {
        memcpy(behind + GUARD + at, row->bytes, row->length);
        wanted.place = at + row->length;
    }
    expect(written(row, buffer + GUARD, length, at, &got.place) == number, "the writer's number", row->text);
    expect_same(&got, &wanted, sizeof got, "what the writer was lent", row->text);
    expect_same(buffer, behind, sizeof buffer, "the writer's buffer", row->text);
}

/* Room that is enough or one byte too little, and places at, past and far past the buffer's end. */
static void look_at_writes(const struct row *row)
{
    size_t size = row->length;
    look_at_write(row, size, 0);
    look_at_write(row, size - 1, 0);
    look_at_write(row, 0, 0);
    look_at_write(row, size + 9, 5);
    look_at_write(row, size + 5, 5);
    look_at_write(row, size + 4, 5);
    look_at_write(row, ROOM, ROOM - size);
    look_at_write(row, ROOM, ROOM - size + 1);
    look_at_write(row, ROOM, ROOM);
    look_at_write(row, ROOM, ROOM + 1);
    look_at_write(row, ROOM, SIZE_MAX);
    look_at_write(row, ROOM, SIZE_MAX - size);
    look_at_write(row, ROOM, SIZE_MAX - size + 1);
    look_at_write(row, 0, SIZE_MAX);
}

static void look_at_field(const struct row *row)
{
    uint8_t within[ROOM];
    uint8_t number = (uint8_t)row->numbers[0];
    expect(row->length < ROOM - 8, "the field is short", row->text);
    look_at_writes(row);
    look_at_read(row->bytes, row->length, 0, number, row->numbers + 1, row->length, row->text);
    look_at_read(row->bytes, row->length - 1, 0, BLISKORU_BYTES_MISSING, NULL, 0, row->text);
    memset(within, 0xFF, sizeof within);
    memcpy(within + 3, row->bytes, row->length);
    look_at_read(within, row->length + 8, 3, number, row->numbers + 1, row->length + 3, row->text);
}

/* ---- long sheets */

/* A number of so many bytes, the greatest first. */
static uint8_t *put(uint8_t *at, uint64_t number, int bytes)
{
    for (; bytes > 0; bytes--)
        *at++ = (uint8_t)(number >> (8 * (bytes - 1)));
    return at;
}

/* In the place of a third value: the header is a short one. */
enum { SHORT = -1 };

/* A Nickel header without marks, a long one where there is a third value. */
static uint8_t *put_header(uint8_t *at, int third)
{
    at = put(put(put(put(at, third == SHORT ? 1 : 6, 1), third == SHORT ? 3 : 4, 2), 1, 1), 0, 2);
    return third == SHORT ? at : put(at, (uint64_t)third, 1);
}

/*
 * A Nickel sheet of trades of 10,000 lots of 3M at 1,800,000 in the first millisecond of its window, and quotes without sides: 6 bytes for the
 * header or 7 for a long one, 14 a trade, 17 a quote, 7 for the end.
 */
static uint8_t *nickel_of(int third, size_t trades, size_t quotes, size_t *length)
{
    uint8_t *sheet = memory(7 + 14 * trades + 17 * quotes + 7 + 1), *at = put_header(sheet, third);
    size_t k;
    for (k = 0; k < trades; k++)
        at = put(put(put(put(put(put(at, 3, 1), 11, 2), 58500000, 4), 0, 1), 1800000, 4), 10000, 2);
    for (k = 0; k < quotes; k++)
        at = put(put(put(put(put(put(at, 4, 1), 14, 2), 58500000, 4), 0, 2), 0, 4), 0, 4);
    at = put(put(put(at, 5, 1), 4, 2), 1 + trades + quotes, 4);
    *length = (size_t)(at - sheet);
    *at = 0;
    return sheet;
}

/* The longest sheet has 6 + 14 * 74,884 + 17 * 11 + 7 = 1,048,576 bytes; with the byte behind it, it is too long. */
static void look_at_longest(void)
{
    static const uint64_t answers[] = {1, 1800000, 748840000, 13, 0, 0, 15, 0, 0, 15, 0, 0, 15, 0, 0, 15, 0, 0};
    static const uint64_t end[] = {5, 74896, 0, 0, 0, 0};
    size_t length;
    uint8_t *sheet = nickel_of(SHORT, 74884, 11, &length);
    expect(length == BLISKORU_LONGEST_SHEET, "the longest sheet's length", "longest");
    look_at_sheet(sheet, length, BLISKORU_YES, 0, answers, "longest");
    look_at_sheet(sheet, length + 1, BLISKORU_SHEET_TOO_LONG, 0, NULL, "one byte longer than the longest");
    look_at_rooms(bliskoru_sheet_to_tape, sheet, length + 1, refused_at(BLISKORU_SHEET_TOO_LONG, 0), "one byte longer than the longest");
    look_at_list(sheet, length, "too long\n", "longest");
    look_at_list(sheet, length + 1, "too long\n", "one byte longer than the longest");
    look_at_read(sheet, length, length - 7, BLISKORU_YES, end, length, "the longest sheet's end");
    memset(sheet, 0, length + 1);
    look_at_sheet(sheet, length, BLISKORU_TAG, 0, NULL, "1,048,576 zero bytes");
    look_at_sheet(sheet, length + 1, BLISKORU_SHEET_TOO_LONG, 0, NULL, "1,048,577 zero bytes");
    free(sheet);
}

/* The longest sheet that is listed has 6 + 14 * 4,679 + 17 + 7 = 65,536 bytes; with the byte behind it, it is too long for a list. */
static void look_at_longest_listed(void)
{
    static const char list[] = "Nickel\n3M VWAP 1800000 46790000\nM3 refused 13 0\nM2 refused 15 0\nM4 refused 15 0\n"
                               "M1 refused 15 0\nCash refused 15 0\n";
    size_t length;
    uint8_t *sheet = nickel_of(SHORT, 4679, 1, &length);
    expect(length == BLISKORU_LONGEST_LISTED, "the longest listed sheet's length", "listed");
    look_at_list(sheet, length, list, "65,536 bytes");
    look_at_list(sheet, length + 1, "too long\n", "65,537 bytes");
    look_at_sheet(sheet, length + 1, BLISKORU_OUT_OF_PLACE, length, NULL, "65,537 bytes");
    memset(sheet, 0, length + 1);
    look_at_list(sheet, length, "refused 3 0\n", "65,536 zero bytes");
    look_at_list(sheet, length + 1, "too long\n", "65,537 zero bytes");
    free(sheet);
}

/* By a long header that sheet has 7 + 14 * 4,668 + 17 * 10 + 7 = 65,536 bytes. M3 is 3M. */
static void look_at_listed_by_long_header(void)
{
    static const char list[] = "Nickel\n3M VWAP 1800000 46680000\nM3 VWAP 1800000 46680000\nM2 refused 13 0\nM4 refused 15 0\n"
                               "M1 refused 15 0\nCash refused 15 0\n";
    size_t length;
    uint8_t *sheet = nickel_of(BLISKORU_3M_IS_M3, 4668, 10, &length);
    expect(length == BLISKORU_LONGEST_LISTED, "the longest listed sheet's length", "listed by a long header");
    look_at_list(sheet, length, list, "65,536 bytes by a long header");
    free(sheet);
}

/* So many times the same line. */
static uint8_t *put_lines(uint8_t *at, const char *line, size_t times)
{
    size_t length = strlen(line);
    for (; times > 0; times--) {
        memcpy(at, line, length);
        at += length;
    }
    return at;
}

/* The line of a short header, and of a long one by which 3M is M3. */
static const char SHORT_LINE[] = "METAL,Nickel,0\n", LONG_LINE[] = "METAL,Nickel,0,1\n";

/* The text of the sheet of nickel_of behind its METAL line, with room behind it for two lines more. */
static uint8_t *nickel_tape_of(const char *metal, size_t trades, size_t quotes, size_t *length)
{
    uint8_t *tape = memory(40 * (1 + trades + quotes + 2)), *at = tape;
    at = put_lines(at, metal, 1);
    at = put_lines(at, "58500000,3M,TRADE,18000.00,10000\n", trades);
    at = put_lines(at, "58500000,3M,QUOTE,-,-\n", quotes);
    *length = (size_t)(at - tape);
    return tape;
}

/* The text of the longest sheet, 15 + 33 * 74,884 + 22 * 11 bytes. */
static void look_at_longest_sheets_tape(void)
{
    size_t length, tape_len;
    uint8_t *sheet = nickel_of(SHORT, 74884, 11, &length), *tape = nickel_tape_of(SHORT_LINE, 74884, 11, &tape_len);
    expect(length == BLISKORU_LONGEST_SHEET && tape_len == 2471429, "the lengths of sheet and text", "longest");
    look_at_pair(tape, tape_len, sheet, length, "the longest sheet's text");
    free(sheet);
    free(tape);
}

/* By a long header the longest sheet has 7 + 14 * 74,890 + 17 * 6 + 7 = 1,048,576 bytes, its text 17 + 33 * 74,890 + 22 * 6. M3 is 3M. */
static void look_at_longest_by_long_header(void)
{
    static const uint64_t answers[] = {1, 1800000, 748900000, 1, 1800000, 748900000, 13, 0, 0, 15, 0, 0, 15, 0, 0, 15, 0, 0};
    size_t length, tape_len;
    uint8_t *sheet = nickel_of(BLISKORU_3M_IS_M3, 74890, 6, &length), *tape = nickel_tape_of(LONG_LINE, 74890, 6, &tape_len);
    expect(length == BLISKORU_LONGEST_SHEET && tape_len == 2471519, "the lengths of sheet and text", "longest by a long header");
    look_at_sheet(sheet, length, BLISKORU_YES, 0, answers, "longest by a long header");
    look_at_pair(tape, tape_len, sheet, length, "longest by a long header");
    free(sheet);
    free(tape);
}

/* The fields of the longest sheet by a short header are a byte too long behind a long one; a barred line, the 74,897th, comes before that. */
static void look_at_too_long_by_long_header(void)
{
    const struct turned too_long = refused_at(BLISKORU_SHEET_TOO_LONG, 0);
    size_t length, tape_len;
    uint8_t *sheet = nickel_of(BLISKORU_3M_IS_M3, 74884, 11, &length), *tape = nickel_tape_of(LONG_LINE, 74884, 11, &tape_len), *end;
    expect(length == BLISKORU_LONGEST_SHEET + 1, "the sheet's length", "too long by a long header");
    look_at_sheet(sheet, length, BLISKORU_SHEET_TOO_LONG, 0, NULL, "too long by a long header");
    look_at_turning(bliskoru_tape_to_sheet, tape, tape_len, too_long, length, "too long by a long header");
    end = put_lines(tape + tape_len, "58500000,M3-3M,QUOTE,-,-\n", 1);
    look_at_rooms(bliskoru_tape_to_sheet, tape, (size_t)(end - tape), refused_at(BLISKORU_BARRED, 74897), "too long, and a barred instrument");
    free(sheet);
    free(tape);
}

/* A text whose sheet would have 6 + 14 * 74,895 + 17 * 2 + 7 = 1,048,577 bytes: 1 in any room, but not before a bad line. It has 74,898 lines. */
static void look_at_too_long_a_tape(void)
{
    const struct turned too_long = refused_at(BLISKORU_SHEET_TOO_LONG, 0);
    size_t length;
    uint8_t *tape = nickel_tape_of(SHORT_LINE, 74895, 2, &length), *end = tape + length, *end_2;
    look_at_turning(bliskoru_tape_to_sheet, tape, length, too_long, 0, "one byte too long");
    look_at_turning(bliskoru_tape_to_sheet, tape, length, too_long, BLISKORU_LONGEST_SHEET, "one byte too long");
    look_at_turning(bliskoru_tape_to_sheet, tape, length, too_long, BLISKORU_LONGEST_SHEET + 1, "one byte too long");
    look_at_rooms(bliskoru_tape_to_sheet, tape, length - 1, refused_at(BLISKORU_LINE, 74898), "too long, and no last line feed");
    end_2 = put_lines(end, "0,3M,QUOTE,-,-\n", 1);
    look_at_rooms(bliskoru_tape_to_sheet, tape, (size_t)(end_2 - tape), refused_at(BLISKORU_TIME, 74899), "too long, and a time that falls");
    end_2 = put_lines(end, "PREV,3M,1.00\n", 1);
    look_at_rooms(bliskoru_tape_to_sheet, tape, (size_t)(end_2 - tape), refused_at(BLISKORU_OUT_OF_PLACE, 74899), "too long, and a late close");
    end_2 = put_lines(end, "58500000,3M,QUOTE,-,-\n", 2);
    look_at_turning(bliskoru_tape_to_sheet, tape, (size_t)(end_2 - tape), too_long, BLISKORU_LONGEST_SHEET, "two lines too long");
    free(tape);
}

/*
 * The longest lines: 23 bytes, and 39 for each of 74,897 trades, of which a sheet of 7 + 14 * 74,897 + 7 = 1,048,572 bytes is made. Each byte of a
 * sheet has at most three of text.
 */
static void look_at_longest_lines(void)
{
    const size_t length = 23 + 39 * 74897;
    uint8_t *tape = memory(length), *sheet = memory(BLISKORU_LONGEST_SHEET), *at = put_lines(tape, "METAL,Aluminium,2047,2\n", 1);
    size_t sheet_len = 0, line = 0;
    at = put_lines(at, "86399999,Cash-M1,TRADE,-99999.99,10000\n", 74897);
    expect((size_t)(at - tape) == length && length < BLISKORU_LONGEST_TAPE, "the text's length", "the longest lines");
    expect(bliskoru_tape_to_sheet(tape, length, sheet, BLISKORU_LONGEST_SHEET, &sheet_len, &line) == BLISKORU_YES, "the text is accepted",
           "the longest lines");
    expect(sheet_len == 1048572, "the sheet's length", "the longest lines");
    look_at_pair(tape, length, sheet, sheet_len, "the longest lines");
    free(tape);
    free(sheet);
}

/* Behind a short header the longest sheet that is moved has 6 + 14 * 74,890 + 17 * 6 + 7 = 1,048,575 bytes, and so a byte more behind a long one. */
static void look_at_longest_moves(void)
{
    size_t old_len, new_len;
    uint8_t *old_sheet = nickel_of(SHORT, 74890, 6, &old_len), *new_sheet = nickel_of(BLISKORU_3M_IS_NO_MONTH, 74890, 6, &new_len);
    expect(old_len == BLISKORU_LONGEST_SHEET - 1 && new_len == BLISKORU_LONGEST_SHEET, "the lengths of the sheets", "longest that is moved");
    look_at_moves(old_sheet, old_len, new_sheet, new_len, "longest that is moved");
    free(old_sheet);
    free(new_sheet);
    new_sheet = nickel_of(BLISKORU_3M_IS_M4, 74890, 6, &new_len);
    look_at_unmoved(new_sheet, new_len, BLISKORU_HEADER_FORM, 0, "longest, and M4 is named");
    free(new_sheet);
}

/* The longest sheet has a short header, and moved it would be a byte longer: 1 in any room. With a byte more it is no sheet either way. */
static void look_at_too_long_to_move(void)
{
    const struct turned too_long = refused_at(BLISKORU_SHEET_TOO_LONG, 0);
    size_t length;
    uint8_t *sheet = nickel_of(SHORT, 74884, 11, &length);
    expect(length == BLISKORU_LONGEST_SHEET, "the sheet's length", "too long to move");
    look_at_rooms(bliskoru_to_new_header, sheet, length, too_long, "too long to move");
    look_at_turning(bliskoru_to_new_header, sheet, length, too_long, length, "too long to move");
    look_at_turning(bliskoru_to_new_header, sheet, length, too_long, length + 1, "too long to move");
    look_at_rooms(bliskoru_to_old_header, sheet, length, refused_at(BLISKORU_HEADER_FORM, 0), "longest, and has a short header");
    look_at_unmoved(sheet, length + 1, BLISKORU_SHEET_TOO_LONG, 0, "one byte longer than the longest");
    free(sheet);
    sheet = nickel_of(BLISKORU_3M_IS_NO_MONTH, 74884, 11, &length);
    expect(length == BLISKORU_LONGEST_SHEET + 1, "the sheet's length", "one byte longer by a long header");
    look_at_unmoved(sheet, length, BLISKORU_SHEET_TOO_LONG, 0, "one byte longer by a long header");
    look_at_turning(bliskoru_to_old_header, sheet, length, too_long, length, "one byte longer by a long header");
    free(sheet);
}

/* The reader of one field has no 1: it reads a field at byte 2,000,000 too. */
static void look_far(void)
{
    static const uint64_t header[] = {1, 4, 2047, 0, 0, 0};
    static const uint8_t bytes[] = {1, 0, 3, 4, 7, 255};
    const size_t at = 2000000;
    uint8_t *sheet = (uint8_t *)calloc(at + sizeof bytes, 1);
    if (sheet == NULL)
        exit(2);
    memcpy(sheet + at, bytes, sizeof bytes);
    look_at_read(sheet, at + sizeof bytes, at, BLISKORU_YES, header, at + sizeof bytes, "byte 2,000,000");
    look_at_read(sheet, at + sizeof bytes, at + 1, BLISKORU_TAG, NULL, 0, "byte 2,000,001");
    free(sheet);
}

int main(int argc, char **argv)
{
    const char *folder = argc == 2 ? argv[1] : ".";
    each_row(folder, "hosts/edges/fields.txt", 110, look_at_field);
    each_row(folder, "hosts/edges/heads.txt", 50, look_at_head);
    each_row(folder, "hosts/edges/sheets.txt", 130, look_at_refused);
    each_row(folder, "hosts/edges/answers.txt", 50, look_at_accepted);
    each_row(folder, "hosts/edges/moves.txt", 100, look_at_move);
    each_tape(folder, "hosts/edges/tapes.txt", 500);
    look_at_sample(folder, "nickel");
    look_at_sample(folder, "copper");
    look_at_sample(folder, "torn");
    look_at_sample(folder, "no_reference");
    look_at_sample(folder, "resting");
    look_at_sample(folder, "third_wednesday");
    look_at_sample_tape(folder, "nickel");
    look_at_sample_tape(folder, "copper");
    look_at_sample_tape(folder, "third_wednesday");
    look_at_longest();
    look_at_longest_listed();
    look_at_listed_by_long_header();
    look_at_longest_sheets_tape();
    look_at_longest_by_long_header();
    look_at_too_long_by_long_header();
    look_at_too_long_a_tape();
    look_at_longest_lines();
    look_at_longest_moves();
    look_at_too_long_to_move();
    look_far();
    printf("%lu edges, %lu failed\n", made, failed);
    return failed == 0 ? 0 : 1;
}
