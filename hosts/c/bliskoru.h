/*
 * Bliskoru for C and C++: a day sheet's closing list, its judgement and its six answers, single fields read and written, a text tape turned into
 * a sheet and back, and a sheet moved to the long header and back to the short one.
 *
 * Link with crates/bliskoru/out/libbliskoru.a, which `rt lib` in crates/bliskoru writes. It needs memcpy and memset and nothing else.
 * docs/SHEET.md has the numbers, ranges and layouts, docs/TAPE.md the lines of a text tape, docs/RULES.md the prices, docs/HOSTS.md how to embed
 * this.
 *
 * For every function:
 *  - It keeps nothing between calls, takes no memory of its own but the stack, and may be called from any number of threads at once.
 *  - No pointer may be null, even where the length behind it is 0: an empty sheet, tape or buffer is any pointer that is not null, with
 *    length 0.
 *  - What is lent to be written (every pointer without const: out, at, answers, values, next, buffer, length, and the sheet or the tape that a
 *    tape or a sheet is turned into) must not overlap with anything else that is lent to the same call, and has its type's alignment.
 *  - What is not said to be written stays as it was, byte for byte. What is lent as const is never written.
 *
 * No prover checks these declarations against the proved source. hosts/rust/tests/declarations.rs compares their texts with the source's, and
 * hosts/c/edges.c calls each function at its edges.
 */
#ifndef BLISKORU_H
#define BLISKORU_H

#include <stddef.h>
#include <stdint.h>

#ifdef __cplusplus
extern "C" {
#endif

/* What a function says: yes, or the refusal's number (docs/SHEET.md, section 4). */
enum bliskoru_number {
    BLISKORU_YES = 0,
    BLISKORU_SHEET_TOO_LONG = 1,      /* a sheet of more than 1,048,576 bytes, or a tape or a move of which such a one would be made */
    BLISKORU_BYTES_MISSING = 2,       /* bytes of a field are missing, or the end field is */
    BLISKORU_TAG = 3,                 /* no tag 1 to 6 */
    BLISKORU_LENGTH = 4,              /* another length than the tag has */
    BLISKORU_OUT_OF_PLACE = 5,        /* a field or line out of its place, bytes behind the end field, or a tape without a line */
    BLISKORU_METAL_OR_MARKS = 6,      /* no metal 1 to 5, a mark that no spread has, or a third value above 2 */
    BLISKORU_INSTRUMENT = 7,          /* instrument above 11 */
    BLISKORU_TIME = 8,                /* time above 86,399,999, or (in a whole sheet) one that falls */
    BLISKORU_PRICE = 9,               /* price out of range: 1 to 99,999,999 outright, -9,999,999 to 9,999,999 for a spread */
    BLISKORU_LOTS = 10,               /* lots not 1 to 10,000 */
    BLISKORU_SIDES = 11,              /* no sides 0 to 3, an absent side that holds a price, or a bid higher than the offer */
    BLISKORU_END_COUNT = 12,          /* the end field counts wrong */
    BLISKORU_NO_REFERENCE = 13,       /* contract: below 5 lots, and no reference at the window's first millisecond */
    BLISKORU_CLOSE_OUT_OF_RANGE = 14, /* contract: no close of 1 to 99,999,999 cents after rounding */
    BLISKORU_NOT_REACHED = 15,        /* contract: one before it was refused */
    BLISKORU_DOES_NOT_FIT = 16,       /* writer: no room for the field at that place; tape, move: no room for the sheet or the text */
    BLISKORU_LINE = 17,               /* tape: a line that is malformed, or names what there is not */
    BLISKORU_BARRED = 18,             /* a field on an instrument that the header's third value bars, in a whole sheet or a tape */
    BLISKORU_HEADER_FORM = 19         /* move: the sheet has the wanted header already or, going back, names M3 or M4 */
};

/* How a contract was priced: the first number of its row. A refused contract has 13, 14 or 15 there. */
enum bliskoru_method {
    BLISKORU_VWAP = 1,
    BLISKORU_TWAP = 2
};

/* The rows of the answers, in pricing order: contract k has the numbers 3k, 3k + 1 and 3k + 2. */
enum bliskoru_contract {
    BLISKORU_3M = 0,
    BLISKORU_M3 = 1,
    BLISKORU_M2 = 2,
    BLISKORU_M4 = 3,
    BLISKORU_M1 = 4,
    BLISKORU_CASH = 5
};

/* A field's tag: the first of its six numbers. */
enum bliskoru_tag {
    BLISKORU_HEADER = 1, /* the short one, without a third value */
    BLISKORU_PREVIOUS_CLOSE = 2,
    BLISKORU_TRADE = 3,
    BLISKORU_QUOTE = 4,
    BLISKORU_END = 5,
    BLISKORU_LONG_HEADER = 6
};

/* The third value of a long header: which contract has the date of 3M that day. A short header says the same as 0. */
enum bliskoru_third {
    BLISKORU_3M_IS_NO_MONTH = 0, /* every instrument may have fields */
    BLISKORU_3M_IS_M3 = 1,       /* M3 has the answer of 3M; fields on 1, 2, 6 and 9 are refused with 18 */
    BLISKORU_3M_IS_M4 = 2        /* M4 has the answer of 3M; fields on 4, 5, 6 and 10 are refused with 18 */
};

/* Bits of a quote's sides. */
enum bliskoru_side {
    BLISKORU_BID = 1,
    BLISKORU_OFFER = 2
};

/* It is raised whenever a function, a tag or a number is added: 1 has the sheet, 2 the text tape too, 3 the long header too, 4 both
   headers' moves too. */
#define BLISKORU_VERSION 4

#define BLISKORU_LONGEST_SHEET 1048576  /* bytes; a longer sheet is refused with 1 */
#define BLISKORU_LONGEST_TAPE 3145728   /* bytes; no accepted sheet has a longer text */
#define BLISKORU_LONGEST_LISTED 65536   /* bytes; the list of a longer sheet is the line `too long` */
#define BLISKORU_LIST_ROOM 512          /* bytes; no list is longer */
#define BLISKORU_ANSWERS 18             /* six rows of three numbers */
#define BLISKORU_VALUES 6               /* a field's tag and values */
#define BLISKORU_LONGEST_FIELD 17       /* bytes of a quote; header 6, long header 7, previous close 8, trade 14, end 7 */

/*
 * The closing list of a sheet, as text: the metal's name and six lines, or `refused`, number and byte, or `too long` for a sheet of more than
 * 65,536 bytes. A line feed stands after every line, and no zero byte behind them.
 *   sheet, sheet_len  the sheet
 *   out, out_len      where the list goes; BLISKORU_LIST_ROOM bytes are always enough
 * Yes: the list's length, which is never 0. The list stands at the start of out, and the bytes of out behind it stay as they were.
 * No:  0. The list is longer than out_len, and out stays as it was.
 */
size_t bliskoru_list(const uint8_t *sheet, size_t sheet_len, uint8_t *out, size_t out_len);

/*
 * Is this a sheet?
 *   sheet, sheet_len  the sheet
 *   at                the refusal's byte
 * Yes: 0. *at stays as it was.
 * No:  1 to 12 or 18. *at is the byte at which the field starts that earned it (1: 0; missing end: sheet_len; bytes after the end: the first of
 *      them).
 */
uint8_t bliskoru_judge(const uint8_t *sheet, size_t sheet_len, size_t *at);

/*
 * The six answers of a sheet.
 *   sheet, sheet_len  the sheet
 *   answers           BLISKORU_ANSWERS numbers: for 3M, M3, M2, M4, M1 and Cash in turn
 *                       1 VWAP, 2 TWAP, or the contract's refusal 13 to 15;
 *                       the close in cents, 1 to 99,999,999, or 0 where it is refused;
 *                       the lots, the sum over its VWAP instruments in the window, 0 with 15.
 *                     M3 or M4 has the three numbers of 3M where the header's third value names it, and 15 where one before it is refused
 *   at                the refusal's byte
 * Yes: 0, also where contracts are refused. All of answers is written, and *at stays as it was.
 * No:  1 to 12 or 18, as bliskoru_judge says it. *at is the byte, and answers stays as it was.
 */
uint8_t bliskoru_answers(const uint8_t *sheet, size_t sheet_len, uint64_t *answers, size_t *at);

/*
 * One field, whatever stands before or behind it.
 *   sheet, sheet_len  the bytes it stands in, of any length
 *   at                the place at which it starts; any number
 *   values            BLISKORU_VALUES numbers: the tag, then the values in the order of its body, then zeros
 *                       header          1, metal, marks, 0, 0, 0
 *                       long header     6, metal, marks, third, 0, 0
 *                       previous close  2, instrument, cents, 0, 0, 0
 *                       trade           3, time, instrument, cents, lots, 0
 *                       quote           4, time, instrument, sides, bid, offer
 *                       end             5, count, 0, 0, 0, 0
 *   next              the place behind the field
 * Yes: 0. All of values and *next are written.
 * No:  2, 3, 4 or 6 to 11 (8 for the range only). values and *next stay as they were. At a place past the end: 2.
 */
uint8_t bliskoru_read(const uint8_t *sheet, size_t sheet_len, size_t at, int64_t *values, size_t *next);

/*
 * Each of the six writes one field.
 *   buffer, buffer_len  where it goes
 *   at                  the place at which it starts; any number
 *   next                the place behind the field
 * Yes: 0. The field's bytes stand at `at`, the others of buffer stay as they were, and *next is the place behind the field.
 * No:  the number that the values earn, or 16 where they earn none and the field doesn't fit. buffer and *next stay as they were.
 * What only a whole sheet can get wrong is not judged here: the order of fields, barred instruments, times that fall, the end's count.
 */

/* 6 bytes; 6 or 16. metal: 1 Nickel, 2 Aluminium, 3 Zinc, 4 Copper, 5 Lead. marks: bit i-1 where spread i is quoted reversed. */
uint8_t bliskoru_write_header(uint8_t *buffer, size_t buffer_len, size_t at, uint8_t metal, uint16_t marks, size_t *next);

/* 7 bytes; 6 or 16. The header with a third value, of enum bliskoru_third; metal and marks as in the short one. */
uint8_t bliskoru_write_long_header(uint8_t *buffer, size_t buffer_len, size_t at, uint8_t metal, uint16_t marks, uint8_t third, size_t *next);

/* 8 bytes; 7, 9 or 16. instrument: 0 is 3M outright, 1 to 11 are the spreads. cents: the price. */
uint8_t bliskoru_write_previous_close(uint8_t *buffer, size_t buffer_len, size_t at, uint8_t instrument, int32_t cents, size_t *next);

/* 14 bytes; 7, 8, 9, 10 or 16. time: milliseconds of the day. */
uint8_t bliskoru_write_trade(uint8_t *buffer, size_t buffer_len, size_t at, uint32_t time, uint8_t instrument, int32_t cents, uint16_t lots,
                             size_t *next);

/* 17 bytes; 7, 8, 9, 11 or 16. sides: bit 0 bid, bit 1 offer. bid, offer: cents, and 0 for the side that is absent. */
uint8_t bliskoru_write_quote(uint8_t *buffer, size_t buffer_len, size_t at, uint32_t time, uint8_t instrument, uint8_t sides, int32_t bid,
                             int32_t offer, size_t *next);

/* 7 bytes; 16. count: of the fields before it, the header included. */
uint8_t bliskoru_write_end(uint8_t *buffer, size_t buffer_len, size_t at, uint32_t count, size_t *next);

/*
 * The sheet of a text tape.
 *   tape, tape_len    the text: METAL, PREV, TRADE and QUOTE lines, a line feed after each and no zero byte behind them; of any length
 *   sheet, sheet_len  where the sheet goes; BLISKORU_LONGEST_SHEET bytes are always enough, and so are twice tape_len
 *   length            the sheet's length
 *   at                the refusal's line
 * Yes: 0. The sheet stands at the start of sheet, with its right end field, and *length is its length. The bytes of sheet behind it and *at stay
 *      as they were.
 * No:  5, 6, 8 to 11, 17 or 18. *at is the number of the first bad line, counted from 1. A tape without a line: 5 at line 1.
 *      Where no line is bad, 1 for a sheet of more than 1,048,576 bytes, then 16 for one of more than sheet_len; *at is 0.
 *      sheet and *length stay as they were.
 */
uint8_t bliskoru_tape_to_sheet(const uint8_t *tape, size_t tape_len, uint8_t *sheet, size_t sheet_len, size_t *length, size_t *at);

/*
 * The text tape of a sheet. Turned into a sheet again it is that sheet.
 *   sheet, sheet_len  the sheet
 *   tape, tape_len    where the text goes; BLISKORU_LONGEST_TAPE bytes are always enough, and so are three times sheet_len
 *   length            the text's length
 *   at                the refusal's byte
 * Yes: 0. The text stands at the start of tape, with a line feed after every line and no zero byte behind them, and *length is its length. The
 *      bytes of tape behind it and *at stay as they were.
 * No:  1 to 12 or 18, as bliskoru_judge says it; *at is the byte. Then 16 for a text of more than tape_len bytes; *at is 0.
 *      tape and *length stay as they were.
 */
uint8_t bliskoru_sheet_to_tape(const uint8_t *sheet, size_t sheet_len, uint8_t *tape, size_t tape_len, size_t *length, size_t *at);

/*
 * Each of the two moves a sheet to another header, for readers that know one alone. Metal, marks and all bytes behind the header are the same, the
 * end's count too, and so are the answers. Moved back it is the first sheet.
 *   sheet, sheet_len  the sheet
 *   out, out_len      where the moved sheet goes; BLISKORU_LONGEST_SHEET bytes are always enough, and so is a byte more than sheet_len
 *   length            the moved sheet's length
 *   at                the refusal's byte
 * Yes: 0. The moved sheet stands at the start of out, and *length is its length. The bytes of out behind it and *at stay as they were.
 * No:  1 to 12 or 18, as bliskoru_judge says it; *at is the byte. Then 19 for the header that the sheet has, 1 for a moved sheet of more than
 *      1,048,576 bytes, 16 for one of more than out_len, in this order; *at is 0.
 *      out and *length stay as they were.
 */

/* To the new header: from the short one to a long one with the third value 0, a byte more. 19 for a long header. */
uint8_t bliskoru_to_new_header(const uint8_t *sheet, size_t sheet_len, uint8_t *out, size_t out_len, size_t *length, size_t *at);

/* To the old header: from a long one with the third value 0 to the short one, a byte less. 19 for a short header, or the third value 1 or 2. */
uint8_t bliskoru_to_old_header(const uint8_t *sheet, size_t sheet_len, uint8_t *out, size_t out_len, size_t *length, size_t *at);

#ifdef __cplusplus
}
#endif

#endif
