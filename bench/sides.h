/* The functions of plain.c and of limit.c, and of the independent program those over texts (fuzz/second): those of hosts/c/bliskoru.h by other names. */
#ifndef SIDES_H
#define SIDES_H

#include <stddef.h>
#include <stdint.h>

uint8_t plain_judge(const uint8_t *sheet, size_t len, size_t *at);
uint8_t plain_read(const uint8_t *sheet, size_t len, size_t at, int64_t *values, size_t *next);
uint8_t plain_answers(const uint8_t *sheet, size_t len, uint64_t *answers, size_t *at);
uint8_t plain_to_new_header(const uint8_t *sheet, size_t len, uint8_t *out, size_t room, size_t *length, size_t *at);
uint8_t plain_to_old_header(const uint8_t *sheet, size_t len, uint8_t *out, size_t room, size_t *length, size_t *at);

uint8_t limit_judge(const uint8_t *sheet, size_t len, size_t *at);
uint8_t limit_read(const uint8_t *sheet, size_t len, size_t at, int64_t *values, size_t *next);
uint8_t limit_answers(const uint8_t *sheet, size_t len, uint64_t *answers, size_t *at);
size_t limit_list(const uint8_t *sheet, size_t len, uint8_t *out, size_t room);
uint8_t limit_to_new_header(const uint8_t *sheet, size_t len, uint8_t *out, size_t room, size_t *length, size_t *at);
uint8_t limit_to_old_header(const uint8_t *sheet, size_t len, uint8_t *out, size_t room, size_t *length, size_t *at);

uint8_t second_tape_to_sheet(const uint8_t *tape, size_t len, uint8_t *sheet, size_t room, size_t *length, size_t *at);
uint8_t second_sheet_to_tape(const uint8_t *sheet, size_t len, uint8_t *tape, size_t room, size_t *length, size_t *at);

#endif
