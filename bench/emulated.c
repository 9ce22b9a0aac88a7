/* One piece of work by one side over a sheet, between two marks, for `plugin.c` to count: emulated WORK SIDE FILE. What the side said is
   printed, so that the sides can be held to one another. */
#include <stdio.h>
#include <string.h>

#include "bliskoru.h"
#include "sides.h"

#define FUNCTIONS(prefix) prefix##_judge, prefix##_read, prefix##_answers
static const struct side {
    const char *name;
    uint8_t (*judge)(const uint8_t *, size_t, size_t *);
    uint8_t (*read)(const uint8_t *, size_t, size_t, int64_t *, size_t *);
    uint8_t (*answers)(const uint8_t *, size_t, uint64_t *, size_t *);
} SIDES[] = {{"library", FUNCTIONS(bliskoru)}, {"plain", FUNCTIONS(plain)}, {"limit", FUNCTIONS(limit)}};

static uint8_t sheet[1 << 20];
static size_t len, at;
static int64_t values[6];
static uint64_t rows[18];

/* The plugin counts what is executed from one to the other. */
__attribute__((noipa)) void mark_begin(void) {}
__attribute__((noipa)) void mark_end(void) {}

static unsigned judge(const struct side *side) {
    return side->judge(sheet, len, &at);
}

static unsigned answers(const struct side *side) {
    return side->answers(sheet, len, rows, &at);
}

static unsigned read_all(const struct side *side) {
    unsigned number;
    while ((number = side->read(sheet, len, at, values, &at)) == 0)
        ;
    return number;
}

int main(int count, char **words) {
    const struct side *side = SIDES, *end = SIDES + sizeof SIDES / sizeof *SIDES;
    if (count != 4) return 2;
    while (side < end && strcmp(side->name, words[2])) side++;
    FILE *file = fopen(words[3], "rb");
    if (side == end || !file) return 2;
    len = fread(sheet, 1, sizeof sheet, file);
    unsigned (*work)(const struct side *) = words[1][0] == 'j' ? judge : words[1][0] == 'r' ? read_all : answers;
    mark_begin();
    unsigned number = work(side);
    mark_end();
    printf("%u %zu", number, at);
    for (int i = 0; i < 6; i++) printf(" %lld", (long long)values[i]);
    for (int i = 0; i < 18; i++) printf(" %llu", (unsigned long long)rows[i]);
    puts("");
    return 0;
}
