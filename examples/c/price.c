/* The six answers of a day sheet from a file, a line each: contract, method, cents, lots. */
#include <inttypes.h>
#include <stdio.h>

#include "bliskoru.h"

static const char *const contracts[] = {"3M", "M3", "M2", "M4", "M1", "Cash"};

/* One more byte than the longest sheet, so that a longer one is seen to be longer. */
static uint8_t sheet[BLISKORU_LONGEST_SHEET + 1];

static void print_row(const char *contract, const uint64_t *row)
{
    if (row[0] == BLISKORU_VWAP || row[0] == BLISKORU_TWAP)
        printf("%s %s %" PRIu64 " %" PRIu64 "\n", contract, row[0] == BLISKORU_VWAP ? "VWAP" : "TWAP", row[1], row[2]);
    else
        printf("%s refused %" PRIu64 " %" PRIu64 "\n", contract, row[0], row[2]);
}

int main(int argc, char **argv)
{
    uint64_t answers[BLISKORU_ANSWERS];
    size_t at = 0, length;
    uint8_t number;
    int k;
    FILE *file = argc == 2 ? fopen(argv[1], "rb") : NULL;

    if (file == NULL) {
        fprintf(stderr, "usage: price SHEET\n");
        return 2;
    }
    length = fread(sheet, 1, sizeof sheet, file);
    fclose(file);

    number = bliskoru_answers(sheet, length, answers, &at);
    if (number != BLISKORU_YES) {
        printf("refused %u %zu\n", (unsigned)number, at);
        return 1;
    }
    for (k = 0; k < 6; k++)
        print_row(contracts[k], answers + 3 * k);
    return 0;
}
