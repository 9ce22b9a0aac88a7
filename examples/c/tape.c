/* A text tape turned into its day sheet, or a day sheet into its text: from a file to standard output. */
#include <stdio.h>
#include <string.h>

#include "bliskoru.h"

/* One more byte than the longest text, so that a longer one is seen to be longer; no such text is accepted. */
static uint8_t given[BLISKORU_LONGEST_TAPE + 1];
static uint8_t turned[BLISKORU_LONGEST_TAPE];

int main(int argc, char **argv)
{
    size_t at = 0, length = 0, given_len;
    uint8_t number;
    int to_sheet = argc == 3 && strcmp(argv[1], "to-sheet") == 0;
    int to_tape = argc == 3 && strcmp(argv[1], "to-tape") == 0;
    FILE *file = to_sheet || to_tape ? fopen(argv[2], "rb") : NULL;

    if (file == NULL) {
        fprintf(stderr, "usage: tape to-sheet TAPE, or tape to-tape SHEET\n");
        return 2;
    }
    given_len = fread(given, 1, sizeof given, file);
    fclose(file);
    if (given_len == sizeof given) {
        fprintf(stderr, "too long\n");
        return 1;
    }

    if (to_sheet)
        number = bliskoru_tape_to_sheet(given, given_len, turned, sizeof turned, &length, &at);
    else
        number = bliskoru_sheet_to_tape(given, given_len, turned, sizeof turned, &length, &at);
    if (number != BLISKORU_YES) {
        fprintf(stderr, "refused %u %lu\n", (unsigned)number, (unsigned long)at);
        return 1;
    }
    return fwrite(turned, 1, length, stdout) == length ? 0 : 1;
}
