/* Sheets of a stream (four bytes of length, then the sheet) that have at most so many bytes, each into a file of its own, and the text of each that
   is accepted, where it has at most so many bytes too: seeds FOLDER MOST <STREAM */
#include <stdint.h>
#include <stdio.h>
#include <stdlib.h>
#include "bliskoru.h"

static int written(const char *folder, unsigned n, const char *kind, const uint8_t *bytes, size_t len) {
    char name[4096];
    snprintf(name, sizeof name, "%s/%05u.%s", folder, n, kind);
    FILE *file = fopen(name, "wb");
    return file && fwrite(bytes, 1, len, file) == len && !fclose(file);
}

int main(int count, char **words) {
    static uint8_t sheet[1 << 21], tape[BLISKORU_LONGEST_TAPE];
    uint8_t head[4];
    size_t length, at;
    if (count != 3) return 2;
    for (unsigned n = 0; fread(head, 1, 4, stdin) == 4; n++) {
        size_t len = (size_t)head[0] << 24 | head[1] << 16 | head[2] << 8 | head[3];
        if (len > sizeof sheet || fread(sheet, 1, len, stdin) != len) return 1;
        if (len > (size_t)atol(words[2])) continue;
        if (!written(words[1], n, "sheet", sheet, len)) return 1;
        if (bliskoru_sheet_to_tape(sheet, len, tape, (size_t)atol(words[2]), &length, &at)) continue;
        if (!written(words[1], n, "tape", tape, length)) return 1;
    }
    return 0;
}
