/* A text turned into its sheet, or that sheet into its text, by one side between two marks, for `plugin.c` to count: emulated_tapes WORK SIDE FILE,
   where the file is the text in both. The bytes that the side made are printed, so that the sides can be held to one another. */
#include <stdio.h>
#include <string.h>

#include "bliskoru.h"
#include "sides.h"

typedef uint8_t turning(const uint8_t *, size_t, uint8_t *, size_t, size_t *, size_t *);

static uint8_t text[BLISKORU_LONGEST_TAPE], sheet[BLISKORU_LONGEST_SHEET], out[BLISKORU_LONGEST_TAPE];

/* The plugin counts what is executed from one to the other. */
__attribute__((noipa)) void mark_begin(void) {}
__attribute__((noipa)) void mark_end(void) {}

int main(int count, char **words) {
    if (count != 4) return 2;
    int to_sheet = !strcmp(words[1], "to-sheet"), library = !strcmp(words[2], "library");
    FILE *file = fopen(words[3], "rb");
    if (!file) return 2;
    size_t len = fread(text, 1, sizeof text, file), at = 0, made = 0;
    turning *turn = to_sheet ? library ? bliskoru_tape_to_sheet : second_tape_to_sheet : library ? bliskoru_sheet_to_tape : second_sheet_to_tape;
    const uint8_t *from = text;
    if (!to_sheet) {
        if (bliskoru_tape_to_sheet(text, len, sheet, sizeof sheet, &len, &at)) return 1;
        from = sheet;
    }
    size_t room = to_sheet ? sizeof sheet : sizeof out;
    mark_begin();
    uint8_t number = turn(from, len, out, room, &made, &at);
    mark_end();
    return number || fwrite(out, 1, made, stdout) != made;
}
