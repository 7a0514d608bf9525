/*
 * Loads a sheet, says what the keeper answers, and writes it back.
 *
 *     (cd crates/keeper_c && rt lib)
 *     mkdir -p target
 *     cc -Iinclude examples/load.c crates/keeper_c/out/libkeeper_c.a -o target/load
 *     target/load samples/forest.sheet
 *
 * Exits with 0 if the sheet is accepted, 1 if it is refused, 2 if the file cannot be read or is longer than
 * KEEPER_LONGEST_SHEET: a load takes sheets of any length, this program does not.
 */
#include <inttypes.h>
#include <stdio.h>
#include <string.h>

#include "keeper.h"

static uint8_t attributes[KEEPER_ATTRIBUTES_LENGTH];
static uint8_t classes[KEEPER_CLASSES_LENGTH];
static uint8_t closure[KEEPER_CLOSURE_LENGTH];
/* One byte more than a sheet may have here, so that a longer file is told from a whole one. */
static uint8_t sheet[KEEPER_LONGEST_SHEET + 1];
static uint8_t output[KEEPER_LONGEST_SHEET];

/* Prints a call's number, table and place. */
static void say(const char *call, uint64_t number, const uint64_t *detail)
{
    printf("%s %" PRIu64 " %" PRIu64 " %" PRIu64 "\n", call, number, detail[0], detail[1]);
}

/* Reads the file into `sheet`. Returns whether all of it is there; if not, says why. */
static int read_sheet(const char *path, size_t *length)
{
    FILE *file = fopen(path, "rb");
    if (file == NULL) {
        perror(path);
        return 0;
    }
    *length = fread(sheet, 1, sizeof sheet, file);
    int failed = ferror(file);
    fclose(file);
    if (failed)
        fprintf(stderr, "%s: cannot be read\n", path);
    else if (*length > KEEPER_LONGEST_SHEET)
        fprintf(stderr, "%s: longer than %d bytes\n", path, KEEPER_LONGEST_SHEET);
    return !failed && *length <= KEEPER_LONGEST_SHEET;
}

int main(int count, char **words)
{
    uint64_t detail[KEEPER_DETAIL_LENGTH] = {0};
    size_t length = 0;
    if (count != 2) {
        fprintf(stderr, "load SHEET\n");
        return 2;
    }
    if (!read_sheet(words[1], &length))
        return 2;

    uint64_t number = keeper_load(sheet, length, attributes, sizeof attributes, classes, sizeof classes,
                                  closure, sizeof closure, detail, KEEPER_DETAIL_LENGTH);
    say("load", number, detail);
    if (number != KEEPER_DONE)
        return 1;

    number = keeper_audit(attributes, sizeof attributes, classes, sizeof classes, closure, sizeof closure,
                          detail, KEEPER_DETAIL_LENGTH);
    say("audit", number, detail);

    number = keeper_depth(attributes, sizeof attributes, classes, sizeof classes, closure, sizeof closure,
                          (uint16_t)(classes[0] - 1), detail, KEEPER_DETAIL_LENGTH);
    say("depth of the last class", number, detail);

    number = keeper_write(attributes, sizeof attributes, classes, sizeof classes, closure, sizeof closure,
                          output, sizeof output, detail, KEEPER_DETAIL_LENGTH);
    say("write", number, detail);
    puts(detail[1] == length && memcmp(sheet, output, length) == 0 ? "the same sheet" : "another sheet");
    return 0;
}
