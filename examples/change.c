/*
 * Loads a sheet, makes one change to the schema, and saves it as a sheet.
 *
 *     (cd crates/keeper_c && rt lib)
 *     mkdir -p target
 *     cc -Iinclude examples/change.c crates/keeper_c/out/libkeeper_c.a -o target/change
 *     target/change plain samples/forest.sheet target/renamed.sheet 43 0010 20 0002 0011 01 0008 776F6F6465644861
 *
 * The first word says which call makes the change, plain or quick: from stores just loaded both give the same. The
 * change is given in hex digits, parted by spaces as one likes: docs/FORMAT.md shows changes so. This one names
 * attribute 17 `woodedHa`. Exits with 0 if the change is done and the sheet is saved, 1 if the sheet or the change is
 * refused (no sheet is saved then), 2 if the words or the files are not as they should be.
 */
#include <inttypes.h>
#include <stdio.h>
#include <string.h>

#include "keeper.h"

/* No change that can be read is longer: an added class has at most as many bytes as the longest class row. */
#define LONGEST_CHANGE 2761

static uint8_t attributes[KEEPER_ATTRIBUTES_LENGTH];
static uint8_t classes[KEEPER_CLASSES_LENGTH];
static uint8_t closure[KEEPER_CLOSURE_LENGTH];
/* The sheet as loaded, with one byte more, so that a longer file is told from a whole one; then as saved. */
static uint8_t sheet[KEEPER_LONGEST_SHEET + 1];
static uint8_t change[LONGEST_CHANGE];

/* Prints a call's number, table and place. */
static void say(const char *call, uint64_t number, const uint64_t *detail)
{
    printf("%s %" PRIu64 " %" PRIu64 " %" PRIu64 "\n", call, number, detail[0], detail[1]);
}

/* Reads the file into `sheet`. Returns whether all of it is there; if not, says why. */
static int read_sheet(const char *path, size_t *length)
{
    FILE *file = fopen(path, "rb");
    if (file == NULL) {
        perror(path);
        return 0;
    }
    *length = fread(sheet, 1, sizeof sheet, file);
    int failed = ferror(file);
    fclose(file);
    if (failed)
        fprintf(stderr, "%s: cannot be read\n", path);
    else if (*length > KEEPER_LONGEST_SHEET)
        fprintf(stderr, "%s: longer than %d bytes\n", path, KEEPER_LONGEST_SHEET);
    return !failed && *length <= KEEPER_LONGEST_SHEET;
}

/* Writes so many bytes of `sheet` to the file. Returns whether all of them are there; if not, says why. */
static int save_sheet(const char *path, size_t length)
{
    FILE *file = fopen(path, "wb");
    if (file == NULL) {
        perror(path);
        return 0;
    }
    size_t written = fwrite(sheet, 1, length, file);
    int failed = fclose(file) != 0 || written != length;
    if (failed)
        fprintf(stderr, "%s: cannot be written\n", path);
    return !failed;
}

/* The value of a hex digit, or -1. */
static int digit(char letter)
{
    if (letter >= '0' && letter <= '9')
        return letter - '0';
    if (letter >= 'A' && letter <= 'F')
        return letter - 'A' + 10;
    if (letter >= 'a' && letter <= 'f')
        return letter - 'a' + 10;
    return -1;
}

/* Appends a word's bytes to `change`. Returns whether the word is whole bytes, and they fit. */
static int read_word(const char *word, size_t *length)
{
    for (; *word != '\0'; word += 2) {
        int high = digit(word[0]);
        int low = high < 0 ? -1 : digit(word[1]);
        if (low < 0 || *length == sizeof change)
            return 0;
        change[(*length)++] = (uint8_t)(16 * high + low);
    }
    return 1;
}

/* Reads the words into `change`. Returns whether they are a string of bytes that fits; if not, says so. */
static int read_change(int count, char **words, size_t *length)
{
    *length = 0;
    for (int at = 0; at < count; at++) {
        if (!read_word(words[at], length)) {
            fprintf(stderr, "%s: no whole bytes in hex digits, or more than %d in all\n", words[at], LONGEST_CHANGE);
            return 0;
        }
    }
    return 1;
}

/* Makes `change` to the stores by the call of that name, and says what it came to. Returns the number. */
static uint64_t make_change(const char *call, size_t length)
{
    uint64_t detail[KEEPER_DETAIL_LENGTH] = {0};
    int quick = strcmp(call, "quick") == 0;
    uint64_t number =
        quick ? keeper_quick_change(change, length, attributes, sizeof attributes, classes, sizeof classes,
                                    closure, sizeof closure, detail, KEEPER_DETAIL_LENGTH)
              : keeper_plain_change(change, length, attributes, sizeof attributes, classes, sizeof classes,
                                    closure, sizeof closure, detail, KEEPER_DETAIL_LENGTH);
    say(quick ? "quick change" : "plain change", number, detail);
    return number;
}

int main(int count, char **words)
{
    uint64_t detail[KEEPER_DETAIL_LENGTH] = {0};
    size_t length = 0;
    size_t change_length = 0;
    if (count < 4 || (strcmp(words[1], "plain") != 0 && strcmp(words[1], "quick") != 0)) {
        fprintf(stderr, "change plain|quick SHEET NEW-SHEET HEX-DIGITS..\n");
        return 2;
    }
    if (!read_sheet(words[2], &length) || !read_change(count - 4, words + 4, &change_length))
        return 2;

    uint64_t number = keeper_load(sheet, length, attributes, sizeof attributes, classes, sizeof classes,
                                  closure, sizeof closure, detail, KEEPER_DETAIL_LENGTH);
    say("load", number, detail);
    if (number != KEEPER_DONE)
        return 1;

    if (make_change(words[1], change_length) != KEEPER_DONE)
        return 1;

    number = keeper_write(attributes, sizeof attributes, classes, sizeof classes, closure, sizeof closure,
                          sheet, sizeof sheet, detail, KEEPER_DETAIL_LENGTH);
    say("write", number, detail);
    if (number != KEEPER_DONE)
        return 1;
    return save_sheet(words[3], (size_t)detail[1]) ? 0 : 2;
}
