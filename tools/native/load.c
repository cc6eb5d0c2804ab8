/*
 * Loads a sheet under a host list by the library and prints what it answers, for the tools to put in words.
 *
 *     load [--table | --families | --nearest T U] SHEET HOSTS
 *
 * Prints the six numbers and, where the sheet is accepted, what is asked for: with --table the words of the linked
 * table, sixteen to a line; with --families what paqlluri_count_structs answers, and for each type whose family is not
 * empty a line with its number and its size; with --nearest what paqlluri_nearest answers of the types T and U, any
 * numbers that a word holds. A file can be - for standard input.
 * Exit status: 0 accepted, 1 refused, 2 not tried, or not all was printed.
 */
#include <errno.h>
#include <stdio.h>
#include <stdlib.h>
#include <string.h>

#include "paqlluri.h"

/* One byte more than a sheet or a host list can have shows that there are more, which the loader refuses. */
#define MOST_BYTES ((size_t)PAQLLURI_BLOCK_BYTES * PAQLLURI_MOST_BLOCKS + 1)

struct bytes {
    uint8_t *data;
    size_t length;
};

/* What is printed of an accepted sheet, beside the six numbers. */
enum wanted { NUMBERS, TABLE, FAMILIES, NEAREST };

/* The types are those of NEAREST. */
struct asked {
    enum wanted wanted;
    uint32_t types[2];
};

static int stop(const char *what, int error) {
    fprintf(stderr, "load: %s: %s\n", what, strerror(error));
    return 2;
}

/* Fills bytes from an open file; 0, or the system's number of what went wrong. */
static int read_open(FILE *file, struct bytes *bytes) {
    bytes->data = malloc(MOST_BYTES);
    if (bytes->data == NULL)
        return ENOMEM;
    errno = 0;
    bytes->length = fread(bytes->data, 1, MOST_BYTES, file);
    if (ferror(file))
        return errno != 0 ? errno : EIO;
    return 0;
}

/* The file's bytes into bytes, whose data is then to be freed whatever is returned; 0, or 2 with a message. */
static int read_file(const char *name, struct bytes *bytes) {
    int input = strcmp(name, "-") == 0;
    FILE *file = input ? stdin : fopen(name, "rb");
    int error = file == NULL ? errno : read_open(file, bytes);
    if (file != NULL && !input)
        fclose(file);
    return error == 0 ? 0 : stop(input ? "standard input" : name, error);
}

/* Whether all words were written, sixteen to a line. */
static int print_words(const uint32_t *words, size_t count) {
    size_t i;
    for (i = 0; i < count; i++)
        if (printf("%lu%c", (unsigned long)words[i], i % 16 == 15 || i + 1 == count ? '\n' : ' ') < 0)
            return 0;
    return 1;
}

/* Whether all was written; no sheet has as many types as its linked table has words, and other numbers have size 0. */
static int print_families(struct bytes sheet, const uint32_t *table, size_t length) {
    uint32_t answer[PAQLLURI_COUNT_NUMBERS], type;
    paqlluri_count_structs(sheet.data, sheet.length, answer);
    if (!print_words(answer, PAQLLURI_COUNT_NUMBERS))
        return 0;
    for (type = 0; type < length; type++) {
        paqlluri_family_size(table, length, type, answer);
        if (answer[PAQLLURI_COUNT] != 0 && printf("%lu %lu\n", (unsigned long)type, (unsigned long)answer[PAQLLURI_COUNT]) < 0)
            return 0;
    }
    return 1;
}

/* Whether both numbers were written. */
static int print_nearest(const uint32_t *table, size_t length, const uint32_t *types) {
    uint32_t answer[PAQLLURI_NEAREST_NUMBERS];
    paqlluri_nearest(table, length, types[0], types[1], answer);
    return print_words(answer, PAQLLURI_NEAREST_NUMBERS);
}

/* Loads into lent words and prints the answer; 0 and 1 are verdicts, given only where all of it was written. */
static int load(struct bytes sheet, struct bytes hosts, struct asked asked, uint32_t *table, uint32_t *work) {
    uint32_t answer[PAQLLURI_NUMBERS];
    size_t words = PAQLLURI_WORDS(sheet.length);
    int accepted, written;
    paqlluri_load(sheet.data, sheet.length, hosts.data, hosts.length, table, words, work, words, answer);
    accepted = answer[PAQLLURI_KIND] == PAQLLURI_ACCEPTED;
    errno = 0;
    written = print_words(answer, PAQLLURI_NUMBERS);
    if (written && accepted && asked.wanted == TABLE)
        written = print_words(table, answer[PAQLLURI_NUMBER]);
    if (written && accepted && asked.wanted == FAMILIES)
        written = print_families(sheet, table, answer[PAQLLURI_NUMBER]);
    if (written && accepted && asked.wanted == NEAREST)
        written = print_nearest(table, answer[PAQLLURI_NUMBER], asked.types);
    if (fflush(stdout) != 0 || !written)
        return stop("standard output", errno != 0 ? errno : EIO);
    return accepted ? 0 : 1;
}

/* Lends table and work of just the length that is surely enough. */
static int lend(struct bytes sheet, struct bytes hosts, struct asked asked) {
    size_t words = PAQLLURI_WORDS(sheet.length);
    uint32_t *table = calloc(words, sizeof *table), *work = calloc(words, sizeof *work);
    int status = table == NULL || work == NULL ? stop("table and work", ENOMEM) : load(sheet, hosts, asked, table, work);
    free(table);
    free(work);
    return status;
}

static enum wanted option(int argc, char **argv) {
    if (argc > 1 && strcmp(argv[1], "--table") == 0)
        return TABLE;
    if (argc > 1 && strcmp(argv[1], "--families") == 0)
        return FAMILIES;
    return argc > 1 && strcmp(argv[1], "--nearest") == 0 ? NEAREST : NUMBERS;
}

/* Whether a text is digits of a number that a word holds, which is then in word. */
static int read_word(const char *text, uint32_t *word) {
    uint64_t value = 0;
    size_t i;
    for (i = 0; text[i] >= '0' && text[i] <= '9' && value <= UINT32_MAX; i++)
        value = 10 * value + (uint64_t)(text[i] - '0');
    *word = (uint32_t)value;
    return i > 0 && text[i] == '\0' && value <= UINT32_MAX;
}

/* Where the two files stand among the arguments, with what is asked for into asked; 0 where they are not as the usage says. */
static int read_arguments(int argc, char **argv, struct asked *asked) {
    int first;
    asked->wanted = option(argc, argv);
    first = asked->wanted == NUMBERS ? 1 : asked->wanted == NEAREST ? 4 : 2;
    if (argc - first != 2 || (strcmp(argv[first], "-") == 0 && strcmp(argv[first + 1], "-") == 0))
        return 0;
    if (asked->wanted == NEAREST && !(read_word(argv[2], &asked->types[0]) && read_word(argv[3], &asked->types[1])))
        return 0;
    return first;
}

int main(int argc, char **argv) {
    struct bytes sheet = {NULL, 0}, hosts = {NULL, 0};
    struct asked asked = {NUMBERS, {0, 0}};
    int first = read_arguments(argc, argv, &asked), status;
    if (first == 0) {
        fprintf(stderr, "usage: load [--table | --families | --nearest T U] SHEET HOSTS\n");
        return 2;
    }
    status = read_file(argv[first], &sheet);
    if (status == 0)
        status = read_file(argv[first + 1], &hosts);
    if (status == 0)
        status = lend(sheet, hosts, asked);
    free(sheet.data);
    free(hosts.data);
    return status;
}
