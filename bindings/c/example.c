/*
 * Loads a sheet under a host list, prints the six numbers, then says of each pair of types whether one
 * descends from the other, how many types do, how long the chain of the first is, and which family of the two is the nearest.
 *
 *     example SHEET HOSTS [T A]...
 *
 * Exit status: 0 accepted, 1 refused, 2 not tried.
 */
#include <errno.h>
#include <stdio.h>
#include <stdlib.h>
#include <string.h>

#include "paqlluri.h"

/* One byte more than a sheet can have shows that there are more; such a file is refused like any broken one. */
#define MOST_BYTES ((size_t)PAQLLURI_BLOCK_BYTES * PAQLLURI_MOST_BLOCKS + 1)

struct bytes {
    uint8_t *data;
    size_t length;
};

static int stop(const char *name, const char *why) {
    fprintf(stderr, "example: %s: %s\n", name, why);
    return 2;
}

/* Reads a file whole; data is null where that fails, and errno says why. */
static struct bytes read_file(const char *name) {
    struct bytes bytes = {NULL, 0};
    FILE *file = fopen(name, "rb");
    int error;
    if (file == NULL)
        return bytes;
    bytes.data = (uint8_t *)malloc(MOST_BYTES);
    if (bytes.data != NULL)
        bytes.length = fread(bytes.data, 1, MOST_BYTES, file);
    error = errno;
    if (ferror(file)) {
        free(bytes.data);
        bytes.data = NULL;
    }
    fclose(file);
    errno = error;
    return bytes;
}

static int is_number(const char *text) {
    return *text != '\0' && text[strspn(text, "0123456789")] == '\0';
}

/* A type number; digits that are too many for one name no type. */
static uint32_t type_number(const char *digits) {
    unsigned long number = strtoul(digits, NULL, 10);
    return number < UINT32_MAX ? (uint32_t)number : UINT32_MAX;
}

static void print_families(const uint32_t *table, size_t words, int pairs, char **numbers) {
    uint32_t size[PAQLLURI_COUNT_NUMBERS], chain[PAQLLURI_COUNT_NUMBERS], nearest[PAQLLURI_NEAREST_NUMBERS];
    int k;
    for (k = 0; k < pairs; k++) {
        const char *t = numbers[2 * k], *a = numbers[2 * k + 1];
        int yes = paqlluri_descends(table, words, type_number(t), type_number(a)) == 1;
        paqlluri_family_size(table, words, type_number(a), size);
        paqlluri_chain_length(table, words, type_number(t), chain);
        paqlluri_nearest(table, words, type_number(t), type_number(a), nearest);
        printf("%s descends from %s: %s\n", t, a, yes ? "yes" : "no");
        printf("types that descend from %s: %lu\n", a, (unsigned long)size[PAQLLURI_COUNT]);
        printf("chain length of %s: %lu\n", t, (unsigned long)chain[PAQLLURI_COUNT]);
        if (nearest[PAQLLURI_NEAREST_KIND] == PAQLLURI_FOUND)
            printf("nearest family of %s and %s: %lu\n", t, a, (unsigned long)nearest[PAQLLURI_NEAREST_FAMILY]);
        else
            printf("nearest family of %s and %s: none\n", t, a);
    }
}

static int load(struct bytes sheet, struct bytes hosts, int pairs, char **numbers) {
    uint32_t answer[PAQLLURI_NUMBERS];
    size_t words = PAQLLURI_WORDS(sheet.length);
    uint32_t *table = (uint32_t *)calloc(words, sizeof *table);
    uint32_t *work = (uint32_t *)calloc(words, sizeof *work);
    if (table == NULL || work == NULL) {
        free(table);
        free(work);
        return stop("table and work", strerror(ENOMEM));
    }
    paqlluri_load(sheet.data, sheet.length, hosts.data, hosts.length, table, words, work, words, answer);
    free(work);
    printf("%lu %lu %lu %lu %lu %lu\n", (unsigned long)answer[PAQLLURI_KIND], (unsigned long)answer[PAQLLURI_WORD],
           (unsigned long)answer[PAQLLURI_NUMBER], (unsigned long)answer[PAQLLURI_SECOND],
           (unsigned long)answer[PAQLLURI_FUNCTION], (unsigned long)answer[PAQLLURI_POSITION]);
    if (answer[PAQLLURI_KIND] == PAQLLURI_ACCEPTED)
        print_families(table, answer[PAQLLURI_NUMBER], pairs, numbers);
    free(table);
    if (fflush(stdout) != 0)
        return stop("standard output", strerror(errno));
    return answer[PAQLLURI_KIND] == PAQLLURI_ACCEPTED ? 0 : 1;
}

int main(int argc, char **argv) {
    struct bytes sheet, hosts;
    int status, k;
    if (argc < 3 || argc % 2 == 0) {
        fprintf(stderr, "usage: example SHEET HOSTS [T A]...\n");
        return 2;
    }
    for (k = 3; k < argc; k++)
        if (!is_number(argv[k]))
            return stop(argv[k], "not the number of a type");
    sheet = read_file(argv[1]);
    if (sheet.data == NULL)
        return stop(argv[1], strerror(errno));
    hosts = read_file(argv[2]);
    if (hosts.data == NULL) {
        free(sheet.data);
        return stop(argv[2], strerror(errno));
    }
    status = load(sheet, hosts, (argc - 3) / 2, argv + 3);
    free(sheet.data);
    free(hosts.data);
    return status;
}
