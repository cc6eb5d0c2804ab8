/*
 * What the header says of pointers, lengths and lent words, tried on the empty sheet, of families on samples/lifts.sheet,
 * and of editions on chains of types, on names of exports and on numbers of arguments. Prints nothing where it holds.
 *
 *     test LIFTS HOSTS
 */
#include <stdio.h>
#include <string.h>

#include "paqlluri.h"

#define BEFORE 0xa5a5a5a5u
#define ENOUGH (64 + 8 * 11)

/* The families need more: samples/lifts.sheet has two blocks. */
#define LIFTS_BYTES 1024
#define LIFTS_WORDS PAQLLURI_WORDS(LIFTS_BYTES)

static int wrong = 0;

static void expect(const char *what, int holds) {
    if (!holds) {
        printf("test: %s\n", what);
        wrong = 1;
    }
}

/* One block: these first words, zeros, and its check word, from a byte on that no uint32_t need begin at. */
static const uint8_t *block(uint8_t *room, uint8_t first, uint8_t second, uint8_t check) {
    uint8_t *bytes = room + 1;
    memset(bytes, 0, PAQLLURI_BLOCK_BYTES);
    bytes[0] = first;
    bytes[4] = second;
    bytes[PAQLLURI_BLOCK_BYTES - 4] = check;
    return bytes;
}

static uint32_t table[ENOUGH + 1], work[ENOUGH + 1], answer[PAQLLURI_NUMBERS + 1];

static void lend(void) {
    size_t i;
    for (i = 0; i <= ENOUGH; i++)
        table[i] = work[i] = BEFORE;
    for (i = 0; i <= PAQLLURI_NUMBERS; i++)
        answer[i] = BEFORE;
}

static int all(const uint32_t *words, size_t from, size_t to, uint32_t word) {
    size_t i;
    for (i = from; i < to; i++)
        if (words[i] != word)
            return 0;
    return 1;
}

/* The kind alone, and after it six numbers of which the rest are 0, and slices that are as before. */
static int untouched(uint32_t kind) {
    return answer[PAQLLURI_KIND] == kind && all(answer, 1, PAQLLURI_NUMBERS, 0) && answer[PAQLLURI_NUMBERS] == BEFORE &&
           all(table, 0, ENOUGH + 1, BEFORE) && all(work, 0, ENOUGH + 1, BEFORE);
}

static void loads(const uint8_t *sheet, const uint8_t *hosts) {
    const size_t bytes = PAQLLURI_BLOCK_BYTES;
    lend();
    paqlluri_load(sheet, bytes, hosts, bytes, table, ENOUGH, work, ENOUGH, answer);
    expect("the empty sheet", answer[PAQLLURI_KIND] == PAQLLURI_ACCEPTED && answer[PAQLLURI_WORD] == 0 && answer[PAQLLURI_NUMBER] == 49 &&
                                  all(answer, 3, PAQLLURI_NUMBERS, 0) && answer[PAQLLURI_NUMBERS] == BEFORE);
    expect("its table", table[0] == 2 && table[1] == 49 && table[2] == 10 && table[48] == 0 && all(table, 49, ENOUGH + 1, BEFORE));
    expect("work after it", all(work, 0, ENOUGH, 0) && work[ENOUGH] == BEFORE);
    expect("no family", paqlluri_descends(table, 49, 0, 0) == 0 && paqlluri_descends(table, ENOUGH, UINT32_MAX, 0) == 0);
    expect("a word of it missing", paqlluri_descends(table, 48, 0, 0) == PAQLLURI_NOT_LINKED);
    expect("no table", paqlluri_descends(NULL, 0, 0, 0) == PAQLLURI_NOT_LINKED);

    lend();
    paqlluri_load(NULL, 0, NULL, 0, NULL, 0, NULL, 0, answer);
    expect("nothing at all", untouched(PAQLLURI_DECODE));
    paqlluri_load(sheet, bytes, NULL, 0, table, ENOUGH, work, ENOUGH, answer);
    expect("no host list", untouched(PAQLLURI_BAD_HOST_LIST));
    paqlluri_load(sheet, bytes, hosts, bytes, NULL, 0, work, ENOUGH, answer);
    expect("no table to write", untouched(PAQLLURI_SHORT_SLICE));
    paqlluri_load(sheet, bytes, hosts, bytes, table, ENOUGH, NULL, 0, answer);
    expect("no work", untouched(PAQLLURI_SHORT_SLICE));
    paqlluri_load(sheet, bytes, hosts, bytes, table, ENOUGH - 1, work, ENOUGH, answer);
    expect("a word short", untouched(PAQLLURI_SHORT_SLICE));
    paqlluri_load(sheet, bytes, sheet, bytes, table, ENOUGH, work, ENOUGH, answer);
    expect("one slice as both", untouched(PAQLLURI_BAD_HOST_LIST));
}

/* Two numbers, and nothing behind them. */
static int counted(const uint32_t *numbers, uint32_t kind, uint32_t count) {
    return numbers[PAQLLURI_COUNT_KIND] == kind && numbers[PAQLLURI_COUNT] == count && numbers[PAQLLURI_COUNT_NUMBERS] == BEFORE;
}

/* A query about one type: the size of a family, the length of a chain. */
typedef void query(const uint32_t *table, size_t table_len, uint32_t type, uint32_t answer[2]);

static int told(query *ask, const uint32_t *words, size_t length, uint32_t type, uint32_t kind, uint32_t count) {
    uint32_t numbers[PAQLLURI_COUNT_NUMBERS + 1] = {BEFORE, BEFORE, BEFORE};
    ask(words, length, type, numbers);
    return counted(numbers, kind, count);
}

static int sized(const uint32_t *words, size_t length, uint32_t a, uint32_t kind, uint32_t size) {
    return told(paqlluri_family_size, words, length, a, kind, size);
}

static int is_long(const uint32_t *words, size_t length, uint32_t t, uint32_t kind, uint32_t chain) {
    return told(paqlluri_chain_length, words, length, t, kind, chain);
}

/* Lift; PassengerLift and GoodsLift below it; HydraulicGoodsLift below GoodsLift; three func types; two numbers that are none. */
#define LIFTS_ASKED 9

/* The count of each of these, in the table alone and with words behind it; 0 of unknown numbers; 25 of what is no table. */
static void of_lifts(const char *what, query *ask, const uint32_t *lifts, size_t length, const uint32_t expected[LIFTS_ASKED]) {
    const uint32_t not_linked = PAQLLURI_NOT_LINKED;
    uint32_t t;
    for (t = 0; t < LIFTS_ASKED; t++)
        expect(what, told(ask, lifts, length, t, 0, expected[t]) && told(ask, lifts, lifts[1], t, 0, expected[t]));
    expect(what, told(ask, lifts, length, UINT32_MAX, 0, 0) && told(ask, lifts, length, 0x80000000u, 0, 0));
    expect(what, told(ask, lifts, lifts[1] - 1, 3, not_linked, 0) && told(ask, lifts, 9, 99, not_linked, 0));
    expect(what, told(ask, NULL, 0, 0, not_linked, 0) && told(ask, NULL, 0, UINT32_MAX, not_linked, 0));
    expect(what, told(ask, lifts + 1, length - 1, 3, not_linked, 0));
}

/* The table is spoilt in the end. */
static void sizes(uint32_t *lifts, size_t length) {
    static const uint32_t expected[LIFTS_ASKED] = {4, 1, 2, 1, 0, 0, 0, 0, 0};
    const size_t spans = lifts[9];
    of_lifts("the size of a family", paqlluri_family_size, lifts, length, expected);
    lifts[spans + 1] = lifts[spans + 2] + 1;
    expect("post below pre", sized(lifts, length, 0, 0, 0) && sized(lifts, length, 2, 0, 2));
    lifts[spans] = 0x80000000u;
    expect("more spans than words", sized(lifts, length, 0, PAQLLURI_NOT_LINKED, 0));
}

static void lengths(const uint32_t *lifts, size_t length) {
    static const uint32_t expected[LIFTS_ASKED] = {1, 2, 2, 3, 0, 0, 0, 0, 0};
    of_lifts("the length of a chain", paqlluri_chain_length, lifts, length, expected);
}

static int one_way(const uint32_t *words, size_t length, uint32_t t, uint32_t u, uint32_t kind, uint32_t family) {
    uint32_t numbers[PAQLLURI_NEAREST_NUMBERS + 1] = {BEFORE, BEFORE, BEFORE};
    paqlluri_nearest(words, length, t, u, numbers);
    return numbers[PAQLLURI_NEAREST_KIND] == kind && numbers[PAQLLURI_NEAREST_FAMILY] == family &&
           numbers[PAQLLURI_NEAREST_NUMBERS] == BEFORE;
}

static int both_ways(const uint32_t *words, size_t length, uint32_t t, uint32_t u, uint32_t kind, uint32_t family) {
    return one_way(words, length, t, u, kind, family) && one_way(words, length, u, t, kind, family);
}

static int is_nearest(const uint32_t *words, size_t length, uint32_t t, uint32_t u, uint32_t family) {
    return both_ways(words, length, t, u, PAQLLURI_FOUND, family);
}

static int has_none(const uint32_t *words, size_t length, uint32_t t, uint32_t u) {
    return both_ways(words, length, t, u, PAQLLURI_NO_FAMILY, 0);
}

/* By every query. */
static int is_no_table(const uint32_t *words, size_t length, uint32_t t, uint32_t u) {
    return both_ways(words, length, t, u, PAQLLURI_NOT_LINKED, 0) && paqlluri_descends(words, length, t, u) == PAQLLURI_NOT_LINKED &&
           sized(words, length, t, PAQLLURI_NOT_LINKED, 0) && is_long(words, length, t, PAQLLURI_NOT_LINKED, 0);
}

/* Of the same lifts. */
static void nearest(const uint32_t *lifts, size_t length) {
    static const uint32_t expected[4][4] = {{0, 0, 0, 0}, {0, 1, 0, 0}, {0, 0, 2, 2}, {0, 0, 2, 3}};
    uint32_t t, u;
    for (t = 0; t < 4; t++) {
        for (u = 0; u < 4; u++) {
            expect("the nearest family", is_nearest(lifts, length, t, u, expected[t][u]));
            expect("the nearest family in L words", is_nearest(lifts, lifts[1], t, u, expected[t][u]));
        }
        for (u = 4; u < 9; u++)
            expect("no struct type", has_none(lifts, length, t, u) && has_none(lifts, length, u, u));
        expect("one of no type", has_none(lifts, length, t, UINT32_MAX) && has_none(lifts, length, t, 0x80000000u));
    }
    expect("two of no type", has_none(lifts, length, UINT32_MAX, UINT32_MAX) && has_none(lifts, length, 7, 0x80000000u));
    expect("none in a table that is short", is_no_table(lifts, lifts[1] - 1, 0, 0) && is_no_table(lifts, 9, 0, UINT32_MAX));
    expect("none in no words", is_no_table(NULL, 0, 0, 0) && is_no_table(NULL, 0, UINT32_MAX, UINT32_MAX));
    expect("none in words of something else", is_no_table(lifts + 1, length - 1, 0, 3));
}

/* Spans that no load writes: two that are equal, a narrower one, one with post below pre, one that nothing holds; and no struct. */
static void any_words(void) {
    uint32_t words[] = {2, 29, 0, 0, 0, 0, 0, 0, 0, 10, 6, 0, 4, 7, 0, 4, 0, 1, 2, UINT32_MAX, 3, 1, 1, 9, 9, 257, UINT32_MAX, 0, 5};
    const size_t length = sizeof words / sizeof *words;
    expect("the lower of equal spans", is_nearest(words, length, 0, 1, 0) && is_nearest(words, length, 1, 1, 0));
    expect("a narrower span", is_nearest(words, length, 2, 2, 2) && is_nearest(words, length, 2, 1, 0));
    expect("post below pre", is_nearest(words, length, 3, 3, 0) && is_nearest(words, length, 3, 2, 0));
    expect("not even itself", has_none(words, length, 4, 4) && has_none(words, length, 5, 5) && has_none(words, length, 4, 0));
    expect("any third word", is_long(words, length, 0, 0, 7) && is_long(words, length, 1, 0, 0) && is_long(words, length, 5, 0, 5));
    expect("the most of all", is_long(words, length, 2, 0, UINT32_MAX) && is_long(words, length, 6, 0, 0));
    expect("as many spans as fit", has_none(words, length, 6, 0) && is_no_table(words, length - 1, 6, 0));
    words[10] = 7;
    expect("a span too many", is_no_table(words, length, 0, 0) && is_no_table(words, length, 7, 7));
    words[10] = 0x55555556u;
    expect("three times as many are two in 32 bits", is_no_table(words, length, 0, 0));
    words[10] = 0x80000000u;
    expect("half as many as numbers", is_no_table(words, length, 0, 0));
    words[10] = UINT32_MAX;
    expect("the most spans", is_no_table(words, length, 0, UINT32_MAX));
}

/* Chain lengths are read by no other query. The table is as before in the end. */
static void unread_lengths(uint32_t *lifts, size_t length) {
    uint32_t *third = lifts + lifts[9] + 3, before = *third;
    *third = 77;
    expect("another chain length", is_long(lifts, length, 0, 0, 77) && is_long(lifts, length, 1, 0, 2));
    expect("the families beside it", paqlluri_descends(lifts, length, 3, 0) == 1 && sized(lifts, length, 0, 0, 4) &&
                                         is_nearest(lifts, length, 3, 1, 0) && is_nearest(lifts, length, 3, 2, 2));
    *third = before;
}

/* The table with two words a span, behind this first word; how long it is. */
static size_t without_lengths(const uint32_t *lifts, uint32_t first, uint32_t *words) {
    const size_t spans = lifts[9];
    const uint32_t types = lifts[spans];
    uint32_t t;
    memcpy(words, lifts, (spans + 1) * sizeof *words);
    for (t = 0; t < types; t++)
        memcpy(words + spans + 1 + 2 * t, lifts + spans + 1 + 3 * t, 2 * sizeof *words);
    words[0] = first;
    words[1] = lifts[1] - types;
    return words[1];
}

/* A table without chain lengths is none, whatever its first word, and so is one that begins with another word than 2. */
static void other_formats(const uint32_t *lifts) {
    static uint32_t words[LIFTS_WORDS];
    uint32_t first;
    for (first = 1; first <= 3; first++) {
        size_t length = without_lengths(lifts, first, words);
        expect("two words a span", is_no_table(words, length, 0, 0) && is_no_table(words, length, 3, UINT32_MAX));
        expect("two words a span and more behind", is_no_table(words, LIFTS_WORDS, 0, 0));
    }
    memcpy(words, lifts, lifts[1] * sizeof *words);
    expect("three words a span", !is_no_table(words, lifts[1], 0, 0));
    for (first = 1; first <= 3; first += 2) {
        words[0] = first;
        expect("another first word", is_no_table(words, lifts[1], 0, 0) && is_no_table(words, lifts[1], 3, UINT32_MAX));
    }
}

static int counts(const uint8_t *sheet, size_t length, uint32_t kind, uint32_t count) {
    uint32_t numbers[PAQLLURI_COUNT_NUMBERS + 1] = {BEFORE, BEFORE, BEFORE};
    paqlluri_count_structs(sheet, length, numbers);
    return counted(numbers, kind, count);
}

/* The sheet is spoilt in the end. */
static void structs(const uint8_t *empty, uint8_t *lifts) {
    expect("no struct", counts(empty, PAQLLURI_BLOCK_BYTES, 0, 0));
    expect("four structs", counts(lifts, LIFTS_BYTES, 0, 4));
    expect("no sheet", counts(NULL, 0, PAQLLURI_DECODE, 0));
    expect("half a sheet", counts(lifts, LIFTS_BYTES / 2, PAQLLURI_DECODE, 0));
    lifts[8] ^= 1;
    expect("a broken sheet", counts(lifts, LIFTS_BYTES, PAQLLURI_DECODE, 0));
}

/* Whether the file has just so many bytes. */
static int read_file(const char *name, uint8_t *bytes, size_t length) {
    FILE *file = fopen(name, "rb");
    int whole = file != NULL && fread(bytes, 1, length, file) == length && fgetc(file) == EOF;
    if (file != NULL)
        fclose(file);
    return whole;
}

static void families(const uint8_t *empty, const char *sheet_name, const char *hosts_name) {
    static uint8_t sheet[LIFTS_BYTES], hosts[PAQLLURI_BLOCK_BYTES];
    static uint32_t lifts[LIFTS_WORDS], room[LIFTS_WORDS];
    if (!read_file(sheet_name, sheet, sizeof sheet) || !read_file(hosts_name, hosts, sizeof hosts)) {
        expect("the sheet of the lifts and its host list", 0);
        return;
    }
    paqlluri_load(sheet, sizeof sheet, hosts, sizeof hosts, lifts, LIFTS_WORDS, room, LIFTS_WORDS, answer);
    expect("the lifts", answer[PAQLLURI_KIND] == PAQLLURI_ACCEPTED && answer[PAQLLURI_NUMBER] == 174);
    if (wrong)
        return;
    nearest(lifts, LIFTS_WORDS);
    lengths(lifts, LIFTS_WORDS);
    unread_lengths(lifts, LIFTS_WORDS);
    any_words();
    other_formats(lifts);
    sizes(lifts, LIFTS_WORDS);
    structs(empty, sheet);
}

/* As many bytes as the chain of 257 types takes, which has 12 + 5 * 257 words. */
#define CHAIN_BYTES (11 * PAQLLURI_BLOCK_BYTES)
#define CHAIN_WORDS PAQLLURI_WORDS(CHAIN_BYTES)

static void put(uint8_t *to, uint32_t word) {
    size_t i;
    for (i = 0; i < 4; i++)
        to[i] = (uint8_t)(word >> (8 * i));
}

/* Where a word of the sheet stands; the check words of blocks before it are no such words. */
static uint8_t *at(uint8_t *bytes, size_t word) {
    return bytes + 4 * (word + word / PAQLLURI_BLOCK_WORDS);
}

static uint32_t check_word(const uint8_t *bytes, uint32_t number) {
    uint32_t sum = number, i;
    for (i = 0; i < PAQLLURI_BLOCK_BYTES - 4; i++)
        sum += (i + 1) * bytes[i];
    return sum % 65521;
}

/* One empty string, and structs without members named by it, each the parent of the next; how many bytes that takes. */
static size_t chain(uint8_t *bytes, uint32_t edition, uint32_t types) {
    const uint32_t words = 12 + 5 * types, blocks = (words + PAQLLURI_BLOCK_WORDS - 1) / PAQLLURI_BLOCK_WORDS;
    uint32_t i;
    memset(bytes, 0, CHAIN_BYTES);
    put(at(bytes, 0), edition);
    put(at(bytes, 1), words);
    put(at(bytes, 2), 1);
    put(at(bytes, 4), types);
    for (i = 0; i < types; i++) {
        put(at(bytes, 5 + 5 * i), 1);
        put(at(bytes, 7 + 5 * i), i);
    }
    for (i = 0; i < blocks; i++) {
        uint8_t *own = bytes + i * PAQLLURI_BLOCK_BYTES;
        put(own + PAQLLURI_BLOCK_BYTES - 4, check_word(own, i));
    }
    return (size_t)blocks * PAQLLURI_BLOCK_BYTES;
}

/* Whether load gives such a chain this kind. An accepted one has a table that begins with 2, and its last type the whole chain. */
static int chained(const uint8_t *hosts, uint32_t edition, uint32_t types, uint32_t kind) {
    static uint8_t bytes[CHAIN_BYTES];
    static uint32_t linked[CHAIN_WORDS], room[CHAIN_WORDS];
    const size_t length = chain(bytes, edition, types);
    const uint32_t number = kind == PAQLLURI_ACCEPTED ? 49 + 10 * types : 0, broken = kind == PAQLLURI_DECODE ? kind : 0;
    linked[0] = BEFORE;
    paqlluri_load(bytes, length, hosts, PAQLLURI_BLOCK_BYTES, linked, CHAIN_WORDS, room, CHAIN_WORDS, answer);
    if (answer[PAQLLURI_KIND] != kind || answer[PAQLLURI_WORD] != 0 || answer[PAQLLURI_NUMBER] != number ||
        !all(answer, 3, PAQLLURI_NUMBERS, 0) || !counts(bytes, length, broken, broken ? 0 : types))
        return 0;
    return kind == PAQLLURI_ACCEPTED ? linked[0] == 2 && is_long(linked, number, types - 1, 0, types) : linked[0] == BEFORE;
}

/* 256 types on a chain in edition 1 and 64 in edition 2; no other edition, and none but 1 of a host list. */
static void editions(const uint8_t *sheet, const uint8_t *hosts) {
    static uint8_t sheet_room[PAQLLURI_BLOCK_BYTES + 1], hosts_room[PAQLLURI_BLOCK_BYTES + 1];
    const uint8_t *second = block(sheet_room, 2, 11, 57), *other = block(hosts_room, 2, 3, 17);
    const uint32_t too_deep = PAQLLURI_INHERITANCE_TOO_DEEP;
    expect("edition 1, within 256", chained(hosts, 1, 1, 0) && chained(hosts, 1, 65, 0));
    expect("edition 1, up to 256", chained(hosts, 1, 255, 0) && chained(hosts, 1, 256, 0));
    expect("edition 1, over 256", chained(hosts, 1, 257, too_deep));
    expect("edition 2, up to 64", chained(hosts, 2, 1, 0) && chained(hosts, 2, 63, 0) && chained(hosts, 2, 64, 0));
    expect("edition 2, over 64", chained(hosts, 2, 65, too_deep) && chained(hosts, 2, 256, too_deep) && chained(hosts, 2, 257, too_deep));
    expect("edition 0", chained(hosts, 0, 1, PAQLLURI_DECODE) && chained(hosts, 0, 65, PAQLLURI_DECODE));
    expect("edition 3", chained(hosts, 3, 1, PAQLLURI_DECODE) && chained(hosts, 3, 65, PAQLLURI_DECODE));
    expect("the most as edition", chained(hosts, UINT32_MAX, 64, PAQLLURI_DECODE) && chained(hosts, 257, 64, PAQLLURI_DECODE));
    lend();
    paqlluri_load(sheet, PAQLLURI_BLOCK_BYTES, other, PAQLLURI_BLOCK_BYTES, table, ENOUGH, work, ENOUGH, answer);
    expect("a host list of edition 2", untouched(PAQLLURI_BAD_HOST_LIST));
    paqlluri_load(second, PAQLLURI_BLOCK_BYTES, other, PAQLLURI_BLOCK_BYTES, table, ENOUGH, work, ENOUGH, answer);
    expect("both of edition 2", untouched(PAQLLURI_BAD_HOST_LIST));
    paqlluri_load(second, PAQLLURI_BLOCK_BYTES, hosts, PAQLLURI_BLOCK_BYTES, table, ENOUGH, work, ENOUGH, answer);
    expect("an empty sheet of edition 2", answer[PAQLLURI_KIND] == PAQLLURI_ACCEPTED && answer[PAQLLURI_NUMBER] == 49 && table[0] == 2);
}

/* Words behind one another, in one block. */
struct words {
    uint8_t bytes[PAQLLURI_BLOCK_BYTES];
    uint32_t count;
};

static void begin(struct words *words, uint32_t edition) {
    memset(words->bytes, 0, sizeof words->bytes);
    put(at(words->bytes, 0), edition);
    words->count = 2;
}

static void add(struct words *words, const uint32_t *more, size_t count) {
    size_t i;
    for (i = 0; i < count; i++)
        put(at(words->bytes, words->count++), more[i]);
}

static void end(struct words *words) {
    put(at(words->bytes, 1), words->count);
    put(words->bytes + PAQLLURI_BLOCK_BYTES - 4, check_word(words->bytes, 0));
}

#define ADD(words, more) add(words, more, sizeof(more) / sizeof *(more))

/* Words that are enough for a sheet of one block. */
#define ROOM PAQLLURI_WORDS(PAQLLURI_BLOCK_BYTES)

/* The words between N and the exports. */
static const uint32_t before_exports[] = {
    4, 1, 'a', 1, 'a', 1, 'b', 0,          /* strings: "a" twice, "b" and "" */
    1, 0, 0, 0,                            /* types: a func type */
    0, 0,                                  /* no constants, no imports */
    1, 4, 0,                               /* globals: an i64 */
    1, 0, 0, 0, 0, 0, 0, 0, 0, 0, 1, 1, 0, /* functions: one that returns */
    0, 0                                   /* no hooks, no start function */
};

/* Exports of kind, name and index, and what edition 2 gives them. */
struct exports {
    const char *what;
    uint32_t count, exports[3][3], kind, number;
};

/* A sheet with these exports. */
static void exporting(struct words *words, uint32_t edition, const struct exports *given) {
    size_t i;
    begin(words, edition);
    ADD(words, before_exports);
    add(words, &given->count, 1);
    for (i = 0; i < given->count; i++)
        ADD(words, given->exports[i]);
    end(words);
}

/* Whether load gives them this kind and number; the words of kind 3 are types here. */
static int exported(const uint8_t *hosts, uint32_t edition, const struct exports *given, uint32_t kind, uint32_t number) {
    static uint32_t linked[ROOM], room[ROOM];
    struct words sheet;
    const uint32_t word = kind == PAQLLURI_OUT_OF_RANGE ? PAQLLURI_TYPE : 0;
    size_t i;
    exporting(&sheet, edition, given);
    for (i = 0; i < ROOM; i++)
        linked[i] = room[i] = BEFORE;
    paqlluri_load(sheet.bytes, sizeof sheet.bytes, hosts, PAQLLURI_BLOCK_BYTES, linked, ROOM, room, ROOM, answer);
    return answer[PAQLLURI_KIND] == kind && answer[PAQLLURI_WORD] == word && answer[PAQLLURI_NUMBER] == number &&
           all(answer, 3, PAQLLURI_NUMBERS, 0) && linked[0] == (kind == PAQLLURI_ACCEPTED ? 2 : BEFORE) && all(room, 0, ROOM, 0);
}

#define TABLE_WORDS 65
#define NO_TYPE 7

/* Names are read in edition 2 alone, each after its export's index; NO_TYPE is the one index that is none. */
static void exports(const uint8_t *hosts) {
    static const struct exports rows[] = {
        {"no exports", 0, {{0, 0, 0}}, PAQLLURI_ACCEPTED, TABLE_WORDS},
        {"one of each kind, and an empty name", 3, {{0, 0, 0}, {1, 2, 0}, {2, 3, 0}}, PAQLLURI_ACCEPTED, TABLE_WORDS},
        {"the first number that is no string", 2, {{2, 3, 0}, {2, 4, 0}}, PAQLLURI_EXPORT_NAME_OUT_OF_RANGE, 4},
        {"the most as a name", 1, {{1, UINT32_MAX, 0}}, PAQLLURI_EXPORT_NAME_OUT_OF_RANGE, UINT32_MAX},
        {"a name before the next index", 2, {{2, 9, 0}, {2, 0, NO_TYPE}}, PAQLLURI_EXPORT_NAME_OUT_OF_RANGE, 9},
        {"equal bytes of two strings and kinds", 2, {{0, 0, 0}, {2, 1, 0}}, PAQLLURI_DUPLICATE_EXPORT, 1},
        {"the third like the second", 3, {{0, 2, 0}, {1, 1, 0}, {2, 0, 0}}, PAQLLURI_DUPLICATE_EXPORT, 2},
        {"three of one name", 3, {{2, 0, 0}, {2, 0, 0}, {2, 0, 0}}, PAQLLURI_DUPLICATE_EXPORT, 1},
        {"an empty name twice", 2, {{2, 3, 0}, {1, 3, 0}}, PAQLLURI_DUPLICATE_EXPORT, 1},
        {"a repeat before the next name", 3, {{2, 0, 0}, {2, 0, 0}, {2, 9, 0}}, PAQLLURI_DUPLICATE_EXPORT, 1},
        {"an index before its name", 1, {{2, 9, NO_TYPE}}, PAQLLURI_OUT_OF_RANGE, NO_TYPE},
        {"an index before a repeat", 2, {{2, 0, 0}, {2, 0, NO_TYPE}}, PAQLLURI_OUT_OF_RANGE, NO_TYPE},
    };
    size_t i;
    for (i = 0; i < sizeof rows / sizeof *rows; i++) {
        const struct exports *row = rows + i;
        const int absent = row->exports[0][2] == NO_TYPE || row->exports[1][2] == NO_TYPE;
        expect(row->what, exported(hosts, 2, row, row->kind, row->number));
        expect(row->what, exported(hosts, 1, row, absent ? PAQLLURI_OUT_OF_RANGE : PAQLLURI_ACCEPTED, absent ? NO_TYPE : TABLE_WORDS));
    }
}

enum { TAIL_CALL = 7, CALL = 15, CORO_NEW = 20, CALL_IMPORT = 21 };

/* A callee of two parameters, with a list of these flags or none, and how many arguments it is given. */
struct arguments {
    const char *what;
    int listed;
    uint32_t flags[2], given, second, first; /* the limit that is broken in edition 2 and in edition 1 */
};

/* No limit is broken. */
#define TAKEN UINT32_MAX

/* One empty string, a type of the callees and one of their caller, and an import up to its list. */
static const uint32_t before_import_list[] = {1, 0, 2, 0, 2, 12, 12, 0, 0, 0, 0, 0, 1, 0, 0, 0};
/* No globals; two functions, the first up to its list. */
static const uint32_t before_function_list[] = {0, 2, 0, 2, 12, 12};
/* It returns; the second up to its code, of two instructions. */
static const uint32_t before_call[] = {0, 0, 0, 0, 0, 0, 1, 1, 0, 1, 5, 12, 12, 12, 12, 12, 0, 0, 0, 0, 0, 0, 0, 2};
/* It returns too; no hooks, no start function, no exports. */
static const uint32_t after_call[] = {1, 0, 0, 0, 0};

/* Function 1 calls import 0 or function 0, which have the same parameters. */
static void calling(struct words *words, uint32_t edition, uint32_t code, const struct arguments *row) {
    const uint32_t list[] = {1, 2, row->flags[0], 0, row->flags[1], 0}, none = 0, call[] = {code | row->given << 8, 0};
    const uint32_t *params = row->listed ? list : &none;
    const size_t count = row->listed ? sizeof list / sizeof *list : 1;
    begin(words, edition);
    ADD(words, before_import_list);
    add(words, params, count);
    ADD(words, before_function_list);
    add(words, params, count);
    ADD(words, before_call);
    ADD(words, call);
    ADD(words, after_call);
    end(words);
}

/* Whether load takes the call, or refuses it by that limit, at instruction 0 of function 1. */
static int called(uint32_t edition, uint32_t code, const struct arguments *row, uint32_t limit) {
    static const uint32_t host[] = {1, 0, 0, 0}; /* one, of two empty names */
    static uint32_t linked[ROOM], room[ROOM];
    struct words sheet, hosts;
    calling(&sheet, edition, code, row);
    begin(&hosts, 1);
    ADD(&hosts, host);
    end(&hosts);
    linked[0] = BEFORE;
    paqlluri_load(sheet.bytes, sizeof sheet.bytes, hosts.bytes, sizeof hosts.bytes, linked, ROOM, room, ROOM, answer);
    if (limit == TAKEN)
        return answer[PAQLLURI_KIND] == PAQLLURI_ACCEPTED && linked[0] == 2;
    return answer[PAQLLURI_KIND] == PAQLLURI_ARITY_MISMATCH && answer[PAQLLURI_WORD] == 0 && answer[PAQLLURI_NUMBER] == limit &&
           answer[PAQLLURI_SECOND] == row->given && answer[PAQLLURI_FUNCTION] == 2 && answer[PAQLLURI_POSITION] == 1 && linked[0] == BEFORE;
}

/* Optional arguments are left out of a call of an import in edition 2 alone, and never of a call of a function. */
static void arguments(void) {
    static const struct arguments rows[] = {
        {"none of two, one optional", 1, {0, 2}, 0, 1, 2},
        {"the optional one left out", 1, {0, 2}, 1, TAKEN, 2},
        {"both", 1, {0, 2}, 2, TAKEN, TAKEN},
        {"one too many", 1, {0, 2}, 3, 2, 2},
        {"both left out", 1, {2, 3}, 0, TAKEN, 2},
        {"two too many", 1, {2, 3}, 4, 2, 2},
        {"by reference is not optional", 1, {0, 1}, 1, 2, 2},
        {"by reference and optional", 1, {1, 3}, 1, TAKEN, 2},
        {"none optional", 1, {0, 0}, 1, 2, 2},
        {"no list", 0, {0, 0}, 1, 2, 2},
        {"no list, both", 0, {0, 0}, 2, TAKEN, TAKEN},
    };
    size_t i;
    for (i = 0; i < sizeof rows / sizeof *rows; i++) {
        const struct arguments *row = rows + i;
        expect(row->what, called(2, CALL_IMPORT, row, row->second) && called(1, CALL_IMPORT, row, row->first));
        expect(row->what, called(2, CALL, row, row->first) && called(1, CALL, row, row->first));
        expect(row->what, called(2, TAIL_CALL, row, row->first) && called(2, CORO_NEW, row, row->first));
    }
}

int main(int argc, char **argv) {
    static uint8_t sheet_room[PAQLLURI_BLOCK_BYTES + 1], hosts_room[PAQLLURI_BLOCK_BYTES + 1];
    const uint8_t *sheet = block(sheet_room, 1, 11, 56), *hosts = block(hosts_room, 1, 3, 16);
    if (argc != 3) {
        fprintf(stderr, "usage: test LIFTS HOSTS\n");
        return 2;
    }
    expect("lengths", PAQLLURI_WORDS(0) == 64 && PAQLLURI_WORDS(1024) == 64 + 8 * 254 && PAQLLURI_WORDS(SIZE_MAX) == 4161600 &&
                          PAQLLURI_WORDS(512 * 4096) == 4161600);
    loads(sheet, hosts);
    editions(sheet, hosts);
    exports(hosts);
    arguments();
    families(sheet, argv[1], argv[2]);
    return wrong;
}
