/*
 * Paqlluri: loads bytecode modules of tariffs, and answers which type descends from which, how many do, how long a chain of
 * parents is, and which family of two types is the nearest.
 *
 * Link target/staticlib/libpaqlluri.a, which `tools/library` proves and writes (x86-64, System V ABI).
 * It needs memcpy and memset and nothing else: no heap, no files, no globals. The calls are reentrant, and
 * threads may call them at once on slices of their own, or share a linked table that none of them writes.
 * A call takes less than 96 KiB of stack where the host list has at most 512 entries (80 KB were measured, on a
 * chain of 256 types), and 1.6 MB more where it has more or says so: 2 MiB are enough for any bytes.
 *
 * A slice is a pointer and a count of elements, lent to the library (in Rust's word, borrowed) until the call
 * returns. Any bytes and words may stand in it: nothing need be checked before a call, and every call returns.
 * What is asked of the pointers is what C asks:
 * - each points to as many elements as its length says; where the length is 0 it may be null, or anything;
 * - pointers to uint32_t are aligned for it; those to bytes need no alignment;
 * - table, work and answer overlap neither each other nor the sheet nor the host list, which may overlap.
 */
#ifndef PAQLLURI_H
#define PAQLLURI_H

#include <stddef.h>
#include <stdint.h>

#ifdef __cplusplus
extern "C" {
#endif

/* The version of the calls and of this header, as in CHANGELOG.md. */
#define PAQLLURI_VERSION_MAJOR 0
#define PAQLLURI_VERSION_MINOR 1
#define PAQLLURI_VERSION_PATCH 0
#define PAQLLURI_VERSION "0.1.0"

/*
 * A sheet and a host list have 1 to 4,096 blocks of 512 bytes, each with 127 words and a check word. The first word is
 * the edition: 1 or 2 of a sheet, 1 of a host list. A chain of parents has at most 256 types in edition 1 and 64 in
 * edition 2. The names of exports are read in edition 2 alone: each is a string of the sheet, and no two have the same
 * bytes. The optional arguments of an import may be left out in edition 2 alone. Nothing else depends on the edition.
 */
#define PAQLLURI_BLOCK_BYTES 512
#define PAQLLURI_BLOCK_WORDS 127
#define PAQLLURI_MOST_BLOCKS 4096

/* The blocks of so many bytes, a number that is read twice; more than there can be count as the most, such a sheet being refused anyway. */
#define PAQLLURI_BLOCKS(bytes)                                                                                         \
    ((size_t)(bytes) / PAQLLURI_BLOCK_BYTES < PAQLLURI_MOST_BLOCKS ? (size_t)(bytes) / PAQLLURI_BLOCK_BYTES            \
                                                                   : (size_t)PAQLLURI_MOST_BLOCKS)

/*
 * Words that are surely enough for the table, and as many for work, under a sheet of so many bytes.
 * Just needed are 64 + 8N each, N being the sheet's own count of words, its second word.
 */
#define PAQLLURI_WORDS(sheet_len) (64 + 8 * PAQLLURI_BLOCK_WORDS * PAQLLURI_BLOCKS(sheet_len))

/* The six numbers of an answer, by their place. Those that a kind does not use are 0. */
enum paqlluri_place {
    PAQLLURI_KIND = 0,     /* one of enum paqlluri_kind */
    PAQLLURI_WORD = 1,     /* kind 3: one of enum paqlluri_what; kind 11: one of enum paqlluri_type_kind */
    PAQLLURI_NUMBER = 2,   /* kind 0: the words written, L; kinds 2, 3, 8, 19, 27 and 28: see there */
    PAQLLURI_SECOND = 3,   /* kinds 2 and 8: see there */
    PAQLLURI_FUNCTION = 4, /* the function + 1 that is at fault, 0 for none */
    PAQLLURI_POSITION = 5, /* the position + 1 of the instruction in its code, 0 for none */
    PAQLLURI_NUMBERS = 6   /* how many there are */
};

/* The two numbers of an answer that counts, by their place. */
enum paqlluri_count_place {
    PAQLLURI_COUNT_KIND = 0,   /* of enum paqlluri_kind: 0, or why nothing is counted */
    PAQLLURI_COUNT = 1,        /* how many; 0 unless the kind is 0 */
    PAQLLURI_COUNT_NUMBERS = 2 /* how many numbers there are */
};

/* The two numbers of the nearest family, by their place. */
enum paqlluri_nearest_place {
    PAQLLURI_NEAREST_KIND = 0,   /* one of enum paqlluri_nearest_kind, or PAQLLURI_NOT_LINKED */
    PAQLLURI_NEAREST_FAMILY = 1, /* the type; 0 unless the kind is 0 */
    PAQLLURI_NEAREST_NUMBERS = 2 /* how many numbers there are */
};

/* Accepted, or why not. The first that holds, in the order of docs/FORMAT.md, "The order of answers". */
enum paqlluri_kind {
    PAQLLURI_ACCEPTED = 0,                  /* number: the words of the linked table */
    PAQLLURI_DECODE = 1,                    /* the sheet's layout is broken */
    PAQLLURI_UNRESOLVED_IMPORT = 2,         /* no host function for an import; number, second: its module and name, as string numbers */
    PAQLLURI_OUT_OF_RANGE = 3,              /* a number is out of range; word: of what, number: which */
    PAQLLURI_BAD_SIGNATURE = 4,             /* a signature is no func type with at most one result, or no scheduler's */
    PAQLLURI_PARAM_MISMATCH = 5,            /* the registers do not begin with the parameters */
    PAQLLURI_EMPTY_CODE = 6,                /* a function has no code */
    PAQLLURI_FALLS_THROUGH = 7,             /* the last instruction falls through */
    PAQLLURI_ARITY_MISMATCH = 8,            /* wrong number of arguments; number: the fewest or the most expected, second: found */
    PAQLLURI_CALLEE_HAS_CAPTURES = 9,       /* a function with captures is called directly, or is the start */
    PAQLLURI_PROMOTE_NOT_DYNAMIC = 10,      /* Promote into what is not dyn */
    PAQLLURI_WRONG_TYPE_KIND = 11,          /* a type of the wrong kind; word: the kind that is wanted */
    PAQLLURI_BAD_MODIFIER = 12,             /* a wrong modifier */
    PAQLLURI_INVALID_HANDLER = 13,          /* a handler's range, target or register is wrong */
    PAQLLURI_CATCH_NOT_DYN = 14,            /* a catch register is not dyn */
    PAQLLURI_TAIL_CALL_IN_TRY = 15,         /* a tail call under a handler */
    PAQLLURI_BAD_PARENT = 16,               /* a parent is no struct, or its fields are not the first of the child's */
    PAQLLURI_INHERITANCE_TOO_DEEP = 17,     /* over 256 types on a chain, 64 in edition 2, or a cycle */
    PAQLLURI_BAD_CONSTANT = 18,             /* a constant holds itself or a later one, or nests over 64 deep */
    PAQLLURI_BAD_HOOK = 19,                 /* a hook's callee has the wrong shape; number: the hook */
    PAQLLURI_BAD_START = 20,                /* the start function takes or gives something */
    PAQLLURI_BAD_PARAM_LIST = 21,           /* a parameter list is wrong */
    PAQLLURI_BAD_CALL_SHAPE = 22,           /* a call shape is wrong */
    PAQLLURI_BAD_HOST_LIST = 23,            /* the host list is broken or holds a pair twice */
    PAQLLURI_SHORT_SLICE = 24,              /* table or work is shorter than 64 + 8N words */
    PAQLLURI_NOT_LINKED = 25,               /* not a linked table (paqlluri_descends and the other queries only) */
    PAQLLURI_MISSED_STRUCT = 26,            /* never given */
    PAQLLURI_EXPORT_NAME_OUT_OF_RANGE = 27, /* an export's name is no string of the sheet; number: its string number; edition 2 alone */
    PAQLLURI_DUPLICATE_EXPORT = 28          /* an export has the name of an earlier one; number: its place, from 0; edition 2 alone */
};

/* Whether two types have a nearest family. Kind 1 here is not PAQLLURI_DECODE; 25 is PAQLLURI_NOT_LINKED. */
enum paqlluri_nearest_kind {
    PAQLLURI_FOUND = 0,    /* family: the type */
    PAQLLURI_NO_FAMILY = 1 /* there is none */
};

/* The word of PAQLLURI_OUT_OF_RANGE: what the number is out of the range of. */
enum paqlluri_what {
    PAQLLURI_TYPE = 1,
    PAQLLURI_FUNC = 2,
    PAQLLURI_STRING = 3,
    PAQLLURI_CONSTANT = 4,
    PAQLLURI_REGISTER = 5,
    PAQLLURI_IMPORT = 6,
    PAQLLURI_GLOBAL = 7,
    PAQLLURI_BRANCH_TARGET = 8,
    PAQLLURI_TABLE_TARGET = 9,
    PAQLLURI_TABLE = 10,
    PAQLLURI_NAME = 11,
    PAQLLURI_TYPE_REF = 12,
    PAQLLURI_CAPTURE = 13,
    PAQLLURI_CALL_SHAPE = 14
};

/* The word of PAQLLURI_WRONG_TYPE_KIND: the kind of type that the instruction wants. */
enum paqlluri_type_kind {
    PAQLLURI_STRUCT = 1,
    PAQLLURI_ARRAY = 2,
    PAQLLURI_MAP = 3,
    PAQLLURI_CELL = 4
};

/*
 * Loads a sheet under a host list, and puts the six numbers into answer.
 *
 * Accepted (kind 0): the first L words of table are the linked table, L being the answer's number; those after
 * them are as before. Refused: no word of table is changed. Work is all zero after the call, except that kinds
 * 1, 23 and 24 leave it as it was; what it holds before does not matter.
 */
void paqlluri_load(const uint8_t *sheet, size_t sheet_len, const uint8_t *hosts, size_t hosts_len, uint32_t *table,
                   size_t table_len, uint32_t *work, size_t work_len, uint32_t answer[6]);

/*
 * The queries on a linked table, which may be longer than L. It begins with the word 2, whatever the sheet's edition, and its
 * spans, within the L words, have three words for each type: pre, post and the chain length. Of any other words the answer is
 * 25 (PAQLLURI_NOT_LINKED), before all else; so it is of a stored table that begins with 1 and has two words a span, whose
 * sheet is to be loaded again.
 */

/*
 * Whether type t is type a or descends from it: 1 yes, 0 no, also where a number is no struct type of the sheet
 * or no type at all; 25 where the words are no linked table.
 */
uint32_t paqlluri_descends(const uint32_t *table, size_t table_len, uint32_t t, uint32_t a);

/*
 * How many types descend from type a, itself included. Kind 0 with that count, which is 0 where a is no struct type
 * of the sheet or no type at all; 25 where the words are no linked table. Of words that no load wrote the count is
 * post - pre of the span, 0 where post is below pre.
 */
void paqlluri_family_size(const uint32_t *table, size_t table_len, uint32_t a, uint32_t answer[2]);

/*
 * The chain length of type t: how many types are on its chain, from itself up to its root, so 1 at a root and one more than
 * its parent's elsewhere. Kind 0 with that count, which is 0 where t is no struct type of the sheet or no type at all; 25 where
 * the words are no linked table. No parent is walked: the count stands in the table. Of words that no load wrote it is the
 * third word of the span, whatever that is.
 */
void paqlluri_chain_length(const uint32_t *table, size_t table_len, uint32_t t, uint32_t answer[2]);

/*
 * The nearest family of types t and u, in any order: of the types that both descend from, a type counting among its own
 * ancestors, the one with the longest chain of declared parents. Kind 0 (PAQLLURI_FOUND) with that type; 1
 * (PAQLLURI_NO_FAMILY, not PAQLLURI_DECODE) where their roots differ, or a number is no struct type of the sheet or no
 * type at all; 25 where the words are no linked table. Of words that no load wrote it is the lowest-numbered type among
 * those of least post - pre whose span holds both: pre <= pre of t < post, and the same of u.
 */
void paqlluri_nearest(const uint32_t *table, size_t table_len, uint32_t t, uint32_t u, uint32_t answer[2]);

/*
 * How many struct types a sheet declares. Kind 0 with that count; 1 (PAQLLURI_DECODE) where the layout is broken.
 * No rule is tried: a sheet that load refuses by a rule is counted.
 */
void paqlluri_count_structs(const uint8_t *sheet, size_t sheet_len, uint32_t answer[2]);

#ifdef __cplusplus
}
#endif

#endif
