/*
 * Malintok: a proved checker for Merge Resolution refutations of quantified Boolean formulas.
 *
 * Three functions on numbers and buffers. None allocates, prints or keeps state; none faults, whatever the buffers hold;
 * each always returns. A buffer is a pointer and its length in elements; the pointer is valid for so many elements, and
 * the lent tables of one call do not overlap. Link with libmalintok.a.
 *
 * Sets of variables are words: variable v is bit v - 1.
 */
#ifndef MALINTOK_H
#define MALINTOK_H

#include <stddef.h>
#include <stdint.h>

#ifdef __cplusplus
extern "C" {
#endif

/* Sizes: the limits of a formula and of a proof. */
enum {
    MALINTOK_TEXT_MOST = 65536,   /* bytes of a formula's text */
    MALINTOK_VARIABLES_MOST = 64, /* the largest V */
    MALINTOK_UNIVERSALS_MOST = 16,
    MALINTOK_CLAUSES_MOST = 256,
    MALINTOK_LINES_MOST = 1024 /* lines of a proof */
};

/* The minimum lengths of the lent tables, in words. Words past them are never touched. */
enum {
    MALINTOK_PREFIX_WORDS = 64,   /* uint32_t: the k-th variable of the prefix at k - 1, plus 256 if universal */
    MALINTOK_CLAUSE_WORDS = 512,  /* uint64_t: clause c at 2(c - 1), variables plain, and 2(c - 1) + 1, negated */
    MALINTOK_LINE_WORDS = 2048,   /* uint64_t: line i at 2(i - 1) and 2(i - 1) + 1, its existential literals */
    MALINTOK_NODE_WORDS = 16384,  /* uint32_t: line i's node for universal j at 16(i - 1) + j - 1 */
    MALINTOK_ROOT_WORDS = 16384   /* uint32_t: line i's root for universal j there, a line number */
};

/* Node words: 0 none, 1 star, 2 one, 3 zero, or MALINTOK_BRANCH + (x-1) * 2^20 + (a-1) * 2^10 + (b-1):
   at x = 0 go to node a, else to node b. */
enum {
    MALINTOK_NONE = 0,
    MALINTOK_STAR = 1, /* no value; play it as 0 */
    MALINTOK_ONE = 2,
    MALINTOK_ZERO = 3,
    MALINTOK_BRANCH = 1073741824
};

/* The numbers of a reply. */
enum malintok_number {
    MALINTOK_OK = 0,
    MALINTOK_LONG_TEXT = 1,           /* text over 65,536 bytes */
    MALINTOK_SHORT_TABLE = 2,         /* a lent table is too short */
    MALINTOK_BAD_TOKEN = 3,           /* a token or ending not allowed there */
    MALINTOK_HEADER_LIMIT = 4,        /* header number past its limit */
    MALINTOK_NO_VARIABLE = 5,         /* variable not in 1..V */
    MALINTOK_BOUND_TWICE = 6,         /* variable twice in the prefix */
    MALINTOK_TOO_MANY_UNIVERSALS = 7, /* a 17th universal */
    MALINTOK_NOT_BOUND = 8,           /* clause variable not in the prefix */
    MALINTOK_BOTH_WAYS = 9,           /* clause has a variable both ways */
    MALINTOK_CLAUSE_COUNT = 10,       /* too few clauses, or a token after the last */
    MALINTOK_BAD_MARK = 11,           /* under 7 bytes, wrong mark, or version not 1 */
    MALINTOK_BAD_LENGTH = 12,         /* length not 7 + 8n */
    MALINTOK_BAD_LINE_COUNT = 13,     /* n not in 1..1,024 */
    MALINTOK_BAD_KIND = 21,           /* record kind not 1 or 2 */
    MALINTOK_AXIOM_TAIL = 22,         /* axiom bytes 3-7 not zero */
    MALINTOK_NO_CLAUSE = 23,          /* clause number not in 1..count */
    MALINTOK_NO_PARENT = 24,          /* a or b not in 1..i-1 */
    MALINTOK_NO_PIVOT = 25,           /* pivot not an existential variable of the prefix */
    MALINTOK_LACKS_PLAIN = 26,        /* a lacks x plain */
    MALINTOK_LACKS_NEGATED = 27,      /* b lacks x negated */
    MALINTOK_NO_UNIVERSAL = 28,       /* merge set names an absent universal */
    MALINTOK_RESULT_BOTH_WAYS = 29,   /* result has a variable both ways */
    MALINTOK_NOT_LEFT = 30,           /* merge, x not left of u; the variable is u */
    MALINTOK_NO_SELECT = 31,          /* select not defined; the variable is u */
    MALINTOK_NOT_EMPTY = 32,          /* last clause not empty */
    MALINTOK_PLAY_RANGE = 41,         /* playing: column, root or node table out of range */
    MALINTOK_PLAY_WORD = 42           /* playing: a reached word is no node, or a branch does not fall */
};

/*
 * What reading and checking answer. number is 0 for success, else a malintok_number. place is the byte offset of the
 * faulty token for 3 to 10, the line for 21 to 32, else 0; variable is the universal for 30 and 31, else 0.
 * On success place and variable are 0, variables and clauses are the header's numbers, universals how many the prefix
 * has, and lines how many the proof has (0 from reading). A refusal has 0 in each of these four.
 */
struct malintok_reply {
    uint32_t number, place, variable, variables, clauses, universals, lines;
};

/* What playing answers: number 0 and a value MALINTOK_STAR, MALINTOK_ONE or MALINTOK_ZERO, or 41 or 42 and value 0. */
struct malintok_played {
    uint32_t number, value;
};

/*
 * Reads a formula's text (QDIMACS in shape) into the prefix and clause tables.
 * Takes any bytes, and tables of any content. Refuses 2, 1, then 3 to 10 at the first faulty token.
 * Leaves the tables as they came with 1 and 2; their named words zero with 3 to 10; on success filled, unused words zero.
 */
struct malintok_reply malintok_read(const uint8_t *text, size_t text_len, uint32_t *prefix, size_t prefix_len,
                                    uint64_t *clauses, size_t clauses_len);

/*
 * Checks a formula's text with a proof file.
 * Answers 0 exactly when the lines are a Merge Resolution refutation of the formula; otherwise the first bad line and the
 * first broken rule. Refuses 2, 1, then the text's 3 to 10, the file's head 11 to 13, the lines 21 to 31 in order, 32.
 * Leaves the five tables as they came with 1 and 2; their named words zero with any other refusal; on success filled with
 * the prefix, the clauses, and each line's clause, nodes and roots, unused words zero.
 */
struct malintok_reply malintok_check(const uint8_t *text, size_t text_len, const uint8_t *proof, size_t proof_len,
                                     uint32_t *prefix, size_t prefix_len, uint64_t *clauses, size_t clauses_len,
                                     uint64_t *lines, size_t lines_len, uint32_t *nodes, size_t nodes_len, uint32_t *roots,
                                     size_t roots_len);

/*
 * Plays one map: from node `root` of column `column` (both from 1) of a node table, on the settings (variable v at bit
 * v - 1). Takes any table; writes nothing. Refuses 41 (column not 1..16, root not 1..1,024, table under 16,384 words) and
 * 42. Over tables that malintok_check left on success it is never refused at a root of a line for a present universal.
 */
struct malintok_played malintok_play(uint32_t column, uint32_t root, const uint32_t *nodes, size_t nodes_len,
                                     uint64_t settings);

#ifdef __cplusplus
}
#endif

#endif
