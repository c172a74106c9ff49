/*
 * A controller in miniature: reads the game G, checks its refutation, and plays the last line's map on both settings
 * of variable 1. Prints what it finds and returns 0 where all is as it should be.
 */
#include <stdio.h>

#include "malintok.h"

static const char text[] = "p cnf 3 3 e 1 0 a 2 0 e 3 0 1 2 3 0 -1 -2 3 0 -3 0";

static const uint8_t proof[] = {
    0x4D, 0x52, 0x50, 0x01, 0x00, 0x05, 0x00,       /* MRP, version 1, 5 lines */
    0x01, 0x01, 0x00, 0x00, 0x00, 0x00, 0x00, 0x00, /* 1: clause 1 */
    0x01, 0x02, 0x00, 0x00, 0x00, 0x00, 0x00, 0x00, /* 2: clause 2 */
    0x01, 0x03, 0x00, 0x00, 0x00, 0x00, 0x00, 0x00, /* 3: clause 3 */
    0x02, 0x01, 0x00, 0x02, 0x00, 0x01, 0x01, 0x00, /* 4: lines 1 and 2 on variable 1, universal 1 merged */
    0x02, 0x04, 0x00, 0x03, 0x00, 0x03, 0x00, 0x00, /* 5: lines 4 and 3 on variable 3 */
};

/* Lent to the checker for the call; 160 KiB in all, so not on the stack of a small board. */
static uint32_t prefix[MALINTOK_PREFIX_WORDS];
static uint64_t clauses[MALINTOK_CLAUSE_WORDS];
static uint64_t lines[MALINTOK_LINE_WORDS];
static uint32_t nodes[MALINTOK_NODE_WORDS];
static uint32_t roots[MALINTOK_ROOT_WORDS];

/* The universal's value on the settings, star as 0; 2 where the map is refused. */
static unsigned burst(uint32_t column, uint32_t line, uint64_t settings)
{
    uint32_t root = roots[16 * (line - 1) + column - 1];
    struct malintok_played p = malintok_play(column, root, nodes, MALINTOK_NODE_WORDS, settings);

    if (p.number != MALINTOK_OK)
        return 2;
    return p.value == MALINTOK_ONE;
}

int main(void)
{
    struct malintok_reply r;
    unsigned low, high;

    r = malintok_read((const uint8_t *)text, sizeof text - 1, prefix, MALINTOK_PREFIX_WORDS, clauses,
                      MALINTOK_CLAUSE_WORDS);
    if (r.number != MALINTOK_OK) {
        printf("the text is refused: %u at byte %u\n", (unsigned)r.number, (unsigned)r.place);
        return 1;
    }
    printf("a formula of %u variables, %u clauses, %u universal\n", (unsigned)r.variables, (unsigned)r.clauses,
           (unsigned)r.universals);

    r = malintok_check((const uint8_t *)text, sizeof text - 1, proof, sizeof proof, prefix, MALINTOK_PREFIX_WORDS,
                       clauses, MALINTOK_CLAUSE_WORDS, lines, MALINTOK_LINE_WORDS, nodes, MALINTOK_NODE_WORDS, roots,
                       MALINTOK_ROOT_WORDS);
    if (r.number != MALINTOK_OK) {
        printf("the proof is refused: %u at line %u, variable %u\n", (unsigned)r.number, (unsigned)r.place,
               (unsigned)r.variable);
        return 1;
    }
    printf("a refutation of %u lines\n", (unsigned)r.lines);

    low = burst(1, r.lines, 0);
    high = burst(1, r.lines, 1);
    printf("at 1 = 0 the burst is %u, at 1 = 1 it is %u\n", low, high);
    return low == 0 && high == 1 ? 0 : 1;
}
