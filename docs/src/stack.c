/*
 * The greatest stack of each service, in bytes: each call runs on a stack of its own that was painted before, and the deepest
 * byte that lost its paint is looked for. Usage: stack TEXT PROOF ...  (pairs of files); prints the most over all of them.
 */
#define _XOPEN_SOURCE 700
#include <stdio.h>
#include <stdlib.h>
#include <string.h>
#include <ucontext.h>

#include "malintok.h"

enum { STACK = 1 << 20, PAINT = 0xA5, FILE_MOST = 1 << 20 };

static unsigned char stack[STACK] __attribute__((aligned(64)));
static ucontext_t here, there;

static uint8_t text[FILE_MOST], proof[FILE_MOST];
static size_t text_len, proof_len;
static uint32_t prefix[MALINTOK_PREFIX_WORDS];
static uint64_t clauses[MALINTOK_CLAUSE_WORDS];
static uint64_t lines[MALINTOK_LINE_WORDS];
static uint32_t nodes[MALINTOK_NODE_WORDS];
static uint32_t roots[MALINTOK_ROOT_WORDS];
static struct malintok_reply reply;
static struct malintok_played played;
static uint32_t column, root;
static uint64_t settings;

static void nothing(void) {}

static void call_read(void)
{
    reply = malintok_read(text, text_len, prefix, MALINTOK_PREFIX_WORDS, clauses, MALINTOK_CLAUSE_WORDS);
}

static void call_check(void)
{
    reply = malintok_check(text, text_len, proof, proof_len, prefix, MALINTOK_PREFIX_WORDS, clauses, MALINTOK_CLAUSE_WORDS,
                           lines, MALINTOK_LINE_WORDS, nodes, MALINTOK_NODE_WORDS, roots, MALINTOK_ROOT_WORDS);
}

static void call_play(void)
{
    played = malintok_play(column, root, nodes, MALINTOK_NODE_WORDS, settings);
}

/* The bytes of stack that a call uses. */
static size_t depth(void (*call)(void))
{
    size_t i = 0;

    memset(stack, PAINT, STACK);
    getcontext(&there);
    there.uc_stack.ss_sp = stack;
    there.uc_stack.ss_size = STACK;
    there.uc_link = &here;
    makecontext(&there, call, 0);
    swapcontext(&here, &there);
    while (i < STACK && stack[i] == PAINT)
        i++;
    return STACK - i;
}

static size_t most(size_t a, size_t b) { return a < b ? b : a; }

static size_t read_file(const char *name, uint8_t *buffer)
{
    FILE *f = fopen(name, "rb");
    size_t n = 0;

    if (f) {
        n = fread(buffer, 1, FILE_MOST, f);
        fclose(f);
    }
    return n;
}

int main(int argc, char **argv)
{
    size_t base = depth(nothing), read = 0, check = 0, play = 0, accepted = 0;
    int i;

    for (i = 1; i + 1 < argc; i += 2) {
        text_len = read_file(argv[i], text);
        proof_len = read_file(argv[i + 1], proof);
        read = most(read, depth(call_read) - base);
        check = most(check, depth(call_check) - base);
        if (reply.number)
            continue;
        accepted++;
        for (column = 1; column <= reply.universals; column++) {
            uint32_t n = reply.lines;

            root = roots[16 * (n - 1) + column - 1];
            settings = 0;
            play = most(play, depth(call_play) - base);
            settings = ~(uint64_t)0;
            play = most(play, depth(call_play) - base);
        }
    }
    /* the deepest table that there can be: every node a branch to the one below */
    for (i = 0; i < MALINTOK_NODE_WORDS; i++)
        nodes[i] = MALINTOK_STAR;
    for (i = 1; i < MALINTOK_LINES_MOST; i++)
        nodes[16 * i] = MALINTOK_BRANCH + 1024 * (uint32_t)(i - 1) + (uint32_t)(i - 1);
    column = 1;
    root = MALINTOK_LINES_MOST;
    play = most(play, depth(call_play) - base);
    printf("games %d, accepted %zu\nread %zu\ncheck %zu\nplay %zu\n", (argc - 1) / 2, accepted, read, check, play);
    return played.number ? 1 : 0;
}
