/* Pushes the symbols of standard input: soft ROOM MARGIN. For each push it prints the number of symbols taken and of items, the most bytes of
 * stack that a call took, and how many allocations were refused, each in a call of its own, which has to answer 8 and to leave all as it was. */
#define _GNU_SOURCE
#include "rds.h"

#include <stdio.h>
#include <stdlib.h>
#include <string.h>
#include <ucontext.h>

enum { STACK = 1 << 16, PATTERN = 0xA5, MOST = 1 << 20 };

extern void *__libc_malloc(size_t);
static long allowed = -1;

void *malloc(size_t len)
{
    if (!allowed)
        return NULL;
    allowed -= allowed > 0;
    return __libc_malloc(len);
}

static int8_t symbols[MOST];
static size_t symbols_len;
static rds_soft_t soft;
static rds_item_t *room;
static size_t room_len;
static uint64_t taken, count;
static uint8_t margin, number;
static ucontext_t caller, callee;
static unsigned char stack[STACK];

static void call_there(void)
{
    static const rds_rules_t rules = RDS_RULES;
    number = rds_push_soft(symbols, symbols_len, NULL, 0, &rules, margin, &soft, room, room_len, &taken, &count);
}

static size_t stack_of_call(void)
{
    size_t left = 0;
    memset(stack, PATTERN, sizeof stack);
    getcontext(&callee);
    callee.uc_stack.ss_sp = stack;
    callee.uc_stack.ss_size = sizeof stack;
    callee.uc_link = &caller;
    makecontext(&callee, call_there, 0);
    swapcontext(&caller, &callee);
    while (stack[left] == PATTERN)
        left++;
    return sizeof stack - left;
}

/* Refuses each allocation in turn, until a call succeeds. */
static int refused(void)
{
    static rds_soft_t before;
    for (int k = 0;; k++) {
        before = soft;
        taken = count = 77;
        allowed = k;
        stack_of_call();
        allowed = -1;
        if (!number)
            return k;
        if (number != RDS_OUT_OF_MEMORY || taken != 77 || count != 77 || memcmp(&before, &soft, sizeof soft))
            exit(3);
    }
}

int main(int argc, char **argv)
{
    if (argc != 3)
        return 2;
    room_len = (size_t)atol(argv[1]);
    margin = (uint8_t)atoi(argv[2]);
    room = calloc(room_len, sizeof *room);
    symbols_len = fread(symbols, 1, sizeof symbols, stdin);
    while (symbols_len > 8) {
        const rds_soft_t before = soft;
        const size_t most = stack_of_call();
        if (number)
            return 4;
        const rds_soft_t after = soft;
        soft = before;
        const int each = refused();
        if (memcmp(&after, &soft, sizeof soft))
            return 5;
        printf("%d %d %zu %d\n", (int)taken, (int)count, most, each);
        memmove(symbols, symbols + taken, symbols_len -= taken);
    }
    return 0;
}
