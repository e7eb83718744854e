/* The proved code gets memory by malloc, on every processor, or from the scratch that a call was lent. The toolchain's own C file is only
 * for x86-64. Like border.c, this file is no part of the proof. */
#include "heap.h"

#include <stdint.h>
#include <stdlib.h>
#include <string.h>

/* In two registers: 1 and the address of the memory, or 0 if there is none. */
struct answer {
    uint64_t ok;
    void *at;
};

_Thread_local struct scratch heap_scratch;

/* A place that is not NULL. */
static char nowhere;

static struct answer answer(void *at)
{
    return (struct answer){at != NULL, at ? at : &nowhere};
}

/* The next bytes of the scratch, or NULL if it has too few. */
static void *take(uint64_t size, uint64_t alignment)
{
    const uintptr_t skipped = -heap_scratch.top & (alignment - 1), left = heap_scratch.end - heap_scratch.top;
    if (skipped > left || size > left - skipped)
        return NULL;
    void *at = (void *)(heap_scratch.top + skipped);
    heap_scratch.top += skipped + size;
    return at;
}

/* Whether it is the last block that was taken: only that one can be given back, or change its size where it is. */
static bool is_last(const void *at, uint64_t size)
{
    return (uintptr_t)at + size == heap_scratch.top;
}

static void give_back(void *at, uint64_t size)
{
    if (is_last(at, size))
        heap_scratch.top = (uintptr_t)at;
}

static void *resize(void *at, uint64_t old, uint64_t size, uint64_t alignment)
{
    if (is_last(at, old)) {
        if (size > heap_scratch.end - (uintptr_t)at)
            return NULL;
        heap_scratch.top = (uintptr_t)at + size;
        return at;
    }
    if (size <= old)
        return at;
    void *moved = take(size, alignment);
    return moved ? memcpy(moved, at, old) : NULL;
}

/* A size of 0 asks for memory too, which is given back like any other. Nothing is aligned to more than malloc aligns. */
struct answer rattle_alloc(uint64_t size, uint64_t alignment)
{
    size = size ? size : alignment;
    return answer(heap_scratch.is_lent ? take(size, alignment) : malloc(size));
}

struct answer rattle_realloc(void *at, uint64_t old, uint64_t size, uint64_t alignment)
{
    size = size ? size : alignment;
    return answer(heap_scratch.is_lent ? resize(at, old ? old : alignment, size, alignment) : realloc(at, size));
}

void rattle_dealloc(void *at, uint64_t size, uint64_t alignment)
{
    if (heap_scratch.is_lent)
        give_back(at, size ? size : alignment);
    else
        free(at);
}
