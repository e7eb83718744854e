/* The scratch of a call: while it has bytes, the proved code of this thread gets memory from it in place of malloc. */
#ifndef HEAP_H
#define HEAP_H

#include <stdbool.h>
#include <stdint.h>

/* The free bytes are those from `top` to before `end`. */
struct scratch {
    bool is_lent;
    uintptr_t top, end;
};

/* Of each thread. lib/make_library.sh has it in the thread's first memory, since other thread-local data may take memory at its first use. */
extern _Thread_local struct scratch heap_scratch;

#endif
