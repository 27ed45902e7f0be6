/* SPDX-License-Identifier: Apache-2.0 */
/* The heap of the programs and of the library for C, on processors for which the toolchain brings no object of it: the three functions
 * of its crate `libc`, over malloc, realloc and free. No proof covers this file; cases.c has what each call promises. */
#include <stdbool.h>
#include <stddef.h>
#include <stdlib.h>

/* Whether there is memory, and where. The pointer is never null: without memory it points to a byte of this file, and owns nothing. */
struct tried {
    bool is_there;
    void *at;
};

static struct tried tried(void *at) {
    static char nothing;
    return (struct tried){at != NULL, at ? at : &nothing};
}

/* An alignment divides 16, and every block of malloc has that. A block of no bytes gets as many as its alignment. */
_Static_assert(_Alignof(max_align_t) >= 16, "blocks of malloc are aligned to 16 bytes");

struct tried rattle_alloc(size_t size, size_t align) { return tried(malloc(size ? size : align)); }

/* The block with its first bytes as they were; without memory it stays where it is. */
struct tried rattle_realloc(void *block, size_t kept, size_t size, size_t align) {
    (void)kept;
    return tried(realloc(block, size ? size : align));
}

void rattle_dealloc(void *block) { free(block); }
