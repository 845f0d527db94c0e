/* SPDX-License-Identifier: MIT OR Apache-2.0 */
/*
 * The three functions by which the library's name server asks the C library for memory, for a processor for which the Rattle kit has
 * none that are built. The kit declares them, and says what it takes of them as true, in src/heap.rt of its library libc. Built by
 * tools/c_library or tools/retarget; it needs no header.
 */
typedef __SIZE_TYPE__ size;

void *malloc(size count);
void *realloc(void *at, size count);
void free(void *at);

static char nothing;

#if __SIZEOF_POINTER__ == 4
/* Whether there is memory, in the last bit, and where, in the upper half: tools/retarget makes of it what the module takes. Sizes have 64
 * bits there: there is no memory for more than 2^31 octets, nor for what malloc may not align. */
typedef unsigned long long number;

enum { ALIGNED = 8 };

static number answer(void *at) {
    return (number)(size)(at != 0 ? at : &nothing) << 32 | (at != 0);
}

number nbt64_alloc(number count, number alignment) {
    const int is_none = count >> 31 != 0 || alignment > ALIGNED;
    return answer(is_none ? 0 : malloc((size)(count != 0 ? count : alignment)));
}

number nbt64_realloc(void *at, number kept, number count, number alignment) {
    const int is_none = count >> 31 != 0 || alignment > ALIGNED;
    (void)kept;
    return answer(is_none ? 0 : realloc(at, (size)(count != 0 ? count : alignment)));
}
#else
/* Whether there is memory, and where. Where there is none, the pointer leads to an octet that nobody reads or writes. */
struct tried {
    _Bool ok;
    void *at;
};

static struct tried answer(void *at) {
    struct tried out;
    out.ok = at != 0;
    out.at = at != 0 ? at : &nothing;
    return out;
}

/* An alignment is at most 16, as malloc has it. Of 0 octets malloc may return a null pointer, so it is asked for more. */
struct tried rattle_alloc(size count, size alignment) {
    return answer(malloc(count != 0 ? count : alignment));
}

struct tried rattle_realloc(void *at, size kept, size count, size alignment) {
    (void)kept;
    return answer(realloc(at, count != 0 ? count : alignment));
}
#endif

void rattle_dealloc(void *at) {
    free(at);
}
