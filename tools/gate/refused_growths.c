/* Linked into a program, it refuses growths of memory: the one whose number REFUSE names, counted from 1, and those after
   it, as many in a row as REFUSE_IN_A_ROW says (1). Where REFUSE is 0 it refuses none and tells in the end how many growths
   there were. Where COUNTED names a file, it counts them there too, as a `long`, so that the count is known however the program
   ends. A program can also set `first_refused` itself. The scripts under bench/ link it. Compiled with PRELOADED as a
   shared library and loaded before a program that is linked already, it refuses what that program itself asks of malloc and
   realloc, and nothing that the C library asks for its own ends: tools/gate/refused_growths.sh and tools/gate/memory.py. */
#define _GNU_SOURCE
#include <fcntl.h>
#include <link.h>
#include <stddef.h>
#include <stdint.h>
#include <stdio.h>
#include <stdlib.h>
#include <sys/mman.h>
#include <unistd.h>

typedef struct {
    uint64_t ok;
    void *block;
} grown; /* what the library's allocator answers */

long growths = 0, first_refused = 0;
static long in_a_row = 1;
static int says_so = 0;
static long *counted = NULL; /* in the file of COUNTED */

static void tell(void) { fprintf(stderr, "growths %ld\n", growths); }

__attribute__((constructor)) static void begin(void) {
    const char *first = getenv("REFUSE"), *row = getenv("REFUSE_IN_A_ROW"), *file = getenv("COUNTED");
    int count = file ? open(file, O_RDWR | O_CREAT | O_TRUNC, 0644) : -1;
    if (count >= 0 && ftruncate(count, sizeof *counted) == 0) {
        void *place = mmap(NULL, sizeof *counted, PROT_READ | PROT_WRITE, MAP_SHARED, count, 0);
        if (place != MAP_FAILED) counted = place;
    }
    if (count >= 0) close(count);
    if (!first) return;
    says_so = 1;
    first_refused = atol(first);
    if (row) in_a_row = atol(row);
    if (first_refused == 0) atexit(tell);
}

static int refuses(void) {
    long number = __atomic_add_fetch(&growths, 1, __ATOMIC_RELAXED);
    if (counted) __atomic_add_fetch(counted, 1, __ATOMIC_RELAXED);
    if (first_refused == 0 || number < first_refused || number >= first_refused + in_a_row) return 0;
    if (says_so) fprintf(stderr, "refused\n");
    return 1;
}

#ifdef PRELOADED

static uintptr_t first_byte = 0, last_byte = 0; /* of the program, without the libraries that it loads */

static int note_program(struct dl_phdr_info *it, size_t size, void *data) {
    (void)size, (void)data;
    for (int i = 0; i < it->dlpi_phnum; i++) {
        uintptr_t at = it->dlpi_addr + it->dlpi_phdr[i].p_vaddr, end = at + it->dlpi_phdr[i].p_memsz;
        if (it->dlpi_phdr[i].p_type != PT_LOAD) continue;
        if (first_byte == 0 || at < first_byte) first_byte = at;
        if (end > last_byte) last_byte = end;
    }
    return 1; /* the first that is told is the program */
}

__attribute__((constructor)) static void begin_preloaded(void) { dl_iterate_phdr(note_program, NULL); }

static int refuses_for(void *caller) {
    return first_byte <= (uintptr_t)caller && (uintptr_t)caller < last_byte && refuses();
}

void *__libc_malloc(size_t size);
void *malloc(size_t size) { return refuses_for(__builtin_return_address(0)) ? NULL : __libc_malloc(size); }

void *__libc_realloc(void *old, size_t size);
void *realloc(void *old, size_t size) {
    return refuses_for(__builtin_return_address(0)) ? NULL : __libc_realloc(old, size);
}

#else

grown __real_rattle_alloc(size_t size, size_t align);
grown __wrap_rattle_alloc(size_t size, size_t align) {
    return refuses() ? (grown){0, (void *)16} : __real_rattle_alloc(size, align);
}

grown __real_rattle_realloc(void *old, size_t a, size_t b, size_t c);
grown __wrap_rattle_realloc(void *old, size_t a, size_t b, size_t c) {
    return refuses() ? (grown){0, old} : __real_rattle_realloc(old, a, b, c);
}

#endif
