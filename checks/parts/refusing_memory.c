/* A heap that refuses one request for memory, and counts.
 *
 * Loaded before the C library (LD_PRELOAD), it numbers the program's requests from 1 and refuses the one that the
 * environment's REFUSED names. At the end it writes to the descriptor TALLY how many requests there were, how many
 * blocks were taken and how many were given back. What the C library asks for itself is passed on uncounted. A program
 * that may start threads ends by _exit, with no destructor, so that the tally is written there.
 */
#define _GNU_SOURCE
#include <link.h>
#include <stdatomic.h>
#include <stdint.h>
#include <stdio.h>
#include <stdlib.h>
#include <sys/syscall.h>
#include <unistd.h>

extern void *__libc_malloc(size_t size);
extern void *__libc_calloc(size_t count, size_t size);
extern void *__libc_realloc(void *block, size_t size);
extern void __libc_free(void *block);

static uintptr_t code_begin = UINTPTR_MAX, code_end;
static long refused;
static int tally = -1;
static atomic_long requests, taken, given;

/* The first object is the program itself. */
static int note_code(struct dl_phdr_info *object, size_t size, void *unused) {
    (void)size, (void)unused;
    for (int i = 0; i < object->dlpi_phnum; i++) {
        const ElfW(Phdr) *part = &object->dlpi_phdr[i];
        if (part->p_type != PT_LOAD || !(part->p_flags & PF_X)) continue;
        uintptr_t begin = object->dlpi_addr + part->p_vaddr;
        if (begin < code_begin) code_begin = begin;
        if (begin + part->p_memsz > code_end) code_end = begin + part->p_memsz;
    }
    return 1;
}

__attribute__((constructor)) static void begin(void) {
    const char *number = getenv("REFUSED"), *descriptor = getenv("TALLY");
    if (number) refused = atol(number);
    if (descriptor) tally = atoi(descriptor);
    dl_iterate_phdr(note_code, NULL);
}

static void leave(int status) {
    for (;;) syscall(SYS_exit_group, status);
}

__attribute__((destructor)) static void end(void) {
    char line[96];
    int length = snprintf(line, sizeof line, "%ld %ld %ld\n", (long)requests, (long)taken, (long)given);
    if (tally >= 0 && write(tally, line, length) != length) leave(120);
}

void _exit(int status) {
    end();
    leave(status);
    __builtin_unreachable();
}

static int is_program(const void *caller) {
    return code_begin <= (uintptr_t)caller && (uintptr_t)caller < code_end;
}

void *malloc(size_t size) {
    int counts = is_program(__builtin_return_address(0));
    if (counts && ++requests == refused) return NULL;
    void *block = __libc_malloc(size);
    if (counts && block) taken++;
    return block;
}

void *calloc(size_t count, size_t size) {
    int counts = is_program(__builtin_return_address(0));
    if (counts && ++requests == refused) return NULL;
    void *block = __libc_calloc(count, size);
    if (counts && block) taken++;
    return block;
}

void *realloc(void *old, size_t size) {
    int counts = is_program(__builtin_return_address(0));
    if (counts && ++requests == refused) return NULL;
    void *block = __libc_realloc(old, size);
    if (counts && block && !old) taken++;
    return block;
}

void free(void *block) {
    if (block && is_program(__builtin_return_address(0))) given++;
    __libc_free(block);
}
