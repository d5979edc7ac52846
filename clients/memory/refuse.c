/* Loaded into a program by LD_PRELOAD, this refuses one allocation: number REFUSE_NUMBER of those that the program's own code asks for,
   from 1 on. What the C library asks for itself is not counted. The number of bytes that were refused goes to the file REFUSE_FILE. */
#define _GNU_SOURCE
#include <errno.h>
#include <fcntl.h>
#include <link.h>
#include <stdint.h>
#include <stdio.h>
#include <stdlib.h>
#include <unistd.h>

void *__libc_malloc(size_t size);
void *__libc_calloc(size_t count, size_t size);
void *__libc_realloc(void *old, size_t size);
void *__libc_memalign(size_t alignment, size_t size);

static uintptr_t code_start, code_end;
static unsigned long refused_number, asked;

/* The first object is the program itself. */
static int find_code(struct dl_phdr_info *object, size_t size, void *unused) {
    (void) size, (void) unused;
    for (int i = 0; i < object->dlpi_phnum; i++) {
        const ElfW(Phdr) *part = &object->dlpi_phdr[i];
        if (part->p_type == PT_LOAD && (part->p_flags & PF_X)) {
            code_start = object->dlpi_addr + part->p_vaddr;
            code_end = code_start + part->p_memsz;
        }
    }
    return 1;
}

__attribute__((constructor)) static void start(void) {
    const char *number = getenv("REFUSE_NUMBER");
    refused_number = number ? strtoul(number, NULL, 10) : 0;
    dl_iterate_phdr(find_code, NULL);
}

static void tell(size_t size) {
    char text[32];
    const char *name = getenv("REFUSE_FILE");
    int file = name ? open(name, O_WRONLY | O_CREAT | O_TRUNC, 0600) : -1;
    if (file < 0 || write(file, text, (size_t) snprintf(text, sizeof text, "%zu", size)) < 0 || close(file) < 0)
        abort();
}

static int is_refused(const void *caller, size_t size) {
    uintptr_t at = (uintptr_t) caller;
    if (at < code_start || at >= code_end || ++asked != refused_number)
        return 0;
    tell(size);
    errno = ENOMEM;
    return 1;
}

#define REFUSED(size) is_refused(__builtin_return_address(0), size)

void *malloc(size_t size) {
    return REFUSED(size) ? NULL : __libc_malloc(size);
}

void *calloc(size_t count, size_t size) {
    return REFUSED(count * size) ? NULL : __libc_calloc(count, size);
}

void *realloc(void *old, size_t size) {
    return size && REFUSED(size) ? NULL : __libc_realloc(old, size);
}

void *aligned_alloc(size_t alignment, size_t size) {
    return REFUSED(size) ? NULL : __libc_memalign(alignment, size);
}

void *memalign(size_t alignment, size_t size) {
    return REFUSED(size) ? NULL : __libc_memalign(alignment, size);
}

int posix_memalign(void **place, size_t alignment, size_t size) {
    if (REFUSED(size))
        return ENOMEM;
    void *memory = __libc_memalign(alignment, size);
    if (!memory)
        return ENOMEM;
    *place = memory;
    return 0;
}
