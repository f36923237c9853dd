#define _GNU_SOURCE
/* Lets the allocation number REFUSE fail, and tells on the descriptor TELL how many there were. */
#include <errno.h>
#include <stdio.h>
#include <stdlib.h>
#include <sys/syscall.h>
#include <unistd.h>

extern void *__libc_malloc(size_t size);
extern void *__libc_calloc(size_t count, size_t size);
extern void *__libc_realloc(void *old, size_t size);
extern void *__libc_memalign(size_t align, size_t size);

static unsigned long made, refused;

static int is_refused(void) {
    if (made == 0) {
        const char *text = getenv("REFUSE");
        refused = text ? strtoul(text, NULL, 10) : 0;
    }
    made += 1;
    if (made != refused) return 0;
    errno = ENOMEM;
    return 1;
}

void *malloc(size_t size) { return is_refused() ? NULL : __libc_malloc(size); }

void *calloc(size_t count, size_t size) { return is_refused() ? NULL : __libc_calloc(count, size); }

void *realloc(void *old, size_t size) { return is_refused() ? NULL : __libc_realloc(old, size); }

void *aligned_alloc(size_t align, size_t size) { return is_refused() ? NULL : __libc_memalign(align, size); }

int posix_memalign(void **out, size_t align, size_t size) {
    if (is_refused()) return ENOMEM;
    *out = __libc_memalign(align, size);
    return *out ? 0 : ENOMEM;
}

/* The program ends by this call, which runs no destructor. */
void _exit(int status) {
    char text[32];
    int size = snprintf(text, sizeof text, "%lu\n", made);
    const char *tell = getenv("TELL");
    if (tell && write(atoi(tell), text, (size_t)size) < 0) status = status ? status : 3;
    for (;;) syscall(SYS_exit_group, status);
}
