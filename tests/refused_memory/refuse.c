/* Refuses one allocation of a program, by LD_PRELOAD.
 *
 * It counts each call that asks for memory, from 1. The call that REFUSE_CALL names answers null, and no other does.
 * If REFUSE_COUNT names a file, the number of calls is written to it as the program ends.
 *
 * The memory itself comes from glibc, by the names that its allocator keeps for such a library as this.
 */
#include <errno.h>
#include <fcntl.h>
#include <stdio.h>
#include <stdlib.h>
#include <sys/syscall.h>
#include <unistd.h>

extern void *__libc_malloc(size_t size);
extern void *__libc_calloc(size_t count, size_t size);
extern void *__libc_realloc(void *old, size_t size);
extern void *__libc_memalign(size_t align, size_t size);

static unsigned long calls;
static unsigned long refused_call;
static int is_ready;

/* Counts a call, and says whether it is the one to refuse. */
static int is_refused(void) {
    if (!is_ready) {
        const char *named = getenv("REFUSE_CALL");
        refused_call = named != NULL ? strtoul(named, NULL, 10) : 0;
        is_ready = 1;
    }
    if (__atomic_add_fetch(&calls, 1, __ATOMIC_RELAXED) != refused_call) {
        return 0;
    }
    errno = ENOMEM;
    return 1;
}

void *malloc(size_t size) {
    return is_refused() ? NULL : __libc_malloc(size);
}

void *calloc(size_t count, size_t size) {
    return is_refused() ? NULL : __libc_calloc(count, size);
}

void *realloc(void *old, size_t size) {
    return is_refused() ? NULL : __libc_realloc(old, size);
}

void *memalign(size_t align, size_t size) {
    return is_refused() ? NULL : __libc_memalign(align, size);
}

void *aligned_alloc(size_t align, size_t size) {
    return is_refused() ? NULL : __libc_memalign(align, size);
}

int posix_memalign(void **place, size_t align, size_t size) {
    void *made = is_refused() ? NULL : __libc_memalign(align, size);
    if (made == NULL) {
        return ENOMEM;
    }
    *place = made;
    return 0;
}

/* Writes the count, with no memory of its own. */
__attribute__((destructor)) static void write_count(void) {
    const char *name = getenv("REFUSE_COUNT");
    if (name == NULL) {
        return;
    }
    char line[32];
    int length = snprintf(line, sizeof line, "%lu\n", __atomic_load_n(&calls, __ATOMIC_RELAXED));
    int file = open(name, O_WRONLY | O_CREAT | O_TRUNC, 0600);
    if (file >= 0) {
        if (write(file, line, (size_t)length) != length) {
            syscall(SYS_exit_group, 3);
        }
        close(file);
    }
}

/* A program with threads ends by this call, which runs no destructor. */
void _exit(int status) {
    write_count();
    for (;;) {
        syscall(SYS_exit_group, status);
    }
}
