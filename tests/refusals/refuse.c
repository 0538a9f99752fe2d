/* Counts the requests for memory of a program, refuses one of them, and tells what is held.

   LD_PRELOAD names the library, and these variables say what it does; the program knows nothing of it:

   REFUSE_LOG    the file to which the lines below are added
   REFUSE_AT     the number of the request that is refused, from 1; none where it is not set
   REFUSE_STACK  how many bytes of the stack are touched before the program begins, so that the stack need not grow later

   The lines are `start`, when the stack is touched; `REQUESTS BLOCKS BYTES` at each write to the standard output that ends a
   line, with the requests so far and what is held then; and `end REQUESTS BLOCKS BYTES` when the program ends.

   The programs have one thread, so nothing is locked. */

#define _GNU_SOURCE
#include <alloca.h>
#include <dlfcn.h>
#include <errno.h>
#include <fcntl.h>
#include <malloc.h>
#include <stdio.h>
#include <stdlib.h>
#include <unistd.h>

static void *(*real_malloc)(size_t);
static void *(*real_calloc)(size_t, size_t);
static void *(*real_realloc)(void *, size_t);
static void *(*real_aligned_alloc)(size_t, size_t);
static int (*real_posix_memalign)(void **, size_t, size_t);
static void (*real_free)(void *);
static ssize_t (*real_write)(int, const void *, size_t);

static unsigned long requests, refused_request, blocks, bytes;
static int log_file = -1;

static void find_real_functions(void)
{
    real_malloc = dlsym(RTLD_NEXT, "malloc");
    real_calloc = dlsym(RTLD_NEXT, "calloc");
    real_realloc = dlsym(RTLD_NEXT, "realloc");
    real_aligned_alloc = dlsym(RTLD_NEXT, "aligned_alloc");
    real_posix_memalign = dlsym(RTLD_NEXT, "posix_memalign");
    real_free = dlsym(RTLD_NEXT, "free");
    real_write = dlsym(RTLD_NEXT, "write");
}

/* Whether a request is refused, which is counted here. */
static int is_refused(void)
{
    if (!real_write)
        find_real_functions();
    requests++;
    if (requests != refused_request)
        return 0;
    errno = ENOMEM;
    return 1;
}

static void *taken(void *block)
{
    if (block) {
        blocks++;
        bytes += malloc_usable_size(block);
    }
    return block;
}

static void given_back(void *block)
{
    if (block) {
        blocks--;
        bytes -= malloc_usable_size(block);
    }
}

void *malloc(size_t size)
{
    return is_refused() ? NULL : taken(real_malloc(size));
}

void *calloc(size_t count, size_t size)
{
    return is_refused() ? NULL : taken(real_calloc(count, size));
}

void *realloc(void *block, size_t size)
{
    if (is_refused())
        return NULL;
    size_t before = block ? malloc_usable_size(block) : 0;
    void *moved = real_realloc(block, size);
    if (moved || size == 0) {
        blocks -= block != NULL;
        bytes -= before;
        taken(moved);
    }
    return moved;
}

void *aligned_alloc(size_t alignment, size_t size)
{
    return is_refused() ? NULL : taken(real_aligned_alloc(alignment, size));
}

int posix_memalign(void **place, size_t alignment, size_t size)
{
    if (is_refused())
        return ENOMEM;
    int fault = real_posix_memalign(place, alignment, size);
    if (!fault)
        taken(*place);
    return fault;
}

void free(void *block)
{
    given_back(block);
    if (block)
        real_free(block);
}

static void tell(const char *head)
{
    char line[100];
    int length = snprintf(line, sizeof line, "%s%lu %lu %lu\n", head, requests, blocks, bytes);
    if (log_file >= 0 && real_write(log_file, line, length) != length)
        _exit(99);
}

ssize_t write(int file, const void *text, size_t length)
{
    if (!real_write)
        find_real_functions();
    if (file == STDOUT_FILENO && length > 0 && ((const char *)text)[length - 1] == '\n')
        tell("");
    return real_write(file, text, length);
}

/* From the top down, as a stack grows. */
static void touch_stack(size_t size)
{
    volatile char *room = alloca(size);
    for (size_t left = size; left > 4096; left -= 4096)
        room[left - 1] = 0;
}

__attribute__((constructor)) static void begin(void)
{
    const char *name = getenv("REFUSE_LOG"), *at = getenv("REFUSE_AT"), *stack = getenv("REFUSE_STACK");
    if (!real_write)
        find_real_functions();
    if (stack)
        touch_stack(strtoul(stack, NULL, 10));
    if (name)
        log_file = open(name, O_WRONLY | O_APPEND | O_CREAT | O_CLOEXEC, 0600);
    if (log_file >= 0 && real_write(log_file, "start\n", 6) != 6)
        _exit(99);
    refused_request = at ? strtoul(at, NULL, 10) : 0;
}

__attribute__((destructor)) static void finish(void)
{
    tell("end ");
}
