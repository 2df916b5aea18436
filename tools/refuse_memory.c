/* Preloaded before a program (LD_PRELOAD, on glibc), it counts the requests for memory that the program makes from its start
   on, and answers one of them with null: that of the number in REFUSE_REQUEST, from 1; with 0 it answers all. When the
   program ends, the count and whether one was refused are written to the file that REFUSE_REPORT names. */
#include <errno.h>
#include <fcntl.h>
#include <stdio.h>
#include <stdlib.h>
#include <unistd.h>

extern void *__libc_malloc(size_t size);
extern void *__libc_calloc(size_t count, size_t size);
extern void *__libc_realloc(void *old, size_t size);
extern void *__libc_memalign(size_t alignment, size_t size);

static int counting;
static unsigned long made, refused, chosen;

__attribute__((constructor)) static void start(void)
{
    const char *number = getenv("REFUSE_REQUEST");
    chosen = number ? strtoul(number, NULL, 10) : 0;
    counting = 1;
}

__attribute__((destructor)) static void report(void)
{
    const char *name = getenv("REFUSE_REPORT");
    char text[64];
    counting = 0;
    if (name == NULL)
        return;
    int file = open(name, O_WRONLY | O_CREAT | O_TRUNC, 0600);
    int length = snprintf(text, sizeof text, "%lu %lu\n", made, refused);
    if (file < 0 || write(file, text, length) != length)
        _exit(125);
    close(file);
}

/* Counts a request, and says whether it is the one to refuse. */
static int is_refused(void)
{
    if (!counting || ++made != chosen)
        return 0;
    refused = 1;
    errno = ENOMEM;
    return 1;
}

void *malloc(size_t size)
{
    return is_refused() ? NULL : __libc_malloc(size);
}

void *calloc(size_t count, size_t size)
{
    return is_refused() ? NULL : __libc_calloc(count, size);
}

void *realloc(void *old, size_t size)
{
    return is_refused() ? NULL : __libc_realloc(old, size);
}

void *aligned_alloc(size_t alignment, size_t size)
{
    return is_refused() ? NULL : __libc_memalign(alignment, size);
}

void *memalign(size_t alignment, size_t size)
{
    return is_refused() ? NULL : __libc_memalign(alignment, size);
}

int posix_memalign(void **place, size_t alignment, size_t size)
{
    if (is_refused())
        return ENOMEM;
    void *made_here = __libc_memalign(alignment, size);
    if (made_here == NULL)
        return ENOMEM;
    *place = made_here;
    return 0;
}
