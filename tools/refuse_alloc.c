/* Refuses allocations of a program by their numbers, from 1 on: to be loaded before the program's
   libraries (LD_PRELOAD). REFUSE_ALLOC is the number of one that is refused; the file that REFUSE_TOLD
   names is made when it comes. REFUSE_FROM is the number from which on each is refused. At the end of
   the program the file that ALLOC_TOLD names gets how many there were, and of how many bytes all of
   them. tools/fail-each and tools/steady use it. */
#include <errno.h>
#include <fcntl.h>
#include <stddef.h>
#include <stdio.h>
#include <stdlib.h>
#include <unistd.h>

void *__libc_malloc(size_t size);
void *__libc_realloc(void *old, size_t size);

static unsigned long count, bytes, refused, first_refused;

__attribute__((constructor)) static void begin(void)
{
    const char *number = getenv("REFUSE_ALLOC");
    const char *from = getenv("REFUSE_FROM");
    refused = number ? strtoul(number, NULL, 10) : 0;
    first_refused = from ? strtoul(from, NULL, 10) : 0;
    count = bytes = 0;
}

__attribute__((destructor)) static void end(void)
{
    const char *path = getenv("ALLOC_TOLD");
    char text[64];
    int told = path ? open(path, O_WRONLY | O_CREAT | O_TRUNC, 0600) : -1;
    int size = snprintf(text, sizeof text, "%lu %lu\n", count, bytes);
    if (told >= 0 && write(told, text, (size_t)size) == size)
        close(told);
}

static int is_refused(size_t size)
{
    const char *path;
    int told;
    unsigned long number = __atomic_add_fetch(&count, 1, __ATOMIC_SEQ_CST);
    __atomic_add_fetch(&bytes, size, __ATOMIC_SEQ_CST);
    if (first_refused != 0 && number >= first_refused) {
        errno = ENOMEM;
        return 1;
    }
    if (number != refused || refused == 0)
        return 0;
    path = getenv("REFUSE_TOLD");
    told = path ? open(path, O_WRONLY | O_CREAT, 0600) : -1;
    if (told >= 0)
        close(told);
    errno = ENOMEM;
    return 1;
}

void *malloc(size_t size)
{
    return is_refused(size) ? NULL : __libc_malloc(size);
}

void *realloc(void *old, size_t size)
{
    return is_refused(size) ? NULL : __libc_realloc(old, size);
}
