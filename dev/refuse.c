/* Comes before the C library of a program, counts its allocations, and refuses some: that which the variable REFUSE
   numbers, from 1, and with REFUSE_AFTER all after it; or those that would hold more bytes than REFUSE_ROOM says. At the
   end of the program it writes to the descriptor REFUSE_TOLD how many were asked for, how many blocks are still held, how
   many were refused, by this or by the system, and the most bytes that were held. */
#include <errno.h>
#include <malloc.h>
#include <stdio.h>
#include <stdlib.h>
#include <unistd.h>

extern void *__libc_malloc(size_t);
extern void *__libc_calloc(size_t, size_t);
extern void *__libc_realloc(void *, size_t);
extern void __libc_free(void *);

static long asked, held, refusals, bytes, most;
static long refused, after, room, told;

static long number(const char *name)
{
    const char *text = getenv(name);
    return text ? strtol(text, NULL, 10) : 0;
}

__attribute__((constructor)) static void begin(void)
{
    refused = number("REFUSE");
    after = number("REFUSE_AFTER");
    room = number("REFUSE_ROOM");
    told = number("REFUSE_TOLD");
    asked = held = refusals = bytes = most = 0;
}

__attribute__((destructor)) static void end(void)
{
    char text[128];
    int length = snprintf(text, sizeof text, "%ld %ld %ld %ld\n", asked, held, refusals, most);
    if (told && write((int)told, text, length) != length)
        _exit(99);
}

static int refuses(long more)
{
    asked++;
    int is_numbered = refused && (asked == refused || (asked > refused && after));
    if (!is_numbered && (room == 0 || bytes + more <= room))
        return 0;
    refusals++;
    errno = ENOMEM;
    return 1;
}

/* Counts a block that was had in place of one of so many bytes, if there was one. */
static void *counted(void *block, long old)
{
    if (block == NULL) {
        refusals++;
        return NULL;
    }
    bytes += (long)malloc_usable_size(block) - old;
    if (most < bytes)
        most = bytes;
    return block;
}

static void *counted_more(void *block)
{
    held += block != NULL;
    return counted(block, 0);
}

void *malloc(size_t size)
{
    return refuses((long)size) ? NULL : counted_more(__libc_malloc(size));
}

void *calloc(size_t count, size_t size)
{
    return refuses((long)(count * size)) ? NULL : counted_more(__libc_calloc(count, size));
}

void *realloc(void *block, size_t size)
{
    long old = block ? (long)malloc_usable_size(block) : 0;
    if (refuses((long)size - old))
        return NULL;
    return block ? counted(__libc_realloc(block, size), old) : counted_more(__libc_malloc(size));
}

void free(void *block)
{
    if (block == NULL)
        return;
    held--;
    bytes -= (long)malloc_usable_size(block);
    __libc_free(block);
}
