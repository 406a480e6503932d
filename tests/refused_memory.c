/* Refuses one allocation of a program that is started with this library before others (LD_PRELOAD): the one whose number is in
   the variable REFUSED of the environment, counted from 1. A byte goes to descriptor 9 then. */
#include <errno.h>
#include <stddef.h>
#include <stdlib.h>
#include <unistd.h>

void *__libc_malloc(size_t);
void *__libc_calloc(size_t, size_t);
void *__libc_realloc(void *, size_t);

static long count;
static long refused = -1;

static int is_refused(void) {
    if (refused < 0) {
        const char *word = getenv("REFUSED");
        refused = word ? atol(word) : 0;
    }
    count++;
    if (count != refused) return 0;
    if (write(9, "r", 1) != 1) abort();
    errno = ENOMEM;
    return 1;
}

void *malloc(size_t size) { return is_refused() ? NULL : __libc_malloc(size); }

void *calloc(size_t number, size_t size) { return is_refused() ? NULL : __libc_calloc(number, size); }

void *realloc(void *old, size_t size) { return is_refused() ? NULL : __libc_realloc(old, size); }
