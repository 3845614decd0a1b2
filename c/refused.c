/* Refuses one allocation of the program that it is linked with, by `-Wl,--wrap=malloc,--wrap=realloc`: the one whose number REFUSED is in the
 * environment. At its end it tells how many there were. */
#include <stddef.h>
#include <stdio.h>
#include <stdlib.h>

void *__real_malloc(size_t);
void *__real_realloc(void *, size_t);

static long made;
static long refused = -1;

static void tell(void) { fprintf(stderr, "%ld allocations\n", made); }

static int is_refused(void) {
    if (refused < 0) {
        const char *number = getenv("REFUSED");
        refused = number ? atol(number) : 0;
        atexit(tell);
    }
    return ++made == refused;
}

void *__wrap_malloc(size_t size) { return is_refused() ? NULL : __real_malloc(size); }

void *__wrap_realloc(void *at, size_t size) { return is_refused() ? NULL : __real_realloc(at, size); }
