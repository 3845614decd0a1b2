// Refuses allocations of a program, one at a time. Put in front of it by LD_PRELOAD, this counts what is asked of the C heap.
//
// A program that knows of it asks for a block of 1,000,003 bytes to begin a round, in which the Nth call is refused, N being the number of
// the round; and for one of 1,000,033 bytes to end it, which is refused exactly where a call of the round was. So one run of the program
// tries each of its allocations. Behind a round in which nothing was refused they are numbered anew. Without this both blocks are granted,
// and a program sees one such round.
//
// Of any other program the call is refused whose number REFUSES has, from its first on, and the file that COUNTED names has at its end
// how many it made.
//
//     cc -shared -fPIC -O1 -o refusing.so refusing.c
typedef unsigned long size_t;

void *__libc_malloc(size_t);
void *__libc_realloc(void *, size_t);
char *getenv(const char *);
unsigned long strtoul(const char *, char **, int);
int creat(const char *, unsigned);
int dprintf(int, const char *, ...);

static unsigned long round_of, left, made;
static int counts, refused;

__attribute__((constructor)) static void begins(void) {
    const char *number = getenv("REFUSES");
    left = number ? strtoul(number, 0, 10) : 0;
    counts = left > 0;
    made = 0;
}

__attribute__((destructor)) static void ends(void) {
    const char *file = getenv("COUNTED");
    unsigned long all = made;
    if (file) dprintf(creat(file, 0600), "%lu\n", all);
}

static int refuses(size_t size) {
    made++;
    if (size == 1000003) {
        left = ++round_of;
        counts = 1;
        refused = 0;
        return 0;
    }
    if (size == 1000033) {
        counts = 0;
        if (!refused) round_of = 0;
        return refused;
    }
    if (counts && --left == 0) {
        counts = 0;
        refused = 1;
        return 1;
    }
    return 0;
}

void *malloc(size_t size) { return refuses(size) ? (void *)0 : __libc_malloc(size); }

void *realloc(void *old, size_t size) { return refuses(size) ? (void *)0 : __libc_realloc(old, size); }
