/* The statements of a schedule, in the same transactions, over the stock SQLite library:
 *
 *     schedule_times COUNT [FILE]
 *
 * Brings COUNT invocations of the handler race from invoke to end, and COUNT of ask, whose first attempt is stopped where it waits and
 * whose second goes on, and prints the microseconds of an event: in memory, of the processor, there with a log too, as the library has
 * it, and in a new file of that name, by the clock. Then an invocation whose journal grows to 10,000 entries, resumed at each tenth of
 * them, objects of 10 and of 10,000 keys, invocations of 10 and of 10,000 runs, in such files too, and ten that are due among 100 and
 * among 100,000. To hand bytes out, to make a turn and to stop an attempt are events without a statement. */
#include "store_statements.h"

/* How many events each invocation has: each is made, begun twice, fed three times, stopped once, its output is moved three times, and
 * one event brings what it waits for; the turns of race are twelve, those of ask ten. */
enum { RACE_EVENTS = 23, ASK_EVENTS = 21 };

static void do_race(uint64_t which) {
    struct progress p;
    invoke(&p, which);
    begin(&p);
    step_sleep(&p);
    step_sleep(&p);
    step_awaiting_on(&p);
    begin(&p);
    step_awaiting_on(&p);
    tick(&p);
    step_output(&p);
    step_end(&p);
}

static void do_ask(uint64_t which) {
    struct progress p;
    invoke(&p, which);
    begin(&p);
    step_call(&p);
    step_awaiting_on(&p);
    begin(&p);
    step_awaiting_on(&p);
    result(&p, 2);
    step_output(&p);
    step_end(&p);
}

static void time_all(const char *place, const char *name, clockid_t clock, void (*one)(uint64_t), uint64_t first, uint64_t count, int events) {
    double start = read_clock(clock);
    for (uint64_t i = 0; i < count; i++) one(first + i);
    printf("%s %s %llu event %.2f\n", place, name, (unsigned long long)count, (read_clock(clock) - start) / ((double)events * (double)count));
}

static void time_handlers(const char *place, const char *path, clockid_t clock, uint64_t count) {
    open_database(path);
    time_all(place, "race", clock, do_race, 0, count, RACE_EVENTS);
    time_all(place, "ask", clock, do_ask, count, count, ASK_EVENTS);
    close_database();
}

/* A journal grows by so many entries, so many times, and is resumed each time. An entry is a turn and a move; to resume is to stop an
 * attempt, to begin one, to feed it, and a turn for each entry. Of these the begin alone has statements. */
static void time_journal(uint32_t entries, uint32_t times) {
    open_database(":memory:");
    struct progress p;
    invoke(&p, 0);
    begin(&p);
    while (p.entries < entries * times) {
        uint32_t first = p.entries;
        double start = now();
        while (p.entries % entries != 0 || p.entries == first) step_sleep(&p);
        double grown = now();
        begin(&p);
        double begun = now() - grown;
        double grow = (grown - start) / (2.0 * (p.entries - first));
        printf("journal %u grow %.2f begin %.2f resume %.2f\n", p.entries, grow, begun, begun / (p.entries + 3.0));
    }
    close_database();
}

/* How many keys of an object, and how many runs, are timed, or all of them where these are fewer. */
enum { TIMED = 100 };

/* An object gets so many keys by one invocation; another one, which is handed all of it, reads some of them, and one more, which is not.
 * What is printed is of a turn with the move of its frame, of which the move alone has statements. */
static void time_states(uint32_t keys) {
    open_database(":memory:");
    struct progress p;
    uint32_t timed = keys < TIMED ? keys : TIMED;
    invoke(&p, 0);
    begin(&p);
    double start = 0;
    for (uint32_t key = 0; key < keys; key++) {
        if (key == keys - timed) start = now();
        step_set(&p, key);
    }
    double set = (now() - start) / timed;
    step_end(&p);
    double took[3];
    for (uint64_t which = 1; which <= 2; which++) {
        invoke(&p, which);
        snprintf(p.object, sizeof p.object, "o-0");
        start = now();
        begin(&p);
        if (which == 1) took[0] = now() - start;
        start = now();
        for (uint32_t key = 0; key < timed; key++) {
            if (which == 1) step_eager_read(&p);
            else step_lazy_read(&p, key);
        }
        took[which] = (now() - start) / timed;
        step_end(&p);
    }
    printf("state %u set %.2f begin %.2f eager %.2f lazy %.2f\n", keys, set, took[0], took[1], took[2]);
    close_database();
}

/* An invocation makes so many runs, each executed once. What is printed is of all events of a run, of which the moves of its command
 * and of its outcome have statements. */
static void time_runs(const char *place, const char *path, clockid_t clock, uint32_t runs) {
    open_database(path);
    struct progress p;
    uint32_t timed = runs < TIMED ? runs : TIMED;
    invoke(&p, 0);
    begin(&p);
    double start = 0;
    for (uint32_t i = 0; i < runs; i++) {
        if (i == runs - timed) start = read_clock(clock);
        step_run(&p);
        step_outcome(&p);
    }
    printf("runs %u %s %.2f\n", runs, place, (read_clock(clock) - start) / timed);
    close_database();
}

/* Invocations that make few runs and many, each in a file whose name has their number behind it. */
static void time_runs_in_files(const char *path) {
    static const uint32_t RUNS[] = {10, 10000};
    for (size_t i = 0; i < sizeof RUNS / sizeof RUNS[0]; i++) {
        char name[4096];
        if (snprintf(name, sizeof name, "%s-%u", path, RUNS[i]) >= (int)sizeof name) fail("a name");
        time_runs("file", name, CLOCK_MONOTONIC, RUNS[i]);
    }
}

/* How many invocations are due, and how often it is asked which these are. */
enum { DUE = 10, TIMES = 100 };

/* So many invocations suspend, and what a few of them wait for comes. */
static void time_due(uint32_t suspended) {
    open_database(":memory:");
    for (uint32_t which = 0; which < suspended; which++) {
        struct progress p;
        invoke(&p, which);
        begin(&p);
        step_call(&p);
        step_suspension(&p);
        if (which % (suspended / DUE) == 0) result(&p, 2);
    }
    double start = now();
    for (int i = 0; i < TIMES; i++)
        if (due() != DUE) fail("due");
    printf("suspended %u due %.2f\n", suspended, (now() - start) / TIMES);
    close_database();
}

int main(int count, char **words) {
    if (count < 2) return 0;
    uint64_t invocations = strtoull(words[1], NULL, 10);
    time_handlers("memory", ":memory:", CLOCK_PROCESS_CPUTIME_ID, invocations);
    time_handlers("log", "file:/schedule?vfs=memdb", CLOCK_PROCESS_CPUTIME_ID, invocations);
    if (count > 2) {
        time_handlers("file", words[2], CLOCK_MONOTONIC, invocations);
        time_runs_in_files(words[2]);
    }
    time_journal(10, 1);
    time_journal(1000, 10);
    time_states(10);
    time_states(10000);
    for (uint32_t runs = 10; runs <= 10000; runs *= 1000) {
        time_runs("memory", ":memory:", CLOCK_PROCESS_CPUTIME_ID, runs);
        time_runs("log", "file:/schedule?vfs=memdb", CLOCK_PROCESS_CPUTIME_ID, runs);
    }
    time_due(100);
    time_due(100000);
    return seen == 1 ? 2 : 0;
}
