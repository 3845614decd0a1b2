/* The statements of the store, and in which transactions its events make them, over the stock SQLite library. Bytes on their way are
 * kept in memory alone: to hand them out, to close an input and to stop an attempt are events without a statement. */
#ifndef STORE_STATEMENTS_H
#define STORE_STATEMENTS_H

#include <sqlite3.h>
#include <stdint.h>
#include <stdio.h>
#include <stdlib.h>
#include <string.h>
#include <time.h>

enum statement {
    BEGIN, COMMIT, INVOCATION_BY_ID, OPEN_INVOCATION, ENTRY_BY_ANSWERED, ENTRY_BY_COMPLETION, ENTRY_BY_SECOND_COMPLETION,
    JOURNAL, STATES, SLEEPS_UNTIL, ADD_INVOCATION, SET_PROGRESS, ADD_ENTRY, OPEN_SLEEP, CLOSE_SLEEPS, CLOSE_SLEEPS_UNTIL, STATE, DROP_STATE,
    ADD_STATE, ARRIVALS_AFTER, AWAKE, STATEMENTS
};

static const char *const TEXTS[STATEMENTS] = {
    "BEGIN",
    "COMMIT",
    "SELECT * FROM invocation WHERE id = ?1",
    "SELECT * FROM invocation WHERE open_object = ?1",
    "SELECT * FROM entry WHERE invocation = ?1 AND answered = ?2",
    "SELECT * FROM entry WHERE invocation = ?1 AND completion = ?2",
    "SELECT * FROM entry WHERE invocation = ?1 AND second_completion = ?2",
    "SELECT * FROM entry WHERE invocation = ?1 ORDER BY place",
    "SELECT * FROM state WHERE object = ?1 ORDER BY key",
    "SELECT * FROM sleep WHERE moment <= ?1 ORDER BY invocation, moment, completion",
    "INSERT INTO invocation VALUES (?1, ?2, ?3, ?4, ?5, ?6, ?7, ?8, ?9, ?10, ?11, ?12, ?13, ?14, ?15, ?16, ?17, ?18, ?19, ?20, ?21, ?22)",
    "UPDATE invocation SET open_object = ?2, suspension = ?3, handed = ?4, closing = ?5, answer = ?6, error_code = ?7, error_behavior = ?8, error_delay = ?9, error_message = ?10, attempts = ?11, attempts_since_entry = ?12, first_moment = ?13, last_completion = ?14, entries = ?15, heard = ?16, arrivals = ?17, awake = ?18 WHERE id = ?1",
    "INSERT INTO entry VALUES (?1, ?2, ?3, ?4, ?5, ?6, ?7, ?8, ?9)",
    "INSERT INTO sleep VALUES (?1, ?2, ?3)",
    "DELETE FROM sleep WHERE invocation = ?1",
    "DELETE FROM sleep WHERE moment <= ?1",
    "SELECT * FROM state WHERE object = ?1 AND key = ?2",
    "DELETE FROM state WHERE object = ?1 AND key = ?2",
    "INSERT INTO state VALUES (?1, ?2, ?3)",
    "SELECT * FROM entry WHERE invocation = ?1 AND arrival > ?2 ORDER BY arrival",
    "SELECT id FROM invocation WHERE awake = ?1 ORDER BY id",
};

static const char *const SCHEMA[] = {
    "CREATE TABLE entry (invocation TEXT NOT NULL, place INTEGER NOT NULL, kind INTEGER NOT NULL, payload BLOB NOT NULL, completion INTEGER, second_completion INTEGER, answered INTEGER, arrival INTEGER, moment INTEGER NOT NULL) STRICT",
    "CREATE TABLE invocation (id TEXT NOT NULL UNIQUE, object TEXT NOT NULL, version INTEGER NOT NULL, seed INTEGER NOT NULL, mode INTEGER NOT NULL, open_object TEXT, suspension BLOB, handed INTEGER, closing INTEGER, answer BLOB, error_code INTEGER, error_behavior INTEGER, error_delay INTEGER, error_message TEXT, attempts INTEGER NOT NULL, attempts_since_entry INTEGER NOT NULL, first_moment INTEGER NOT NULL, last_completion INTEGER NOT NULL, entries INTEGER NOT NULL, heard INTEGER, arrivals INTEGER NOT NULL, awake INTEGER NOT NULL) STRICT",
    "CREATE TABLE meta (name TEXT NOT NULL, version INTEGER NOT NULL) STRICT",
    "CREATE TABLE sleep (moment INTEGER NOT NULL, invocation TEXT NOT NULL, completion INTEGER NOT NULL) STRICT",
    "CREATE TABLE state (object TEXT NOT NULL, key BLOB NOT NULL, value BLOB NOT NULL, UNIQUE (object, key)) STRICT",
    "CREATE INDEX invocation_by_open_object ON invocation (open_object)",
    "CREATE INDEX invocation_by_awake ON invocation (awake)",
    "CREATE INDEX entry_by_place ON entry (invocation, place)",
    "CREATE INDEX entry_by_completion ON entry (invocation, completion)",
    "CREATE INDEX entry_by_second_completion ON entry (invocation, second_completion)",
    "CREATE INDEX entry_by_answered ON entry (invocation, answered)",
    "CREATE INDEX entry_by_arrival ON entry (invocation, arrival)",
    "CREATE INDEX sleep_by_invocation ON sleep (invocation, completion)",
    "CREATE INDEX sleep_by_moment ON sleep (moment)",
    "INSERT INTO meta VALUES ('journal_store', 1)",
};

/* As the library has it: a file is held by one process alone, with a log beside it, and each commit is on the disk. Of `:memory:` the
 * stock library makes no log, whatever is set: it keeps the pages as they were until the commit, which writes nothing then. */
static const char *const SETTINGS[] = {
    "PRAGMA foreign_keys = ON",
    "PRAGMA locking_mode = EXCLUSIVE",
    "PRAGMA journal_mode = WAL",
    "PRAGMA synchronous = FULL",
};

static sqlite3 *database;
static sqlite3_stmt *statements[STATEMENTS];

/* Payloads: of an input, a sleep, a call, a call's answer, a sleep's end and an output. */
static const unsigned char INPUT[] = "\x72\x00";
static const unsigned char SLEEP[] = "\x08\xe8\x07\x58\x01";
static const unsigned char CALL[] = "\x0a\x03svc\x12\x01h\x50\x01\x58\x02";
static const unsigned char ANSWER[] = "\x08\x01\x2a\x04\x0a\x02ok";
static const unsigned char SLEEP_END[] = "\x08\x01\x22\x00";
static const unsigned char OUTPUT[] = "\x72\x04\x0a\x02ok";

/* Of a set, of a read that is known, of one that is asked for and of its answer, each of a key of four digits; and a value. */
static const unsigned char SET[] = "\x0a\x04" "1234" "\x1a\x12\x0a\x10sixteen bytes...";
static const unsigned char EAGER_READ[] = "\x0a\x04" "1234" "\x72\x12\x0a\x10sixteen bytes...";
static const unsigned char LAZY_READ[] = "\x0a\x04" "1234" "\x58\x01";
static const unsigned char READ_ANSWER[] = "\x08\x01\x2a\x12\x0a\x10sixteen bytes...";
static const unsigned char VALUE[] = "sixteen bytes...";

/* Of a run, of its outcome, and of a suspension that waits for the answer of a call. */
static const unsigned char RUN[] = "\x58\x01\x62\x01r";
static const unsigned char OUTCOME[] = "\x08\x01\x2a\x00";
static const unsigned char SUSPENSION[] = "\x0a\x05\x0a\x01\x02\x28\x01";

/* When sleeps are over, in milliseconds. */
enum { MOMENT = 1000 };

/* How far an invocation is: what the store writes with each event. */
struct progress {
    char id[24];
    char object[24];
    int is_ended, has_answer, is_suspended, is_woken;
    uint32_t handed, attempts, since_entry, last_completion, entries, arrivals;
    uint64_t first_moment;
};

static void fail(const char *what) {
    fprintf(stderr, "%s: %s\n", what, sqlite3_errmsg(database));
    exit(1);
}

/* Microseconds: of the processor, or by the clock, as a disk is waited for. */
static double read_clock(clockid_t clock) {
    struct timespec time;
    clock_gettime(clock, &time);
    return time.tv_sec * 1e6 + time.tv_nsec / 1e3;
}

static inline double now(void) {
    return read_clock(CLOCK_PROCESS_CPUTIME_ID);
}

static void open_database(const char *path) {
    if (sqlite3_open_v2(path, &database, SQLITE_OPEN_READWRITE | SQLITE_OPEN_CREATE | SQLITE_OPEN_URI, NULL) != SQLITE_OK) fail("open");
    for (size_t i = 0; i < sizeof SETTINGS / sizeof SETTINGS[0]; i++)
        if (sqlite3_exec(database, SETTINGS[i], NULL, NULL, NULL) != SQLITE_OK) fail(SETTINGS[i]);
    for (size_t i = 0; i < sizeof SCHEMA / sizeof SCHEMA[0]; i++)
        if (sqlite3_exec(database, SCHEMA[i], NULL, NULL, NULL) != SQLITE_OK) fail(SCHEMA[i]);
    for (int i = 0; i < STATEMENTS; i++)
        if (sqlite3_prepare_v2(database, TEXTS[i], -1, &statements[i], NULL) != SQLITE_OK) fail(TEXTS[i]);
}

static void close_database(void) {
    for (int i = 0; i < STATEMENTS; i++) sqlite3_finalize(statements[i]);
    sqlite3_close(database);
}

static uint64_t seen;

/* Keeps a column as a value of its own: bytes are copied. */
static void keep(sqlite3_stmt *statement, int column) {
    switch (sqlite3_column_type(statement, column)) {
    case SQLITE_INTEGER:
        seen += (uint64_t)sqlite3_column_int64(statement, column);
        break;
    case SQLITE_TEXT:
    case SQLITE_BLOB: {
        const void *bytes = sqlite3_column_blob(statement, column);
        size_t len = (size_t)sqlite3_column_bytes(statement, column);
        if (len == 0) break;
        unsigned char *copy = malloc(len);
        if (copy == NULL) fail("malloc");
        memcpy(copy, bytes, len);
        seen += copy[0];
        free(copy);
        break;
    }
    }
}

/* Runs a statement to its end, and answers how many rows it shows. */
static int run(enum statement which) {
    sqlite3_stmt *statement = statements[which];
    int rows = 0, answer;
    while ((answer = sqlite3_step(statement)) == SQLITE_ROW) {
        int columns = sqlite3_column_count(statement);
        for (int i = 0; i < columns; i++) keep(statement, i);
        rows++;
    }
    if (answer != SQLITE_DONE) fail(TEXTS[which]);
    sqlite3_reset(statement);
    return rows;
}

static void text(enum statement which, int at, const char *value) {
    sqlite3_bind_text(statements[which], at, value, -1, SQLITE_STATIC);
}

static void number(enum statement which, int at, uint64_t value) {
    sqlite3_bind_int64(statements[which], at, (sqlite3_int64)value);
}

static int by_id(enum statement which, const char *id) {
    text(which, 1, id);
    return run(which);
}

static int by_number(enum statement which, const char *id, uint64_t value) {
    text(which, 1, id);
    number(which, 2, value);
    return run(which);
}

static void bind_progress(enum statement which, int at, const struct progress *p) {
    for (int i = 0; i < 9; i++) sqlite3_bind_null(statements[which], at + i);
    if (!p->is_ended) text(which, at, p->object);
    if (p->is_suspended) sqlite3_bind_blob(statements[which], at + 1, SUSPENSION, sizeof SUSPENSION - 1, SQLITE_STATIC);
    if (p->is_ended || p->is_suspended) number(which, at + 2, p->handed);
    if (p->is_ended) number(which, at + 3, 1);
    if (p->has_answer) sqlite3_bind_blob(statements[which], at + 4, OUTPUT, sizeof OUTPUT - 1, SQLITE_STATIC);
    number(which, at + 9, p->attempts);
    number(which, at + 10, p->since_entry);
    number(which, at + 11, p->first_moment);
    number(which, at + 12, p->last_completion);
    number(which, at + 13, p->entries);
    if (p->is_suspended) number(which, at + 14, 0);
    else sqlite3_bind_null(statements[which], at + 14);
    number(which, at + 15, p->arrivals);
    number(which, at + 16, !p->is_ended && (!p->is_suspended || p->is_woken));
}

static void set_progress(const struct progress *p) {
    text(SET_PROGRESS, 1, p->id);
    bind_progress(SET_PROGRESS, 2, p);
    run(SET_PROGRESS);
}

static void add_entry(const struct progress *p, uint32_t place, uint32_t kind, const unsigned char *payload, int len, uint32_t completion, uint32_t second, uint32_t answered, uint32_t arrival) {
    text(ADD_ENTRY, 1, p->id);
    number(ADD_ENTRY, 2, place);
    number(ADD_ENTRY, 3, kind);
    sqlite3_bind_blob(statements[ADD_ENTRY], 4, payload, len, SQLITE_STATIC);
    uint32_t ids[4] = {completion, second, answered, arrival};
    for (int i = 0; i < 4; i++) {
        if (ids[i] != 0) number(ADD_ENTRY, 5 + i, ids[i]);
        else sqlite3_bind_null(statements[ADD_ENTRY], 5 + i);
    }
    number(ADD_ENTRY, 9, kind == 0x040c ? MOMENT : 0);
    run(ADD_ENTRY);
}

static void invoke(struct progress *p, uint64_t which) {
    memset(p, 0, sizeof *p);
    snprintf(p->id, sizeof p->id, "inv-%llu", (unsigned long long)which);
    snprintf(p->object, sizeof p->object, "o-%llu", (unsigned long long)which);
    p->entries = 1;
    by_id(OPEN_INVOCATION, p->object);
    by_id(INVOCATION_BY_ID, p->id);
    run(BEGIN);
    text(ADD_INVOCATION, 1, p->id);
    text(ADD_INVOCATION, 2, p->object);
    number(ADD_INVOCATION, 3, 7);
    number(ADD_INVOCATION, 4, 42);
    number(ADD_INVOCATION, 5, 1);
    bind_progress(ADD_INVOCATION, 6, p);
    run(ADD_INVOCATION);
    add_entry(p, 0, 0x0400, INPUT, sizeof INPUT - 1, 0, 0, 0, 0);
    run(COMMIT);
}

static void begin(struct progress *p) {
    by_id(INVOCATION_BY_ID, p->id);
    by_id(STATES, p->object);
    by_id(JOURNAL, p->id);
    if (p->since_entry == 0) p->first_moment = MOMENT;
    p->attempts++;
    p->since_entry++;
    run(BEGIN);
    set_progress(p);
    run(COMMIT);
}

/* A sleep, which is open then. */
static void open_sleep(struct progress *p) {
    number(OPEN_SLEEP, 1, MOMENT);
    text(OPEN_SLEEP, 2, p->id);
    number(OPEN_SLEEP, 3, p->last_completion);
    run(OPEN_SLEEP);
}

/* One more entry behind the others, and of a sleep that it is open. */
static void record(struct progress *p, uint32_t kind, const unsigned char *payload, int len, uint32_t completion, uint32_t second, uint32_t answered) {
    run(BEGIN);
    if (answered != 0) p->arrivals++;
    add_entry(p, p->entries, kind, payload, len, completion, second, answered, answered != 0 ? p->arrivals : 0);
    p->entries++;
    p->since_entry = 0;
    p->first_moment = 0;
    set_progress(p);
    if (kind == 0x040c) open_sleep(p);
    run(COMMIT);
}

static void step_sleep(struct progress *p) {
    by_id(INVOCATION_BY_ID, p->id);
    p->last_completion++;
    record(p, 0x040c, SLEEP, sizeof SLEEP - 1, p->last_completion, 0, 0);
}

static void step_call(struct progress *p) {
    by_id(INVOCATION_BY_ID, p->id);
    p->last_completion += 2;
    record(p, 0x040d, CALL, sizeof CALL - 1, p->last_completion - 1, p->last_completion, 0);
}

/* What an attempt waits for is told, and nothing is written of it. */
static void step_awaiting_on(struct progress *p) {
    by_id(INVOCATION_BY_ID, p->id);
}

/* An attempt waits for the answer of a call, and is over. */
static void step_suspension(struct progress *p) {
    by_id(INVOCATION_BY_ID, p->id);
    by_number(ARRIVALS_AFTER, p->id, 0);
    p->is_suspended = 1;
    p->handed = p->entries;
    run(BEGIN);
    set_progress(p);
    run(COMMIT);
}

/* The invocations of which an attempt may go on. */
static int due(void) {
    number(AWAKE, 1, 1);
    return run(AWAKE);
}

static void step_run(struct progress *p) {
    by_id(INVOCATION_BY_ID, p->id);
    p->last_completion++;
    record(p, 0x0410, RUN, sizeof RUN - 1, p->last_completion, 0, 0);
}

/* The outcome of the last run. */
static void step_outcome(struct progress *p) {
    by_id(INVOCATION_BY_ID, p->id);
    by_number(ENTRY_BY_ANSWERED, p->id, p->last_completion);
    by_number(ENTRY_BY_COMPLETION, p->id, p->last_completion);
    record(p, 0x8010, OUTCOME, sizeof OUTCOME - 1, 0, 0, p->last_completion);
}

/* The result of a call, which is its second completion. */
static void result(struct progress *p, uint32_t completion) {
    by_id(INVOCATION_BY_ID, p->id);
    by_number(ENTRY_BY_ANSWERED, p->id, completion);
    if (by_number(ENTRY_BY_COMPLETION, p->id, completion) == 0) by_number(ENTRY_BY_SECOND_COMPLETION, p->id, completion);
    if (p->is_suspended) by_number(ARRIVALS_AFTER, p->id, 0);
    p->is_woken = 1;
    record(p, 0x800d, ANSWER, sizeof ANSWER - 1, 0, 0, completion);
}

static void step_output(struct progress *p) {
    by_id(INVOCATION_BY_ID, p->id);
    p->has_answer = 1;
    record(p, 0x0401, OUTPUT, sizeof OUTPUT - 1, 0, 0, 0);
}

/* A statement of a key of an object's state. */
static void by_key(enum statement which, const struct progress *p, uint32_t key) {
    char digits[16];
    int len = snprintf(digits, sizeof digits, "%u", key);
    text(which, 1, p->object);
    sqlite3_bind_blob(statements[which], 2, digits, len, SQLITE_TRANSIENT);
    run(which);
}

static void step_set(struct progress *p, uint32_t key) {
    by_id(INVOCATION_BY_ID, p->id);
    run(BEGIN);
    add_entry(p, p->entries, 0x0403, SET, sizeof SET - 1, 0, 0, 0, 0);
    p->entries++;
    p->since_entry = 0;
    p->first_moment = 0;
    set_progress(p);
    by_key(DROP_STATE, p, key);
    sqlite3_bind_blob(statements[ADD_STATE], 3, VALUE, sizeof VALUE - 1, SQLITE_STATIC);
    by_key(ADD_STATE, p, key);
    run(COMMIT);
}

static void step_eager_read(struct progress *p) {
    by_id(INVOCATION_BY_ID, p->id);
    record(p, 0x0407, EAGER_READ, sizeof EAGER_READ - 1, 0, 0, 0);
}

/* Its answer is recorded with it. */
static void step_lazy_read(struct progress *p, uint32_t key) {
    by_id(INVOCATION_BY_ID, p->id);
    by_key(STATE, p, key);
    run(BEGIN);
    p->last_completion++;
    p->arrivals++;
    add_entry(p, p->entries, 0x0402, LAZY_READ, sizeof LAZY_READ - 1, p->last_completion, 0, 0, 0);
    add_entry(p, p->entries + 1, 0x8002, READ_ANSWER, sizeof READ_ANSWER - 1, 0, 0, p->last_completion, p->arrivals);
    p->entries += 2;
    p->since_entry = 0;
    p->first_moment = 0;
    set_progress(p);
    run(COMMIT);
}

static void step_end(struct progress *p) {
    by_id(INVOCATION_BY_ID, p->id);
    p->is_ended = 1;
    p->handed = p->entries;
    run(BEGIN);
    set_progress(p);
    by_id(CLOSE_SLEEPS, p->id);
    run(COMMIT);
}

/* The sleeps that are due are over: all that are open, which are those of this invocation, its first completions. */
static void tick(struct progress *p) {
    number(SLEEPS_UNTIL, 1, MOMENT);
    uint32_t ended = (uint32_t)run(SLEEPS_UNTIL);
    by_id(INVOCATION_BY_ID, p->id);
    run(BEGIN);
    for (uint32_t i = 0; i < ended; i++)
        add_entry(p, p->entries + i, 0x800c, SLEEP_END, sizeof SLEEP_END - 1, 0, 0, i + 1, p->arrivals + i + 1);
    p->entries += ended;
    p->arrivals += ended;
    p->since_entry = 0;
    p->first_moment = 0;
    set_progress(p);
    number(CLOSE_SLEEPS_UNTIL, 1, MOMENT);
    run(CLOSE_SLEEPS_UNTIL);
    run(COMMIT);
}

#endif
