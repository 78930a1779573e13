/* What a shop would use instead of the rack: LMDB without syncing, and SQLite in memory. Each holds two copies of 64
 * pages of 32 prices, one record for each page of each copy. Timed in turn: a release of forty prices, on the rack an
 * opening and all its steps in one call, on the others one transaction on both copies; one page read; all pages read.
 * Prints a table. */
#define _POSIX_C_SOURCE 200809L
#include "../include/bandsawpink.h"
#include <lmdb.h>
#include <sqlite3.h>
#include <stdint.h>
#include <stdio.h>
#include <stdlib.h>
#include <string.h>
#include <time.h>
#include <unistd.h>

enum { CARDS = RACK_MAX_CARDS, PAGES = RACK_MAX_PAGES, WORDS = RACK_PAGE_WORDS, PRICES = 40, ROUNDS = 201, RUNS = 40 };
enum { FEW_CARDS = 3, FEW_PAGES = 4 };

static void check(int failed, const char *what) {
    if (failed) {
        fprintf(stderr, "rivals: %s\n", what);
        exit(1);
    }
}

static double now(void) {
    struct timespec t;
    clock_gettime(CLOCK_MONOTONIC, &t);
    return (double)t.tv_sec * 1e9 + (double)t.tv_nsec;
}

static int ascending(const void *a, const void *b) {
    double x = *(const double *)a, y = *(const double *)b;
    return (x > y) - (x < y);
}

typedef void work(uint32_t turn);

/* The median of all rounds, and the distance between the quartiles. */
struct time {
    double median, spread;
};

static struct time summed_up(double *times) {
    qsort(times, ROUNDS, sizeof times[0], ascending);
    return (struct time){times[ROUNDS / 2], times[3 * ROUNDS / 4] - times[ROUNDS / 4]};
}

/* The rack, LMDB and SQLite in turn, and how many times the rack's time the others take. */
static void row(const char *name, work *rack, work *lmdb, work *sqlite) {
    static double times[3][ROUNDS];
    work *const all[] = {rack, lmdb, sqlite};
    uint32_t turns[] = {0, 0, 0};
    for (int round = 0; round < ROUNDS; round++)
        for (int which = 0; which < 3; which++) {
            double start = now();
            for (int i = 0; i < RUNS; i++) all[which](turns[which]++);
            times[which][round] = (now() - start) / RUNS;
        }
    struct time first = summed_up(times[0]);
    printf("| %s | %.0f | %.0f |", name, first.median, first.spread);
    for (int which = 1; which < 3; which++) {
        struct time other = summed_up(times[which]);
        printf(" %.0f | %.0f | %.1f |", other.median, other.spread, other.median / first.median);
    }
    printf("\n");
}

static uint32_t page_words[WORDS];

/* A release of forty prices: label at * stride + first for each. */
struct release {
    int stride, first;
};

static const struct release on_2_pages = {1, 0};      /* page 0 whole, and 8 words of page 1 */
static const struct release on_40_pages = {WORDS, 5}; /* word 5 of each page */

static int page_of(const struct release *release, int at) { return (at * release->stride + release->first) / WORDS; }

/* Changes the prices of one page, of which the first is the release's at-th. Gives the first of the next page. */
static int change(const struct release *release, int at, uint32_t price) {
    int page = page_of(release, at);
    for (; at < PRICES && page_of(release, at) == page; at++)
        page_words[(at * release->stride + release->first) % WORDS] = price;
    return at;
}

/* ---- the rack: 8 cards and 64 pages, and 3 cards and 4 pages */

static uint32_t large[RACK_MEMORY_WORDS(CARDS, PAGES)], small[RACK_MEMORY_WORDS(FEW_CARDS, FEW_PAGES)];
static rack_directory large_directory, small_directory;
static const size_t large_words = RACK_MEMORY_WORDS(CARDS, PAGES);
static const size_t small_words = RACK_MEMORY_WORDS(FEW_CARDS, FEW_PAGES);

static void accepted(uint32_t number, const char *call) { check(number != RACK_ACCEPTED, call); }

/* The list of a release: a page word, a run word and the prices of each page, and the end word. Gives its length. */
static size_t list_of(const struct release *release, uint32_t *list, uint32_t price) {
    size_t words = 0;
    for (int at = 0; at < PRICES;) {
        int start = at, page = page_of(release, at);
        while (at < PRICES && page_of(release, at) == page) at++;
        int offset = (start * release->stride + release->first) % WORDS;
        list[words++] = 0x10000000u | (uint32_t)page;
        list[words++] = 0x20000000u | (uint32_t)offset << 16 | (uint32_t)(at - start);
        for (int i = start; i < at; i++) list[words++] = price;
    }
    list[words] = 0xF0000000u | (uint32_t)words;
    return words + 1;
}

static void rack_release(const struct release *release, uint32_t price) {
    static uint64_t number;
    static const uint32_t desk[RACK_DESK_WORDS];
    uint32_t list[RACK_LIST_WORDS];
    size_t words = list_of(release, list, price);
    accepted(rack_open(large, large_words, &large_directory, 0, ++number, desk, list, words).number, "rack_open");
    accepted(rack_steps(large, large_words, &large_directory, 0, 4 * PRICES + 11).number, "rack_steps");
}

static void rack_release_2(uint32_t turn) { rack_release(&on_2_pages, turn); }

static void rack_release_40(uint32_t turn) { rack_release(&on_40_pages, turn); }

static void rack_read(uint32_t turn) {
    rack_answer answer = rack_fetch(large, large_words, &large_directory, turn % PAGES, page_words, WORDS);
    accepted(answer.number, "rack_fetch");
}

static void rack_read_small(uint32_t turn) {
    rack_answer answer = rack_fetch(small, small_words, &small_directory, turn % FEW_PAGES, page_words, WORDS);
    accepted(answer.number, "rack_fetch");
}

static void rack_read_all(uint32_t turn) {
    static uint32_t pages[PAGES * WORDS];
    (void)turn;
    accepted(rack_fetch_all(large, large_words, &large_directory, pages, PAGES * WORDS).number, "rack_fetch_all");
}

static void rack(void) {
    accepted(rack_format(large, large_words, CARDS, PAGES, &large_directory).number, "rack_format");
    accepted(rack_format(small, small_words, FEW_CARDS, FEW_PAGES, &small_directory).number, "rack_format");
}

/* ---- LMDB */

static MDB_env *env;
static MDB_dbi dbi;
static MDB_txn *reading;

static uint32_t key_of(int copy, int page) { return (uint32_t)(copy << 8 | page); }

static void put(MDB_txn *txn, int copy, int page) {
    uint32_t key = key_of(copy, page);
    MDB_val k = {sizeof key, &key}, v = {sizeof page_words, page_words};
    check(mdb_put(txn, dbi, &k, &v, 0), "mdb_put");
}

static void get(MDB_txn *txn, int copy, int page) {
    uint32_t key = key_of(copy, page);
    MDB_val k = {sizeof key, &key}, v;
    check(mdb_get(txn, dbi, &k, &v), "mdb_get");
    memcpy(page_words, v.mv_data, sizeof page_words);
}

static void lmdb_release(const struct release *release, uint32_t price) {
    MDB_txn *txn;
    check(mdb_txn_begin(env, NULL, 0, &txn), "mdb_txn_begin");
    for (int copy = 0; copy < 2; copy++)
        for (int at = 0; at < PRICES;) {
            int page = page_of(release, at);
            get(txn, copy, page);
            at = change(release, at, price);
            put(txn, copy, page);
        }
    check(mdb_txn_commit(txn), "mdb_txn_commit");
}

static void lmdb_release_2(uint32_t turn) { lmdb_release(&on_2_pages, turn); }

static void lmdb_release_40(uint32_t turn) { lmdb_release(&on_40_pages, turn); }

static void lmdb_read(uint32_t turn) {
    check(mdb_txn_renew(reading), "mdb_txn_renew");
    get(reading, 0, (int)(turn % PAGES));
    mdb_txn_reset(reading);
}

static void lmdb_read_all(uint32_t turn) {
    (void)turn;
    check(mdb_txn_renew(reading), "mdb_txn_renew");
    for (int page = 0; page < PAGES; page++) get(reading, 0, page);
    mdb_txn_reset(reading);
}

static char folder[] = "out/rivals.XXXXXX", file[64];

static void lmdb(void) {
    MDB_txn *txn;
    check(mkdtemp(folder) == NULL, "mkdtemp");
    snprintf(file, sizeof file, "%s/rack", folder);
    check(mdb_env_create(&env), "mdb_env_create");
    check(mdb_env_set_mapsize(env, 1 << 26), "mdb_env_set_mapsize");
    check(mdb_env_open(env, file, MDB_NOSYNC | MDB_NOSUBDIR, 0600), "mdb_env_open");
    check(mdb_txn_begin(env, NULL, 0, &txn), "mdb_txn_begin");
    check(mdb_dbi_open(txn, NULL, MDB_INTEGERKEY, &dbi), "mdb_dbi_open");
    for (int copy = 0; copy < 2; copy++)
        for (int page = 0; page < PAGES; page++) put(txn, copy, page);
    check(mdb_txn_commit(txn), "mdb_txn_commit");
    check(mdb_txn_begin(env, NULL, MDB_RDONLY, &reading), "mdb_txn_begin");
    mdb_txn_reset(reading);
}

static void lmdb_over(void) {
    mdb_txn_abort(reading);
    mdb_env_close(env);
    unlink(file);
    strcat(file, "-lock");
    unlink(file);
    rmdir(folder);
}

/* ---- SQLite */

static sqlite3 *db;
static sqlite3_stmt *insert, *selecting, *selecting_all, *begin, *commit;

static sqlite3_stmt *prepared(const char *sql) {
    sqlite3_stmt *statement;
    check(sqlite3_prepare_v2(db, sql, -1, &statement, NULL), sql);
    return statement;
}

static void stepped(sqlite3_stmt *statement, int expected) {
    check(sqlite3_step(statement) != expected, "sqlite3_step");
}

static void bind(sqlite3_stmt *statement, int copy, int page) {
    sqlite3_bind_int(statement, 1, (int)key_of(copy, page));
}

static void sqlite_put(int copy, int page) {
    bind(insert, copy, page);
    sqlite3_bind_blob(insert, 2, page_words, sizeof page_words, SQLITE_STATIC);
    stepped(insert, SQLITE_DONE);
    sqlite3_reset(insert);
}

static void sqlite_get(int copy, int page) {
    bind(selecting, copy, page);
    stepped(selecting, SQLITE_ROW);
    memcpy(page_words, sqlite3_column_blob(selecting, 0), sizeof page_words);
    sqlite3_reset(selecting);
}

static void sqlite_release(const struct release *release, uint32_t price) {
    stepped(begin, SQLITE_DONE);
    sqlite3_reset(begin);
    for (int copy = 0; copy < 2; copy++)
        for (int at = 0; at < PRICES;) {
            int page = page_of(release, at);
            sqlite_get(copy, page);
            at = change(release, at, price);
            sqlite_put(copy, page);
        }
    stepped(commit, SQLITE_DONE);
    sqlite3_reset(commit);
}

static void sqlite_release_2(uint32_t turn) { sqlite_release(&on_2_pages, turn); }

static void sqlite_release_40(uint32_t turn) { sqlite_release(&on_40_pages, turn); }

static void sqlite_read(uint32_t turn) { sqlite_get(0, (int)(turn % PAGES)); }

static void sqlite_read_all(uint32_t turn) {
    (void)turn;
    for (int page = 0; page < PAGES; page++) {
        stepped(selecting_all, SQLITE_ROW);
        memcpy(page_words, sqlite3_column_blob(selecting_all, 0), sizeof page_words);
    }
    stepped(selecting_all, SQLITE_DONE);
    sqlite3_reset(selecting_all);
}

static void sqlite(void) {
    check(sqlite3_open(":memory:", &db), "sqlite3_open");
    check(sqlite3_exec(db, "create table page (id integer primary key, words blob)", NULL, NULL, NULL), "create");
    insert = prepared("insert or replace into page values (?, ?)");
    selecting = prepared("select words from page where id = ?");
    selecting_all = prepared("select words from page where id < 64");
    begin = prepared("begin");
    commit = prepared("commit");
    for (int copy = 0; copy < 2; copy++)
        for (int page = 0; page < PAGES; page++) sqlite_put(copy, page);
}

static void sqlite_over(void) {
    sqlite3_finalize(insert);
    sqlite3_finalize(selecting);
    sqlite3_finalize(selecting_all);
    sqlite3_finalize(begin);
    sqlite3_finalize(commit);
    sqlite3_close(db);
}

int main(void) {
    rack();
    lmdb();
    sqlite();
    printf("Instead of the rack, in nanoseconds; \"times\" is the time over that of the rack:\n\n"
           "| work | rack | spread | LMDB without sync | spread | times | SQLite in memory | spread | times |\n"
           "|---|---|---|---|---|---|---|---|---|\n");
    row("release of 40 prices on 2 pages, 8 × 64", rack_release_2, lmdb_release_2, sqlite_release_2);
    row("release of 40 prices on 40 pages, 8 × 64", rack_release_40, lmdb_release_40, sqlite_release_40);
    row("one page read, 8 × 64", rack_read, lmdb_read, sqlite_read);
    row("one page read, rack of 3 × 4", rack_read_small, lmdb_read, sqlite_read);
    row("all 64 pages read, 8 × 64", rack_read_all, lmdb_read_all, sqlite_read_all);
    lmdb_over();
    sqlite_over();
    return 0;
}
