// What SQLite's own C library needs for the rows of entries: the tables of a desk by the texts of its store, a batch of three
// rows for each entry (the request, its move, a tally), in memory or in a file, and at the end how many requests stand at
// Entered, read from the tallies.
//
// bench_sqlite PATH COUNT TEXT..: PATH is `:memory:` or a file that is not there yet, and each TEXT is one of tc_store's,
// which tools/bench/bench.sh reads from its source. A file is written through a log with a sync at each commit, as tc_store
// does. Each text is compiled once. `bench_sqlite version` prints the library's version.
#include <sqlite3.h>
#include <stdio.h>
#include <stdlib.h>
#include <string.h>

enum { PROCESSES = 10, SEQUENCE_COUNTS = 16384, PLACES = 15, ENTERED = 1, ENTER = 1 };

static const char *const TALLY = "INSERT OR REPLACE INTO tally ";

static sqlite3 *db;

static void check(int status, int wanted) {
    if (status != wanted) {
        fprintf(stderr, "bench_sqlite: %s\n", db == NULL ? "no database" : sqlite3_errmsg(db));
        exit(1);
    }
}

static void execute(const char *text) { check(sqlite3_exec(db, text, NULL, NULL, NULL), SQLITE_OK); }

static sqlite3_stmt *compiled(const char *text) {
    sqlite3_stmt *made = NULL;
    check(sqlite3_prepare_v3(db, text, -1, SQLITE_PREPARE_PERSISTENT, &made, NULL), SQLITE_OK);
    return made;
}

// The first text that begins so: of those that put a request, the one that enters it.
static const char *text_of(char **texts, const char *begins) {
    for (; *texts != NULL; texts++) {
        if (strncmp(*texts, begins, strlen(begins)) == 0) {
            return *texts;
        }
    }
    fprintf(stderr, "bench_sqlite: no text begins with %s\n", begins);
    exit(1);
}

static void run(sqlite3_stmt *statement) {
    check(sqlite3_step(statement), SQLITE_DONE);
    check(sqlite3_reset(statement), SQLITE_OK);
}

static void bind_numbers(sqlite3_stmt *statement, const int *numbers, int count) {
    for (int at = 0; at < count; at++) {
        check(sqlite3_bind_int(statement, at + 1, numbers[at]), SQLITE_OK);
    }
}

static void bind_text(sqlite3_stmt *statement, int at, const char *text) {
    check(sqlite3_bind_text(statement, at, text, -1, SQLITE_STATIC), SQLITE_OK);
}

// The row of the request at this place of the list, from 0.
static void put_request(sqlite3_stmt *statement, int place) {
    const int apid = place % PROCESSES, count = place / PROCESSES % SEQUENCE_COUNTS;
    // num, apid, cnt, ack, critical, service, subtype, target, at_time; then outcome, author, stack, line, prior and place
    const int numbers[] = {place + 1, apid, count, 0, 0, 8, 1, 0, 0};
    bind_numbers(statement, numbers, 9);
    bind_text(statement, 10, "ok");
    bind_text(statement, 11, "a");
    // no stack: its name is empty, its line and the line that has to be completed before are 0
    bind_text(statement, 12, "");
    check(sqlite3_bind_int(statement, 13, 0), SQLITE_OK);
    check(sqlite3_bind_int(statement, 14, 0), SQLITE_OK);
    check(sqlite3_bind_int(statement, 15, ENTERED), SQLITE_OK);
    run(statement);
}

// The row of its first move.
static void put_move(sqlite3_stmt *statement, int place) {
    // seq, request, from_place, to_place, cause; then person and moment
    const int numbers[] = {place + 1, place + 1, 0, ENTERED, ENTER};
    bind_numbers(statement, numbers, 5);
    bind_text(statement, 6, "a");
    check(sqlite3_bind_int(statement, 7, 0), SQLITE_OK);
    run(statement);
}

// The tally of a place.
static void put_tally(sqlite3_stmt *statement, int place, int amount) {
    const int numbers[] = {place, amount};
    bind_numbers(statement, numbers, 2);
    run(statement);
}

// A tally of 0 for each place.
static void put_tallies(char **texts) {
    sqlite3_stmt *tally = compiled(text_of(texts, TALLY));
    for (int place = 1; place <= PLACES; place++) {
        put_tally(tally, place, 0);
    }
    sqlite3_finalize(tally);
}

static void write_entries(char **texts, int count) {
    sqlite3_stmt *begin = compiled("BEGIN"), *commit = compiled("COMMIT");
    sqlite3_stmt *request = compiled(text_of(texts, "INSERT INTO request "));
    sqlite3_stmt *move = compiled(text_of(texts, "INSERT INTO move "));
    sqlite3_stmt *tally = compiled(text_of(texts, TALLY));
    if (sqlite3_bind_parameter_count(request) != 15 || sqlite3_bind_parameter_count(move) != 7) {
        fprintf(stderr, "bench_sqlite: tc_store's rows are not those that stand here\n");
        exit(1);
    }
    for (int place = 0; place < count; place++) {
        run(begin);
        put_request(request, place);
        put_move(move, place);
        put_tally(tally, ENTERED, place + 1);
        run(commit);
    }
    sqlite3_stmt *all[] = {begin, commit, request, move, tally};
    for (int at = 0; at < 5; at++) {
        sqlite3_finalize(all[at]);
    }
}

// How many requests stand at Entered: the first of the tallies.
static int entered(char **texts) {
    sqlite3_stmt *tallies = compiled(text_of(texts, "SELECT amount FROM tally "));
    check(sqlite3_step(tallies), SQLITE_ROW);
    int found = sqlite3_column_int(tallies, 0);
    sqlite3_finalize(tallies);
    return found;
}

int main(int argc, char **argv) {
    if (argc == 2 && strcmp(argv[1], "version") == 0) {
        printf("%s\n", sqlite3_libversion());
        return 0;
    }
    if (argc < 4) {
        fprintf(stderr, "bench_sqlite: wants a path, a count and texts\n");
        return 1;
    }
    char **texts = argv + 3;
    check(sqlite3_open(argv[1], &db), SQLITE_OK);
    execute("PRAGMA journal_mode = WAL; PRAGMA synchronous = FULL; BEGIN");
    for (char **text = texts; *text != NULL; text++) {
        if (strncmp(*text, "CREATE", 6) == 0) {
            execute(*text);
        }
    }
    execute(text_of(texts, "INSERT INTO meta "));
    put_tallies(texts);
    execute("COMMIT");
    write_entries(texts, atoi(argv[2]));
    printf("%d\n", entered(texts));
    check(sqlite3_close(db), SQLITE_OK);
    return 0;
}
