/* The same work as `bench_rows` by the stock SQLite library: `rows FILE ROWS` makes the three tables in a new file, appends
   so many rows to the journal, each in a transaction of its own that is durable when it returns (WAL, synchronous FULL),
   closes the file, opens it again and reads all rows in the order of their keys. Prints both times in microseconds. */
#include <sqlite3.h>
#include <stdio.h>
#include <stdlib.h>
#include <time.h>

static long micros(struct timespec a, struct timespec b) {
    return (b.tv_sec - a.tv_sec) * 1000000L + (b.tv_nsec - a.tv_nsec) / 1000;
}

static void must(int ok, const char *what) {
    if (!ok) {
        fprintf(stderr, "%s\n", what);
        exit(1);
    }
}

static void run(sqlite3 *db, const char *sql) {
    must(sqlite3_exec(db, sql, 0, 0, 0) == SQLITE_OK, sql);
}

static long read_all(sqlite3 *db, const char *sql) {
    sqlite3_stmt *s;
    long rows = 0, sum = 0;
    must(sqlite3_prepare_v2(db, sql, -1, &s, 0) == SQLITE_OK, sql);
    while (sqlite3_step(s) == SQLITE_ROW) {
        for (int i = 0; i < sqlite3_column_count(s); i++)
            sum += sqlite3_column_type(s, i) == SQLITE_INTEGER ? sqlite3_column_int64(s, i) : sqlite3_column_bytes(s, i);
        rows++;
    }
    sqlite3_finalize(s);
    must(sum >= 0, "sum");
    return rows;
}

#define NUMBER(name) name " INTEGER NOT NULL CHECK (" name " BETWEEN 0 AND 4294967295)"

int main(int argc, char **argv) {
    sqlite3 *db;
    sqlite3_stmt *s;
    struct timespec a, b;
    long count, append, load, rows;
    must(argc == 3, "usage: rows FILE ROWS");
    count = atol(argv[2]);
    must(sqlite3_open(argv[1], &db) == SQLITE_OK, "open");
    run(db, "PRAGMA journal_mode = WAL");
    run(db, "PRAGMA synchronous = FULL");
    clock_gettime(CLOCK_MONOTONIC, &a);
    run(db, "CREATE TABLE meta(item INTEGER PRIMARY KEY CHECK (item BETWEEN 0 AND 4294967295), body BLOB NOT NULL) STRICT");
    run(db, "CREATE TABLE mutations(number INTEGER PRIMARY KEY CHECK (number BETWEEN 0 AND 4294967295), place BLOB NOT NULL) STRICT");
    run(db, "CREATE TABLE journal(seq INTEGER PRIMARY KEY CHECK (seq BETWEEN 0 AND 4294967295), " NUMBER("mutation") ", "
            NUMBER("test") ", " NUMBER("word") ", " NUMBER("mark") ", " NUMBER("tags") ", UNIQUE(mutation, test)) STRICT");
    run(db, "INSERT INTO meta VALUES (0, x'31')");
    run(db, "INSERT INTO mutations VALUES (0, x'696e76')");
    must(sqlite3_prepare_v2(db, "INSERT INTO journal VALUES (?1, ?2, ?3, ?4, ?5, ?6)", -1, &s, 0) == SQLITE_OK, "prepare");
    for (long i = 0; i < count; i++) {
        sqlite3_bind_int64(s, 1, i);
        sqlite3_bind_int64(s, 2, i);
        sqlite3_bind_int64(s, 3, 0);
        sqlite3_bind_int64(s, 4, 1);
        sqlite3_bind_int64(s, 5, 1);
        sqlite3_bind_int64(s, 6, 1);
        must(sqlite3_step(s) == SQLITE_DONE, "insert");
        sqlite3_reset(s);
    }
    clock_gettime(CLOCK_MONOTONIC, &b);
    append = micros(a, b);
    sqlite3_finalize(s);
    sqlite3_close(db);
    clock_gettime(CLOCK_MONOTONIC, &a);
    must(sqlite3_open(argv[1], &db) == SQLITE_OK, "open");
    read_all(db, "SELECT item, body FROM meta ORDER BY item");
    read_all(db, "SELECT number, place FROM mutations ORDER BY number");
    rows = read_all(db, "SELECT seq, mutation, test, word, mark, tags FROM journal ORDER BY seq");
    clock_gettime(CLOCK_MONOTONIC, &b);
    load = micros(a, b);
    sqlite3_close(db);
    printf("append %ld load %ld rows %ld\n", append, load, rows);
    return 0;
}
