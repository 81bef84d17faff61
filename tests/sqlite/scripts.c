/*
 * Runs a script of SQL, a statement a line, in new connections that have the extension, and compares what its rows are and how it ends:
 * with each allocation refused in turn, which may also end it as memory being out, or by two threads at once.
 *
 * usage: scripts EXTENSION refused         prints `N refused, N bad`
 *        scripts EXTENSION threads TIMES   prints `N runs, N bad`
 */
#include "refused.h"

#include <pthread.h>
#include <sqlite3.h>
#include <stdio.h>
#include <string.h>

#define ROOM 65536
#define THREADS 2

static const char *extension;
static char script[ROOM];
static int times;

/* What a run gave: its rows and its error. */
struct run {
    char text[ROOM];
    size_t length;
    int status;
};

static int note_row(void *given, int count, char **fields, char **names)
{
    struct run *run = given;
    int at;
    (void)names;
    for (at = 0; at < count; at++) {
        run->length += (size_t)snprintf(run->text + run->length, ROOM - run->length, "%s%c", fields[at] == NULL ? "NULL" : fields[at],
                                        at + 1 < count ? '|' : '\n');
        run->length = run->length < ROOM ? run->length : ROOM - 1;
    }
    return 0;
}

/* Runs the script, with one allocation refused. Returns how many were asked for, or -1 where the connection can't be made or ended. */
static long run_once(struct run *run, long number)
{
    sqlite3 *connection;
    long count;
    run->length = 0;
    run->text[0] = '\0';
    if (sqlite3_open(":memory:", &connection) != SQLITE_OK || sqlite3_enable_load_extension(connection, 1) != SQLITE_OK ||
        sqlite3_load_extension(connection, extension, NULL, NULL) != SQLITE_OK) {
        return -1;
    }
    /* Without this SQLite serves small requests from a store of its own. */
    sqlite3_db_config(connection, SQLITE_DBCONFIG_LOOKASIDE, NULL, 0, 0);
    asked = 0;
    refused = number;
    run->status = sqlite3_exec(connection, script, note_row, run, NULL);
    refused = 0;
    count = asked;
    if (run->status != SQLITE_OK && run->status != SQLITE_NOMEM) {
        run->status = sqlite3_extended_errcode(connection);
        snprintf(run->text + run->length, ROOM - run->length, "%s", sqlite3_errmsg(connection));
    }
    return sqlite3_close(connection) == SQLITE_OK ? count : -1;
}

static bool is_out_of_memory(int status)
{
    return status == SQLITE_NOMEM || status == SQLITE_IOERR_NOMEM;
}

static bool is_same(const struct run *one, const struct run *other)
{
    return one->status == other->status && strcmp(one->text, other->text) == 0;
}

/* Refuses each allocation in turn, until none is left to refuse. */
static int refuse_all(void)
{
    static struct run wanted, found;
    long number = 0, count = run_once(&wanted, 0), bad = count < 0 || is_out_of_memory(wanted.status);
    bool is_met = true;
    while (is_met && bad < 10) {
        count = run_once(&found, ++number);
        is_met = count >= number;
        if (count < 0 || (!is_out_of_memory(found.status) && !is_same(&found, &wanted))) {
            printf("allocation %ld: %d %s\n", number, found.status, found.text);
            bad++;
        }
    }
    number -= !is_met;
    printf("%ld refused, %ld bad\n%s", number, bad, wanted.text);
    return bad != 0;
}

static struct run first_run;

static void *work(void *given)
{
    struct run *run = calloc(1, sizeof *run);
    long *bad = given;
    int time;
    for (time = 0; time < times; time++) {
        *bad += run == NULL || run_once(run, 0) < 0 || !is_same(run, &first_run);
    }
    free(run);
    return NULL;
}

static int run_threads(void)
{
    pthread_t threads[THREADS];
    long bad[THREADS] = { 0 };
    int at;
    run_once(&first_run, 0);
    for (at = 0; at < THREADS; at++) {
        pthread_create(&threads[at], NULL, work, &bad[at]);
    }
    for (at = 0; at < THREADS; at++) {
        pthread_join(threads[at], NULL);
    }
    printf("%d runs, %ld bad\n%s", THREADS * times, bad[0] + bad[1], first_run.text);
    return bad[0] + bad[1] != 0;
}

int main(int words, char **given)
{
    if (words < 3) {
        return 2;
    }
    extension = given[1];
    script[fread(script, 1, ROOM - 1, stdin)] = '\0';
    if (strcmp(given[2], "refused") == 0) {
        return refuse_all();
    }
    times = words > 3 ? atoi(given[3]) : 1;
    return run_threads();
}
