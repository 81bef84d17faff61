/*
 * Two connections in two threads, each with the extension: every pair of standard input has to have its matrix, again and again,
 * and a refused text has to be an error each time. A line is two texts and a matrix, with tabs between.
 *
 * usage: threads EXTENSION TIMES    prints `N asked, N differ`
 */
#include <pthread.h>
#include <sqlite3.h>
#include <stdio.h>
#include <stdlib.h>
#include <string.h>

#define MOST 1000
#define THREADS 2

static char *pairs[MOST][3];
static int count, times;
static const char *extension;

struct tally {
    long asked, differ;
};

/* Asks for the matrix of one pair by a prepared statement, and counts. */
static void ask(sqlite3_stmt *statement, char **pair, struct tally *tally)
{
    const char *found;
    sqlite3_bind_text(statement, 1, pair[0], -1, SQLITE_STATIC);
    sqlite3_bind_text(statement, 2, pair[1], -1, SQLITE_STATIC);
    found = sqlite3_step(statement) == SQLITE_ROW ? (const char *)sqlite3_column_text(statement, 0) : NULL;
    tally->asked++;
    tally->differ += found == NULL || strcmp(found, pair[2]) != 0;
    sqlite3_reset(statement);
}

static void *work(void *given)
{
    struct tally *tally = given;
    sqlite3 *connection;
    sqlite3_stmt *statement;
    int time, at;
    if (sqlite3_open(":memory:", &connection) != SQLITE_OK || sqlite3_enable_load_extension(connection, 1) != SQLITE_OK ||
        sqlite3_load_extension(connection, extension, NULL, NULL) != SQLITE_OK ||
        sqlite3_prepare_v2(connection, "SELECT ST_Relate(?1, ?2)", -1, &statement, NULL) != SQLITE_OK) {
        tally->differ++;
        return NULL;
    }
    for (time = 0; time < times; time++) {
        char *refused[3] = { "POINT(1 2)", "POINT(1.5 2)", "an error" };
        struct tally of_refused = { 0, 0 };
        for (at = 0; at < count; at++) {
            ask(statement, pairs[at], tally);
        }
        ask(statement, refused, &of_refused);
        tally->differ += of_refused.differ != 1 || strstr(sqlite3_errmsg(connection), "sfq: second W2 at 6: ") == NULL;
    }
    sqlite3_finalize(statement);
    sqlite3_close(connection);
    return NULL;
}

/* Reads the pairs, and returns whether each line has two texts and a matrix. */
static int read_pairs(void)
{
    char *line = NULL;
    size_t room = 0;
    while (count < MOST && getline(&line, &room, stdin) > 0) {
        char *rest = line;
        int at;
        line[strcspn(line, "\n")] = '\0';
        for (at = 0; at < 3; at++) {
            char *part = strsep(&rest, "\t");
            if (part == NULL) {
                return 0;
            }
            pairs[count][at] = strdup(part);
        }
        count++;
    }
    free(line);
    return 1;
}

int main(int words, char **given)
{
    pthread_t threads[THREADS];
    struct tally tallies[THREADS] = { { 0, 0 } };
    long asked = 0, differ = 0;
    int at, part;
    if (words != 3 || !read_pairs()) {
        return 2;
    }
    extension = given[1];
    times = atoi(given[2]);
    for (at = 0; at < THREADS; at++) {
        pthread_create(&threads[at], NULL, work, &tallies[at]);
    }
    for (at = 0; at < THREADS; at++) {
        pthread_join(threads[at], NULL);
        asked += tallies[at].asked;
        differ += tallies[at].differ;
    }
    for (at = 0; at < count; at++) {
        for (part = 0; part < 3; part++) {
            free(pairs[at][part]);
        }
    }
    printf("%ld asked, %ld differ\n", asked, differ);
    return differ != 0;
}
