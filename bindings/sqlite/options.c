/* The words of CREATE VIRTUAL TABLE: see options.h. */
#include "options.h"

#include <stdbool.h>
#include <string.h>

#include "extension.h"

static const char *const OPTION_NAMES[OPTIONS] = { "folder", "schema", "csv", "table" };

void free_options(struct options *options)
{
    size_t at;
    for (at = 0; at < OPTIONS; at++) {
        sqlite3_free(options->values[at]);
    }
}

static const char *without_blanks(const char *text)
{
    return text + strspn(text, " \t\r\n");
}

/*
 * The value that a text is, in quotes as SQL has them or without; a quote within is doubled. Null where memory is refused, or the text
 * is none: `is_value` says so.
 */
static char *value_of(const char *text, bool *is_value)
{
    char quote = *text, *value = sqlite3_mprintf("%s", text);
    size_t from = 1, to = 0;
    *is_value = true;
    if (value == NULL || quote == '\0' || strchr("'\"`[", quote) == NULL) {
        return value;
    }
    quote = quote == '[' ? ']' : quote;
    while (text[from] != '\0' && (text[from] != quote || text[from + 1] == quote)) {
        from += text[from] == quote;
        value[to++] = text[from++];
    }
    value[to] = '\0';
    *is_value = text[from] == quote && *without_blanks(text + from + 1) == '\0';
    return value;
}

/* Reads one option. Else the status of SQLite, and the error, which is null where memory is refused. */
static int read_option(struct options *options, const char *text, char **error)
{
    size_t length = strspn(text, "abcdefghijklmnopqrstuvwxyzABCDEFGHIJKLMNOPQRSTUVWXYZ_"), at = 0;
    const char *rest = without_blanks(text + length);
    bool is_value = false;
    while (at < OPTIONS && (strlen(OPTION_NAMES[at]) != length || sqlite3_strnicmp(OPTION_NAMES[at], text, (int)length) != 0)) {
        at++;
    }
    if (length == 0 || *rest != '=') {
        *error = sqlite3_mprintf("sfq: %s isn't an option: write name='value'", text);
    } else if (at == OPTIONS) {
        *error = sqlite3_mprintf("sfq: the option %.*s is unknown: there are folder, schema, csv and table", (int)length, text);
    } else if (options->values[at] != NULL) {
        *error = sqlite3_mprintf("sfq: the option %s is there twice", OPTION_NAMES[at]);
    } else {
        options->values[at] = value_of(without_blanks(rest + 1), &is_value);
        if (is_value) {
            return options->values[at] == NULL ? SQLITE_NOMEM : SQLITE_OK;
        }
        *error = sqlite3_mprintf("sfq: the value of %s has a quote that isn't closed, or goes on behind it", OPTION_NAMES[at]);
    }
    return *error == NULL ? SQLITE_NOMEM : SQLITE_ERROR;
}

int read_options(struct options *options, int count, const char *const *words, char **error)
{
    char **values = options->values;
    int at, status = SQLITE_OK;
    for (at = 0; at < count && status == SQLITE_OK; at++) {
        status = read_option(options, words[at], error);
    }
    if (status != SQLITE_OK) {
        return status;
    }
    if (values[TABLE] == NULL) {
        *error = sqlite3_mprintf("sfq: no table is named: write table='..', as the schema spells it");
    } else if ((values[FOLDER] == NULL) == (values[SCHEMA] == NULL && values[CSV] == NULL)) {
        *error = sqlite3_mprintf("sfq: write folder='..', of schema.sql and CSV files, or both schema='..' and csv='..'");
    } else if (values[FOLDER] == NULL && (values[SCHEMA] == NULL || values[CSV] == NULL)) {
        *error = sqlite3_mprintf("sfq: write both schema='..' and csv='..'");
    } else {
        return SQLITE_OK;
    }
    return *error == NULL ? SQLITE_NOMEM : SQLITE_ERROR;
}
