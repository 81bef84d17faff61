/*
 * The calls of SQLite, as each file of the extension has them: by the addresses that SQLite hands to the entry in sfq0.c.
 */
#ifndef SFQ_EXTENSION_H
#define SFQ_EXTENSION_H

#include <sqlite3ext.h>
SQLITE_EXTENSION_INIT3

#endif
