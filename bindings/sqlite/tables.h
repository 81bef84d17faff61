/*
 * The module of virtual tables: CREATE VIRTUAL TABLE t USING sfq(..). A table's rows are loaded when a connection first uses it, and
 * freed when that ends or the table is dropped; they can't be changed. SQLite asks for them by the key, by bisection, and for those
 * whose geometry may have a relation to another one, by the proved index of envelopes: xFindFunction offers it the relations whose
 * first argument is a column, and xBestIndex takes them.
 *
 * A table that can't be loaded isn't made. One that was made and can't be loaded any more is there, so that it can be dropped: a query
 * of it is an error, which says why. A table reads files, so no view or trigger may use one but a temporary one: of a database that
 * somebody else wrote, a table is read only where its own name is in a statement.
 *
 * Nothing here is proved. It gives SQLite more rows rather than fewer: no condition is left out, and SQLite tests each again. That a
 * relation but ST_Disjoint holds only where envelopes meet is proved of those that force meeting; of ST_Equals, where both may be
 * empty, the index finds the empty ones.
 */
#ifndef SFQ_TABLES_H_OF_SQLITE
#define SFQ_TABLES_H_OF_SQLITE

#include "extension.h"

/* What SQLite calls for a table of the module sfq. */
extern const sqlite3_module MODULE;

#endif
