/*
 * Whether the index may be asked for the rows of which a relation holds. Before SQLite 3.53.4 a table on the left of an outer join is also
 * offered relations of the join's ON, such as that of `t LEFT JOIN u ON ST_Within(t.geom, 'POLYGON(..)')`, though each of its rows is in
 * the answer. Nothing that xBestIndex is handed tells such a relation from one of WHERE. So with an earlier SQLite the statements that
 * run are looked at when rows are asked for: where one has an outer join, the index serves the right table of LEFT JOIN alone, to which
 * SQLite offers only relations of its own ON. Other tables then give all rows. Nothing here is proved.
 *
 * What was found is remembered until another plan is asked for or other statements run. A statement that uses a table asks for a plan
 * when it is prepared, and again after a view or a trigger was made. So the same statements, after no further plan, say the same.
 */
#ifndef SFQ_STATEMENTS_H
#define SFQ_STATEMENTS_H

#include "connections.h"

/* Whether a relation of a table with this plan may leave out rows: what was found last, where that is known of these statements. */
bool may_search(struct connection *connection, const void *table, int plan, const char *name);

#endif
