/*
 * The headers of PostgreSQL that each file of the module begins with, of a version that is new enough.
 */
#ifndef SFQ_POSTGRESQL_H
#define SFQ_POSTGRESQL_H

#include "postgres.h"

#if PG_VERSION_NUM < 150000
#error "sfq needs PostgreSQL 15 or later"
#endif

#include "fmgr.h"
#if PG_VERSION_NUM >= 160000
#include "varatt.h"
#endif

#endif
