-- What the extension sfq has from 0.3.0 on.
\echo Use "ALTER EXTENSION sfq UPDATE" to load this file. \quit

-- A database of an earlier version may have a schema that no role but a superuser may use.
GRANT USAGE ON SCHEMA @extschema@ TO PUBLIC;

-- The canonical text of a geometry, under the names that queries of sfq have: for a constant, and for a column.
CREATE FUNCTION @extschema@.ST_GeomFromText(a text) RETURNS text
    LANGUAGE C IMMUTABLE STRICT PARALLEL SAFE COST 500 AS 'MODULE_PATHNAME', 'sql_sfq_canonical';
CREATE FUNCTION @extschema@.ST_AsText(a text) RETURNS text
    LANGUAGE C IMMUTABLE STRICT PARALLEL SAFE COST 500 AS 'MODULE_PATHNAME', 'sql_sfq_canonical';
