-- What the extension sfq has from 0.2.0 on.
\echo Use "ALTER EXTENSION sfq UPDATE" to load this file. \quit

-- A database of the first version has a schema that no role but a superuser may use.
GRANT USAGE ON SCHEMA @extschema@ TO PUBLIC;

-- Of two geometries what shows each cell of their matrix, in nine lines; of one whether it is valid, and where not.
CREATE FUNCTION @extschema@.ST_Why(a text, b text) RETURNS text
    LANGUAGE C IMMUTABLE STRICT PARALLEL SAFE COST 2000 AS 'MODULE_PATHNAME', 'sql_sfq_why';
CREATE FUNCTION @extschema@.ST_Why(a text) RETURNS text
    LANGUAGE C IMMUTABLE STRICT PARALLEL SAFE COST 1000 AS 'MODULE_PATHNAME', 'sql_sfq_why';

-- The dimension of the type; whether it is the empty set of points; the bounds, which are NULL of an empty geometry.
CREATE FUNCTION @extschema@.ST_Dimension(a text) RETURNS integer
    LANGUAGE C IMMUTABLE STRICT PARALLEL SAFE COST 500 AS 'MODULE_PATHNAME', 'sql_sfq_dimension';
CREATE FUNCTION @extschema@.ST_IsEmpty(a text) RETURNS boolean
    LANGUAGE C IMMUTABLE STRICT PARALLEL SAFE COST 500 AS 'MODULE_PATHNAME', 'sql_sfq_is_empty';
CREATE FUNCTION @extschema@.ST_XMin(a text) RETURNS integer
    LANGUAGE C IMMUTABLE STRICT PARALLEL SAFE COST 500 AS 'MODULE_PATHNAME', 'sql_sfq_x_min';
CREATE FUNCTION @extschema@.ST_XMax(a text) RETURNS integer
    LANGUAGE C IMMUTABLE STRICT PARALLEL SAFE COST 500 AS 'MODULE_PATHNAME', 'sql_sfq_x_max';
CREATE FUNCTION @extschema@.ST_YMin(a text) RETURNS integer
    LANGUAGE C IMMUTABLE STRICT PARALLEL SAFE COST 500 AS 'MODULE_PATHNAME', 'sql_sfq_y_min';
CREATE FUNCTION @extschema@.ST_YMax(a text) RETURNS integer
    LANGUAGE C IMMUTABLE STRICT PARALLEL SAFE COST 500 AS 'MODULE_PATHNAME', 'sql_sfq_y_max';
