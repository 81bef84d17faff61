-- The extension sfq: functions over geometries in well-known text, named as in OGC 06-104r4. They are in the schema sfq, so that
-- PostGIS can be in the same database. NULL in, NULL out; a text that is refused is an error.
--
-- COST is in comparisons of numbers. Two parcels of 5 positions took 700 of them, a point and an area of 100 positions 2,700, and two
-- areas of 100 positions 40,000.
\echo Use "CREATE EXTENSION sfq" to load this file. \quit

-- Every role may call the functions, which read nothing but their arguments.
GRANT USAGE ON SCHEMA @extschema@ TO PUBLIC;

CREATE FUNCTION @extschema@.ST_Relate(a text, b text) RETURNS text
    LANGUAGE C IMMUTABLE STRICT PARALLEL SAFE COST 1000 AS 'MODULE_PATHNAME', 'sql_sfq_relate';
CREATE FUNCTION @extschema@.ST_Relate(a text, b text, pattern text) RETURNS boolean
    LANGUAGE C IMMUTABLE STRICT PARALLEL SAFE COST 1000 AS 'MODULE_PATHNAME', 'sql_sfq_relate_pattern';
CREATE FUNCTION @extschema@.ST_Equals(a text, b text) RETURNS boolean
    LANGUAGE C IMMUTABLE STRICT PARALLEL SAFE COST 1000 AS 'MODULE_PATHNAME', 'sql_sfq_equals';
CREATE FUNCTION @extschema@.ST_Disjoint(a text, b text) RETURNS boolean
    LANGUAGE C IMMUTABLE STRICT PARALLEL SAFE COST 1000 AS 'MODULE_PATHNAME', 'sql_sfq_disjoint';
CREATE FUNCTION @extschema@.ST_Intersects(a text, b text) RETURNS boolean
    LANGUAGE C IMMUTABLE STRICT PARALLEL SAFE COST 1000 AS 'MODULE_PATHNAME', 'sql_sfq_intersects';
CREATE FUNCTION @extschema@.ST_Touches(a text, b text) RETURNS boolean
    LANGUAGE C IMMUTABLE STRICT PARALLEL SAFE COST 1000 AS 'MODULE_PATHNAME', 'sql_sfq_touches';
CREATE FUNCTION @extschema@.ST_Crosses(a text, b text) RETURNS boolean
    LANGUAGE C IMMUTABLE STRICT PARALLEL SAFE COST 1000 AS 'MODULE_PATHNAME', 'sql_sfq_crosses';
CREATE FUNCTION @extschema@.ST_Within(a text, b text) RETURNS boolean
    LANGUAGE C IMMUTABLE STRICT PARALLEL SAFE COST 1000 AS 'MODULE_PATHNAME', 'sql_sfq_within';
CREATE FUNCTION @extschema@.ST_Contains(a text, b text) RETURNS boolean
    LANGUAGE C IMMUTABLE STRICT PARALLEL SAFE COST 1000 AS 'MODULE_PATHNAME', 'sql_sfq_contains';
CREATE FUNCTION @extschema@.ST_Overlaps(a text, b text) RETURNS boolean
    LANGUAGE C IMMUTABLE STRICT PARALLEL SAFE COST 1000 AS 'MODULE_PATHNAME', 'sql_sfq_overlaps';
CREATE FUNCTION @extschema@.ST_Covers(a text, b text) RETURNS boolean
    LANGUAGE C IMMUTABLE STRICT PARALLEL SAFE COST 1000 AS 'MODULE_PATHNAME', 'sql_sfq_covers';
CREATE FUNCTION @extschema@.ST_CoveredBy(a text, b text) RETURNS boolean
    LANGUAGE C IMMUTABLE STRICT PARALLEL SAFE COST 1000 AS 'MODULE_PATHNAME', 'sql_sfq_covered_by';
CREATE FUNCTION @extschema@.ST_ContainsProperly(a text, b text) RETURNS boolean
    LANGUAGE C IMMUTABLE STRICT PARALLEL SAFE COST 1000 AS 'MODULE_PATHNAME', 'sql_sfq_contains_properly';
CREATE FUNCTION @extschema@.ST_IsValid(a text) RETURNS boolean
    LANGUAGE C IMMUTABLE STRICT PARALLEL SAFE COST 500 AS 'MODULE_PATHNAME', 'sql_sfq_is_valid';
CREATE FUNCTION @extschema@.ST_IsValidReason(a text) RETURNS text
    LANGUAGE C IMMUTABLE STRICT PARALLEL SAFE COST 500 AS 'MODULE_PATHNAME', 'sql_sfq_is_valid_reason';

-- For functions over types of geometries that have a reference system: true, or an error where two differ.
CREATE FUNCTION @extschema@.same_system(a integer, b integer) RETURNS boolean
    LANGUAGE C IMMUTABLE STRICT PARALLEL SAFE COST 1 AS 'MODULE_PATHNAME', 'sql_sfq_same_system';

-- For types of geometries that have a binary form: the same of two values in EWKB, and of a relation by its number in sfq.h. NULL
-- where one of them isn't a valid geometry on the grid, or the two have different reference systems.
CREATE FUNCTION @extschema@.binary_relate(a bytea, b bytea) RETURNS text
    LANGUAGE C IMMUTABLE STRICT PARALLEL SAFE COST 1000 AS 'MODULE_PATHNAME', 'sql_sfq_binary_relate';
CREATE FUNCTION @extschema@.binary_relate(a bytea, b bytea, pattern text) RETURNS boolean
    LANGUAGE C IMMUTABLE STRICT PARALLEL SAFE COST 1000 AS 'MODULE_PATHNAME', 'sql_sfq_binary_relate_pattern';
CREATE FUNCTION @extschema@.binary_holds(a bytea, b bytea, relation integer) RETURNS boolean
    LANGUAGE C IMMUTABLE STRICT PARALLEL SAFE COST 1000 AS 'MODULE_PATHNAME', 'sql_sfq_binary_holds';
