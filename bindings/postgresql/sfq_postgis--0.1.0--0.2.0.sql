-- What the extension sfq_postgis has from 0.2.0 on: what sfq has over texts since then, over PostGIS's geometry. Each takes the text
-- with 17 digits, so nothing is rounded.
\echo Use "ALTER EXTENSION sfq_postgis UPDATE" to load this file. \quit

CREATE FUNCTION @extschema@.ST_Why(a geometry, b geometry) RETURNS text
    LANGUAGE SQL IMMUTABLE PARALLEL SAFE
    RETURN CASE WHEN @extschema@.same_system(ST_SRID(a), ST_SRID(b)) THEN @extschema@.ST_Why(ST_AsText(a, 17), ST_AsText(b, 17)) END;
CREATE FUNCTION @extschema@.ST_Why(a geometry) RETURNS text
    LANGUAGE SQL IMMUTABLE PARALLEL SAFE
    RETURN @extschema@.ST_Why(ST_AsText(a, 17));
CREATE FUNCTION @extschema@.ST_Dimension(a geometry) RETURNS integer
    LANGUAGE SQL IMMUTABLE PARALLEL SAFE
    RETURN @extschema@.ST_Dimension(ST_AsText(a, 17));
CREATE FUNCTION @extschema@.ST_IsEmpty(a geometry) RETURNS boolean
    LANGUAGE SQL IMMUTABLE PARALLEL SAFE
    RETURN @extschema@.ST_IsEmpty(ST_AsText(a, 17));
CREATE FUNCTION @extschema@.ST_XMin(a geometry) RETURNS integer
    LANGUAGE SQL IMMUTABLE PARALLEL SAFE
    RETURN @extschema@.ST_XMin(ST_AsText(a, 17));
CREATE FUNCTION @extschema@.ST_XMax(a geometry) RETURNS integer
    LANGUAGE SQL IMMUTABLE PARALLEL SAFE
    RETURN @extschema@.ST_XMax(ST_AsText(a, 17));
CREATE FUNCTION @extschema@.ST_YMin(a geometry) RETURNS integer
    LANGUAGE SQL IMMUTABLE PARALLEL SAFE
    RETURN @extschema@.ST_YMin(ST_AsText(a, 17));
CREATE FUNCTION @extschema@.ST_YMax(a geometry) RETURNS integer
    LANGUAGE SQL IMMUTABLE PARALLEL SAFE
    RETURN @extschema@.ST_YMax(ST_AsText(a, 17));
