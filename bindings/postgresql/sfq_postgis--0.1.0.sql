-- The extension sfq_postgis: the functions of sfq over PostGIS's geometry. Each is a wrapper in SQL that a query takes in whole, so
-- that `a && b`, the test of envelopes, finds its rows by a GiST index. It hands the binary forms over. Where one isn't taken, the
-- texts say what is wrong. Not proved are PostGIS and these wrappers: that a relation other than ST_Disjoint and ST_Relate needs
-- envelopes that meet, and that ST_AsText with 17 digits writes each coordinate so that one that isn't whole is refused. Nothing is
-- rounded.
\echo Use "CREATE EXTENSION sfq_postgis" to load this file. \quit

CREATE FUNCTION @extschema@.ST_Relate(a geometry, b geometry) RETURNS text
    LANGUAGE SQL IMMUTABLE PARALLEL SAFE
    RETURN COALESCE(
        @extschema@.binary_relate(ST_AsEWKB(a), ST_AsEWKB(b)),
        CASE WHEN @extschema@.same_system(ST_SRID(a), ST_SRID(b)) THEN @extschema@.ST_Relate(ST_AsText(a, 17), ST_AsText(b, 17)) END);
CREATE FUNCTION @extschema@.ST_Relate(a geometry, b geometry, pattern text) RETURNS boolean
    LANGUAGE SQL IMMUTABLE PARALLEL SAFE
    RETURN COALESCE(
        @extschema@.binary_relate(ST_AsEWKB(a), ST_AsEWKB(b), pattern),
        @extschema@.same_system(ST_SRID(a), ST_SRID(b)) AND @extschema@.ST_Relate(ST_AsText(a, 17), ST_AsText(b, 17), pattern));
-- Two empty geometries are equal, and have the same envelope: none.
CREATE FUNCTION @extschema@.ST_Equals(a geometry, b geometry) RETURNS boolean
    LANGUAGE SQL IMMUTABLE PARALLEL SAFE
    RETURN a ~= b AND COALESCE(
        @extschema@.binary_holds(ST_AsEWKB(a), ST_AsEWKB(b), 0),
        @extschema@.same_system(ST_SRID(a), ST_SRID(b)) AND @extschema@.ST_Equals(ST_AsText(a, 17), ST_AsText(b, 17)));
CREATE FUNCTION @extschema@.ST_Disjoint(a geometry, b geometry) RETURNS boolean
    LANGUAGE SQL IMMUTABLE PARALLEL SAFE
    RETURN COALESCE(
        @extschema@.binary_holds(ST_AsEWKB(a), ST_AsEWKB(b), 1),
        @extschema@.same_system(ST_SRID(a), ST_SRID(b)) AND @extschema@.ST_Disjoint(ST_AsText(a, 17), ST_AsText(b, 17)));
CREATE FUNCTION @extschema@.ST_Intersects(a geometry, b geometry) RETURNS boolean
    LANGUAGE SQL IMMUTABLE PARALLEL SAFE
    RETURN a && b AND COALESCE(
        @extschema@.binary_holds(ST_AsEWKB(a), ST_AsEWKB(b), 2),
        @extschema@.same_system(ST_SRID(a), ST_SRID(b)) AND @extschema@.ST_Intersects(ST_AsText(a, 17), ST_AsText(b, 17)));
CREATE FUNCTION @extschema@.ST_Touches(a geometry, b geometry) RETURNS boolean
    LANGUAGE SQL IMMUTABLE PARALLEL SAFE
    RETURN a && b AND COALESCE(
        @extschema@.binary_holds(ST_AsEWKB(a), ST_AsEWKB(b), 3),
        @extschema@.same_system(ST_SRID(a), ST_SRID(b)) AND @extschema@.ST_Touches(ST_AsText(a, 17), ST_AsText(b, 17)));
CREATE FUNCTION @extschema@.ST_Crosses(a geometry, b geometry) RETURNS boolean
    LANGUAGE SQL IMMUTABLE PARALLEL SAFE
    RETURN a && b AND COALESCE(
        @extschema@.binary_holds(ST_AsEWKB(a), ST_AsEWKB(b), 4),
        @extschema@.same_system(ST_SRID(a), ST_SRID(b)) AND @extschema@.ST_Crosses(ST_AsText(a, 17), ST_AsText(b, 17)));
CREATE FUNCTION @extschema@.ST_Within(a geometry, b geometry) RETURNS boolean
    LANGUAGE SQL IMMUTABLE PARALLEL SAFE
    RETURN a && b AND COALESCE(
        @extschema@.binary_holds(ST_AsEWKB(a), ST_AsEWKB(b), 5),
        @extschema@.same_system(ST_SRID(a), ST_SRID(b)) AND @extschema@.ST_Within(ST_AsText(a, 17), ST_AsText(b, 17)));
CREATE FUNCTION @extschema@.ST_Contains(a geometry, b geometry) RETURNS boolean
    LANGUAGE SQL IMMUTABLE PARALLEL SAFE
    RETURN a && b AND COALESCE(
        @extschema@.binary_holds(ST_AsEWKB(a), ST_AsEWKB(b), 6),
        @extschema@.same_system(ST_SRID(a), ST_SRID(b)) AND @extschema@.ST_Contains(ST_AsText(a, 17), ST_AsText(b, 17)));
CREATE FUNCTION @extschema@.ST_Overlaps(a geometry, b geometry) RETURNS boolean
    LANGUAGE SQL IMMUTABLE PARALLEL SAFE
    RETURN a && b AND COALESCE(
        @extschema@.binary_holds(ST_AsEWKB(a), ST_AsEWKB(b), 7),
        @extschema@.same_system(ST_SRID(a), ST_SRID(b)) AND @extschema@.ST_Overlaps(ST_AsText(a, 17), ST_AsText(b, 17)));
CREATE FUNCTION @extschema@.ST_Covers(a geometry, b geometry) RETURNS boolean
    LANGUAGE SQL IMMUTABLE PARALLEL SAFE
    RETURN a && b AND COALESCE(
        @extschema@.binary_holds(ST_AsEWKB(a), ST_AsEWKB(b), 8),
        @extschema@.same_system(ST_SRID(a), ST_SRID(b)) AND @extschema@.ST_Covers(ST_AsText(a, 17), ST_AsText(b, 17)));
CREATE FUNCTION @extschema@.ST_CoveredBy(a geometry, b geometry) RETURNS boolean
    LANGUAGE SQL IMMUTABLE PARALLEL SAFE
    RETURN a && b AND COALESCE(
        @extschema@.binary_holds(ST_AsEWKB(a), ST_AsEWKB(b), 9),
        @extschema@.same_system(ST_SRID(a), ST_SRID(b)) AND @extschema@.ST_CoveredBy(ST_AsText(a, 17), ST_AsText(b, 17)));
CREATE FUNCTION @extschema@.ST_ContainsProperly(a geometry, b geometry) RETURNS boolean
    LANGUAGE SQL IMMUTABLE PARALLEL SAFE
    RETURN a && b AND COALESCE(
        @extschema@.binary_holds(ST_AsEWKB(a), ST_AsEWKB(b), 10),
        @extschema@.same_system(ST_SRID(a), ST_SRID(b)) AND @extschema@.ST_ContainsProperly(ST_AsText(a, 17), ST_AsText(b, 17)));
CREATE FUNCTION @extschema@.ST_IsValid(a geometry) RETURNS boolean
    LANGUAGE SQL IMMUTABLE PARALLEL SAFE
    RETURN @extschema@.ST_IsValid(ST_AsText(a, 17));
CREATE FUNCTION @extschema@.ST_IsValidReason(a geometry) RETURNS text
    LANGUAGE SQL IMMUTABLE PARALLEL SAFE
    RETURN @extschema@.ST_IsValidReason(ST_AsText(a, 17));
