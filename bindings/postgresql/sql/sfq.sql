-- The functions over texts. \set VERBOSITY terse leaves out where an error is.
\set VERBOSITY terse
\pset format unaligned
CREATE EXTENSION sfq;
SET search_path = sfq, public;

-- the matrix, and patterns; case of a pattern doesn't count
SELECT ST_Relate('LINESTRING(-2 2,2 -2)', 'POLYGON((0 0,4 0,4 4,0 4,0 0))');
SELECT ST_Relate('LINESTRING(-2 2,2 -2)', 'POLYGON((0 0,4 0,4 4,0 4,0 0))', 'F01FF0212');
SELECT ST_Relate('LINESTRING(-2 2,2 -2)', 'POLYGON((0 0,4 0,4 4,0 4,0 0))', 'ft*******');
SELECT ST_Relate('LINESTRING(-2 2,2 -2)', 'POLYGON((0 0,4 0,4 4,0 4,0 0))', 'T********');

-- each relation, of pairs that were worked out by hand
\set shape text
\set ECHO none
\i sql/pairs.sql
\set ECHO all

-- NULL in, NULL out: the other text isn't read
SELECT ST_Relate('CIRCLE(1 1)', NULL) IS NULL AS first, ST_Touches(NULL, 'CIRCLE(1 1)') IS NULL AS second;

-- what is refused is an error, but for ST_IsValid and ST_IsValidReason
SELECT ST_IsValid(text), ST_IsValidReason(text), text FROM (VALUES
    ('POINT(1 2)'), (''), ('POINT(1.5 2)'), ('POINT(10000001 0)'), ('LINESTRING(0 0,0 0)'), ('POLYGON((0 0,4 0,4 4,0 4,0 1))'),
    ('POLYGON((0 0,4 4,4 0,0 4,0 0))'), ('POLYGON((0 0,4 0,4 4,0 4,0 0),(0 2,1 1,1 3,0 2))'),
    ('MULTIPOLYGON(((1 1,2 1,2 2,1 1)),((0 0,9 0,9 9,0 9,0 0)))'), (NULL)) AS texts (text);
SELECT ST_Touches('POINT(1 2', 'POINT(1 2)');
SELECT ST_Touches('POINT(1 2)', 'POLYGON((0 0,4 4,4 0,0 4,0 0))');
SELECT ST_Relate('POINT(1 2)', 'POINT(1 2)', 'TTT');
SELECT ST_Relate('POINT(1 2)', 'POINT(1 2)', NULL);

-- of one geometry, and what shows a matrix
SELECT ST_Dimension(text), ST_IsEmpty(text), ST_XMin(text), ST_XMax(text), ST_YMin(text), ST_YMax(text), text FROM (VALUES
    ('POINT(1 2)'), ('LINESTRING(3 -1,0 5)'), ('POLYGON EMPTY'), (NULL)) AS texts (text);
SELECT ST_Why('LINESTRING(0 0,3 1)', 'LINESTRING(0 1,2 0)');
SELECT ST_Why('POLYGON((0 0,4 4,4 0,0 4,0 0))'), ST_Why('POINT(1 2)'), ST_Why(NULL) IS NULL AS first, ST_Why('CIRCLE', NULL) IS NULL AS second;
SELECT ST_Why('POINT(1 2');
SELECT ST_Why('POINT(1 2)', 'POINT(1.5 2)');
SELECT ST_XMin('POLYGON((0 0,4 4,4 0,0 4,0 0))');

-- the canonical text, under the names that queries of sfq have
SELECT ST_AsText(text), ST_GeomFromText(text) FROM (VALUES
    ('point ( 1.0 2 )'), ('MULTIPOINT(1 2, 3 -4)'), ('POLYGON EMPTY'), (NULL)) AS texts (text);
SELECT ST_Touches(ST_GeomFromText('POINT(0 0)'), 'LINESTRING(0 0,1 1)'), ST_AsText(ST_GeomFromText('POINT(00 1)')) = 'POINT(0 1)' AS same;
SELECT ST_GeomFromText('POINT(1.5 2)');
SELECT ST_AsText('POLYGON((0 0,4 4,4 0,0 4,0 0))');

-- long texts, that PostgreSQL keeps packed
CREATE TABLE long (id integer, geom text);
INSERT INTO long SELECT 1, 'LINESTRING(' || string_agg(i || ' ' || i % 2, ',' ORDER BY i) || ')' FROM generate_series(0, 9999) i;
SELECT ST_Relate(geom, geom), ST_IsValid(geom || ' '), ST_AsText(geom) = geom AS same FROM long;
SELECT ST_IsValidReason(replace(geom, ')', ',0 0)')) FROM long;

-- what the planner may rely on
SELECT proname, provolatile, proisstrict, proparallel FROM pg_proc WHERE pronamespace = 'sfq'::regnamespace
    AND NOT (provolatile = 'i' AND proisstrict AND proparallel = 's');
CREATE INDEX ON pair (ST_IsValid(a));

DROP TABLE pair, long;
DROP EXTENSION sfq;
