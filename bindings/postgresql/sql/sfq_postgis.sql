-- The functions over PostGIS's geometry. \set VERBOSITY terse leaves out where an error is.
\set VERBOSITY terse
\pset format unaligned
CREATE EXTENSION postgis;
CREATE EXTENSION sfq_postgis CASCADE;

-- the same as over texts, and PostGIS's own functions stay
SELECT sfq.ST_Relate('LINESTRING(-2 2,2 -2)'::geometry, 'POLYGON((0 0,4 0,4 4,0 4,0 0))'::geometry);
SELECT sfq.ST_Relate('LINESTRING(-2 2,2 -2)'::geometry, 'POLYGON((0 0,4 0,4 4,0 4,0 0))'::geometry, 'FT*******');
SELECT sfq.ST_Within('LINESTRING(3 1,0 0)'::geometry, 'MULTILINESTRING((3 0,0 2),(3 1,0 0))'::geometry),
       'public.ST_Within(geometry, geometry)'::regprocedure;

-- each relation, of pairs that were worked out by hand
\set shape geometry
\set ECHO none
\i sql/pairs.sql
\set ECHO all

-- nothing is rounded: each of these is off the grid, by the least that a coordinate can be
SELECT sfq.ST_IsValidReason(ST_MakePoint(x, 1)) FROM (VALUES
    (0.5), (1 - 1.1102230246251565e-16), (1 + 2.220446049250313e-16), (3 + 4.440892098500626e-16),
    (9999999.999999998), (-10000000.000000002), (5e-324), (-1e-300), (1e15), (1e300), ('NaN'), ('Infinity')) AS numbers (x);
SELECT sfq.ST_IsValidReason(ST_MakePoint(x, -x)) FROM (VALUES (0), (-0.0::float8), (7), (10000000), (-10000000), (9999999)) AS numbers (x);

-- what is refused
SELECT sfq.ST_IsValidReason('POINT Z(1 2 3)'), sfq.ST_IsValidReason('GEOMETRYCOLLECTION(POINT(1 2))'),
       sfq.ST_IsValidReason('CURVEPOLYGON((0 0,4 0,4 4,0 0))'), sfq.ST_IsValidReason('POLYGON((0 0,4 4,4 0,0 4,0 0))'),
       sfq.ST_IsValid('POINT(1 2)'::geometry);
SELECT sfq.ST_Intersects('POINT(1 1)'::geometry, 'POINT(1.5 2)'::geometry);
SELECT sfq.ST_Relate('POINT(1 1)'::geometry, 'POINT(1.5 2)'::geometry);
SELECT sfq.ST_Touches('SRID=4326;POINT(1 1)'::geometry, 'POINT(1 1)'::geometry);
SELECT sfq.ST_Touches('SRID=4326;POINT(1 1)'::geometry, 'SRID=4326;POINT(1 1)'::geometry);

-- of one geometry, and what shows a matrix
SELECT sfq.ST_Dimension(geom), sfq.ST_IsEmpty(geom), sfq.ST_XMin(geom), sfq.ST_XMax(geom), sfq.ST_YMin(geom), sfq.ST_YMax(geom), sfq.ST_Why(geom)
    FROM (VALUES ('POINT(1 2)'::geometry), ('LINESTRING(3 -1,0 5)'), ('POLYGON EMPTY'), (NULL)) AS shapes (geom);
SELECT sfq.ST_Why('LINESTRING(0 0,3 1)'::geometry, 'LINESTRING(0 1,2 0)'::geometry);
SELECT sfq.ST_Why('SRID=4326;POINT(1 1)'::geometry, 'POINT(1 1)'::geometry);
SELECT sfq.ST_XMin('POINT(1.5 2)'::geometry);

-- a GiST index finds the rows, and the same rows as without it
CREATE TABLE cell (id integer PRIMARY KEY, geom geometry);
INSERT INTO cell SELECT 100 * x + y, ST_MakeEnvelope(10 * x, 10 * y, 10 * x + 10, 10 * y + 10)
    FROM generate_series(0, 39) x, generate_series(0, 39) y;
INSERT INTO cell VALUES (10001, 'POINT EMPTY'), (10002, 'LINESTRING EMPTY'), (10003, NULL);
CREATE INDEX cell_geom ON cell USING gist (geom);
ANALYZE cell;
EXPLAIN (COSTS OFF) SELECT id FROM cell WHERE sfq.ST_Within(geom, 'POLYGON((5 5,45 5,45 45,5 45,5 5))'::geometry);
EXPLAIN (COSTS OFF) SELECT count(*) FROM cell a JOIN cell b ON sfq.ST_Touches(a.geom, b.geom);
SELECT count(*) FROM cell a JOIN cell b ON sfq.ST_Touches(a.geom, b.geom);
SELECT a.id, b.id FROM cell a JOIN cell b ON sfq.ST_Equals(a.geom, b.geom) WHERE a.id > 10000 ORDER BY 1, 2;
SET enable_indexscan = off;
SET enable_bitmapscan = off;
SELECT count(*) FROM cell a JOIN cell b ON sfq.ST_Touches(a.geom, b.geom) WHERE a.id < 100;
SELECT a.id, b.id FROM cell a JOIN cell b ON sfq.ST_Equals(a.geom, b.geom) WHERE a.id > 10000 ORDER BY 1, 2;

DROP TABLE pair, cell;
DROP EXTENSION sfq_postgis;
DROP EXTENSION sfq;
DROP EXTENSION postgis;
