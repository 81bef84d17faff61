-- Pairs of the type that the variable `shape` names, worked out by hand, and each relation of them. Both tests read this file.
CREATE TABLE pair (id integer PRIMARY KEY, a :shape, b :shape);
INSERT INTO pair VALUES
    (1, 'POINT(1 1)', 'POLYGON((0 0,4 0,4 4,0 4,0 0))'),
    (2, 'POLYGON((0 0,4 0,4 4,0 4,0 0))', 'POINT(1 1)'),
    (3, 'POLYGON((0 0,4 0,4 4,0 4,0 0))', 'POLYGON((4 0,8 0,8 4,4 4,4 0))'),
    (4, 'LINESTRING(0 0,3 1)', 'LINESTRING(0 1,2 0)'),
    (5, 'LINESTRING(0 0,4 0)', 'POLYGON((0 0,4 0,4 4,0 4,0 0))'),
    (6, 'POLYGON((0 0,4 0,4 4,0 4,0 0))', 'POLYGON((4 4,4 0,0 0,0 4,4 4))'),
    (7, 'POLYGON((0 0,4 0,4 4,0 4,0 0))', 'POLYGON((2 2,6 2,6 6,2 6,2 2))'),
    (8, 'POINT EMPTY', 'MULTIPOINT EMPTY'),
    (9, 'POINT(1 2)', 'POINT(3 4)'),
    (10, NULL, 'POINT(3 4)'),
    (11, 'POINT EMPTY', 'POINT(1 2)');
SELECT id, sfq.ST_Relate(a, b), sfq.ST_Equals(a, b) AS equals, sfq.ST_Disjoint(a, b) AS disjoint,
       sfq.ST_Intersects(a, b) AS intersects, sfq.ST_Touches(a, b) AS touches, sfq.ST_Crosses(a, b) AS crosses,
       sfq.ST_Within(a, b) AS within, sfq.ST_Contains(a, b) AS contains, sfq.ST_Overlaps(a, b) AS overlaps,
       sfq.ST_Covers(a, b) AS covers, sfq.ST_CoveredBy(a, b) AS covered_by, sfq.ST_ContainsProperly(a, b) AS properly
FROM pair ORDER BY id;
