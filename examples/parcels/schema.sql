-- The land register of a small town: its parcels and who owns them, and the buildings, waters, paths and wells on them.
-- The grid's unit is ten metres.

CREATE TABLE owner (
  id    INTEGER PRIMARY KEY,
  name  TEXT NOT NULL,
  since INTEGER                      -- the year of the first entry
);

CREATE TABLE parcel (
  id    INTEGER PRIMARY KEY,
  name  TEXT NOT NULL,
  owner INTEGER,                     -- an id of owner; none: nobody is registered
  geom  GEOMETRY                     -- a POLYGON or a MULTIPOLYGON; none: never surveyed
);

CREATE TABLE building (
  id      INTEGER PRIMARY KEY,
  purpose TEXT NOT NULL,
  built   INTEGER,                   -- the year; none: unknown
  geom    POLYGON NOT NULL
);

CREATE TABLE water (
  id   INTEGER PRIMARY KEY,
  name TEXT NOT NULL,
  geom MULTILINESTRING NOT NULL
);

CREATE TABLE path (
  id   INTEGER PRIMARY KEY,
  name TEXT NOT NULL,
  geom LINESTRING NOT NULL
);

CREATE TABLE well (
  id   INTEGER PRIMARY KEY,
  name TEXT NOT NULL,
  geom POINT                         -- none: nobody knows where it was
);
