-- The map of Blue Lake, on which the conformance tests of OGC 06-104r4 ask their questions.
-- Tables and columns are named as there. The standard gives no units.

CREATE TABLE lakes (
  fid   INTEGER PRIMARY KEY,
  name  TEXT,
  shore POLYGON
);

CREATE TABLE road_segments (
  fid        INTEGER PRIMARY KEY,
  name       TEXT,
  aliases    TEXT,                   -- a second name
  num_lanes  INTEGER,
  centerline LINESTRING
);

CREATE TABLE divided_routes (
  fid         INTEGER PRIMARY KEY,
  name        TEXT,
  num_lanes   INTEGER,
  centerlines MULTILINESTRING        -- a line for each direction
);

CREATE TABLE forests (
  fid      INTEGER PRIMARY KEY,
  name     TEXT,
  boundary MULTIPOLYGON
);

CREATE TABLE bridges (
  fid      INTEGER PRIMARY KEY,
  name     TEXT,
  position POINT
);

CREATE TABLE streams (
  fid        INTEGER PRIMARY KEY,
  name       TEXT,
  centerline LINESTRING
);

CREATE TABLE buildings (
  fid       INTEGER PRIMARY KEY,
  address   TEXT,
  position  POINT,
  footprint POLYGON
);

CREATE TABLE ponds (
  fid    INTEGER PRIMARY KEY,
  name   TEXT,
  type   TEXT,
  shores MULTIPOLYGON
);

CREATE TABLE named_places (
  fid      INTEGER PRIMARY KEY,
  name     TEXT,
  boundary POLYGON
);

CREATE TABLE map_neatlines (
  fid      INTEGER PRIMARY KEY,
  neatline POLYGON                   -- the frame of the map
);
