/**
 * The DE-9IM matrix of two geometries, exactly (OGC 06-103r4), and queries over tables, by proved code in a module of WebAssembly.
 *
 * Coordinates are whole numbers from -10,000,000 to 10,000,000. Load a module once, and then all else is at once. What has `free`
 * takes memory in the module until it is freed, or until JavaScript has no use for it. Where memory runs out, a call throws
 * OutOfMemoryError, and the module goes on. Once a call has thrown a WebAssembly.RuntimeError the module has stopped: load it anew.
 */

/** Where a module comes from: its bytes, as it was compiled, or its address. */
export type Source = BufferSource | WebAssembly.Module | URL | string;

/** Loads the module of geometries, by default from beside this script. What is made from then on is of this module. */
export function load(source?: Source): Promise<void>;

/** Loads the module of geometries and databases, by default from beside this script. */
export function loadDatabases(source?: Source): Promise<void>;

/** How many bytes the memory of the module has that was loaded last. It never shrinks. */
export function memorySize(): number;

/** Where a position lies, as `locate` returns it. */
export const INTERIOR: 0;
export const BOUNDARY: 1;
export const EXTERIOR: 2;
export type Place = 0 | 1 | 2;

export type TypeName = "Point" | "LineString" | "Polygon" | "MultiPoint" | "MultiLineString" | "MultiPolygon";

export type RelationName =
  | "equals" | "disjoint" | "intersects" | "touches" | "crosses" | "within" | "contains" | "overlaps" | "covers" | "coveredBy"
  | "containsProperly";

/** Why something is refused: its first fault. */
export interface Fault {
  /** W1 to W4 of a text, V1 to V8 of a geometry, S1 to S6 of a schema, L1 to L10 of a table, Q1 to Q12 of a query. */
  readonly code: string;
  /** The numbers of the place: a byte in UTF-8, a position, lines, rings or elements, or a record. */
  readonly numbers: readonly number[];
  /** The code with its place, as the program `sfq` prints it: `W1 at 9`, `V4 0 1`, `parcel L6 record 2 V3 0`. */
  readonly place: string;
  /** What it means, and what to do. */
  readonly sentence: string;
  /** The table of a fault L1 to L10. */
  readonly table?: string;
  /** The fault of a geometry's text in a table or a query. */
  readonly geometry?: Fault;
}

/** A text, numbers, a table or a query are refused. */
export class FaultError extends Error {
  private constructor();
  readonly fault: Fault;
  readonly code: string;
  readonly place: string;
  readonly sentence: string;
  /** Which of two geometries is refused. */
  readonly which?: "first" | "second";
  /** The place of the pair in a list. */
  readonly index?: number;
}

/** A query names a table that isn't loaded, the first such. A fault of the query that needs no table comes before. */
export class NotLoadedError extends Error {
  private constructor();
  readonly table: string;
}

/** The module's memory can't grow. What was made before is as it was. */
export class OutOfMemoryError extends Error {
  private constructor();
}

/** A fraction in lowest terms: its numerator and its denominator. */
export type Fraction = [bigint, bigint];
/** A rational point. */
export type RationalPoint = [Fraction, Fraction];

/** What shows a cell of a matrix: a point, a point with all points around it, or a stretch without its ends. */
export type Witness =
  | { kind: "point" | "around"; at: RationalPoint }
  | { kind: "stretch"; from: RationalPoint; to: RationalPoint };

export type Part = "interior" | "boundary" | "exterior";

/** A cell of a matrix. */
export interface Cell {
  first: Part;
  second: Part;
  /** The dimension of what both parts share. */
  dimension: "F" | "0" | "1" | "2";
  /** What shows it, as `sfq why` prints it: `at 0 0`, `from 0 0 to 6/5 2/5`, `around 2 2`, and nothing of F. */
  shown: string;
  /** The same in numbers. */
  witness: Witness | null;
}

/**
 * The grid: how large a step is, and where its 0 0 is, in decimal numbers of the source, with at most 15 digits behind the point. RangeError
 * where they have too many digits, or the step isn't greater than 0.
 */
export interface GridOptions {
  step?: number | string;
  origin?: [number | string, number | string];
}

/** How many positions each line or ring has; of a MultiPolygon by polygons. */
export type Parts = readonly number[] | readonly (readonly number[])[];

/** The least x, the least y, the greatest x and the greatest y; null is that of an empty geometry. */
export type Envelope = [number, number, number, number] | null;

/** A geometry of GeoJSON (RFC 7946, 3.1). */
export interface GeoJSONGeometry {
  type: TypeName;
  coordinates: any[];
}

/** A geometry, or the text of one, which is then read for this call alone. */
export type Shape = Geometry | string;

/**
 * A geometry. One whose text is refused is one too: `isValid` and `fault` say so, and a relation with it throws FaultError. Once it
 * is freed, whatever asks it throws.
 */
export class Geometry {
  private constructor();

  /** Reads a well-known text. */
  static read(text: string): Geometry;

  /** Makes a geometry of positions, an x and a y each. FaultError where it isn't valid, RangeError where the parts don't fit. */
  static fromPositions(type: TypeName, positions: Int32Array, parts?: Parts): Geometry;

  /**
   * Reads well-known binary (06-103r4, 8.2), in either order of bytes. A coordinate becomes the nearest whole number of steps from the
   * origin, of two the greater one; without a grid each has to be whole. FaultError where it isn't valid: a W1 is at a byte, a W2 or a W3 at a
   * position, and a type that isn't one of the six, has a Z or an M, or has an empty part is a W1 without a place.
   */
  static fromBinary(bytes: Uint8Array, grid?: GridOptions): Geometry;

  /** The well-known binary of the geometry, by the coordinates of the grid, or by the numbers of the source, the least byte first. */
  toBinary(grid?: GridOptions): Uint8Array;

  /**
   * Makes a geometry of one of GeoJSON, or of a Feature's. A coordinate becomes the nearest whole number of steps from the origin, of two the
   * greater one; without a grid each has to be whole. FaultError where it isn't valid, for a coordinate that is infinite, no number, not
   * whole or past the limit, for a third coordinate, and for a collection.
   */
  static fromGeoJSON(object: object, grid?: GridOptions): Geometry;

  /** The geometry as GeoJSON has it: by the coordinates of the grid, or by the numbers of the source. */
  toGeoJSON(grid?: GridOptions): GeoJSONGeometry;

  /** The DE-9IM matrix: nine characters F, 0, 1, 2 (06-103r4, 6.1.15.2). */
  relate(other: Shape): string;

  /** Whether the matrix matches a pattern of nine characters T, F, *, 0, 1, 2. RangeError for another pattern. */
  relatePattern(other: Shape, pattern: string): boolean;

  /** The nine cells of the matrix, by rows, each with what shows it. */
  why(other: Shape): Cell[];

  /** Whether both are the same set of points (06-103r4, 6.1.15.3). */
  equals(other: Shape): boolean;
  /** Whether they share no point. */
  disjoint(other: Shape): boolean;
  /** Whether they share a point. */
  intersects(other: Shape): boolean;
  /** Whether they share a point, and no point of both interiors. */
  touches(other: Shape): boolean;
  /** Whether they cross. */
  crosses(other: Shape): boolean;
  /** Whether the interiors share a point, and none of this geometry is outside the other. */
  within(other: Shape): boolean;
  /** Whether the other geometry is within this one. */
  contains(other: Shape): boolean;
  /** Whether they overlap. */
  overlaps(other: Shape): boolean;
  /** Whether they share a point, and none of the other geometry is outside this one. */
  covers(other: Shape): boolean;
  /** Whether they share a point, and none of this geometry is outside the other. */
  coveredBy(other: Shape): boolean;
  /** Whether they share a point, and all of the other geometry is in the interior of this one. */
  containsProperly(other: Shape): boolean;

  /** Where a position lies. RangeError where it isn't on the grid. */
  locate(x: number, y: number): Place;

  /** Where each position lies, an x and a y each. RangeError for the first that is past the limit. */
  locateMany(positions: Int32Array): Uint8Array;

  /** Whether it is the geometry of a valid text. */
  isValid(): boolean;

  /** Whether it is the empty set of points. */
  isEmpty(): boolean;

  /** The first fault of the text, or null. */
  readonly fault: Fault | null;

  /** `valid`, or the fault and where it is, as `sfq why` prints it: `V3 0: 0 0 to 4 4 and 4 0 to 0 4 share 2 2`. */
  readonly reason: string;

  /** The canonical text; of a refused text itself. */
  readonly text: string;

  /** The dimension of the type: 0 of points, 1 of lines, 2 of areas, also where it is empty. */
  readonly dimension: 0 | 1 | 2;

  /** Its bounds, or null where it is empty. */
  readonly envelope: Envelope;

  toString(): string;

  /** Gives back its memory. Freeing it again does nothing. */
  free(): void;
}

/** The matrices of pairs: of the first of both, of the second of both, and so on; the second may be one geometry for all. */
export function relateMany(first: readonly Geometry[], second: readonly Geometry[] | Geometry): string[];

/** The matrix of the geometries of two texts, and which relations hold of them. FaultError for the first text that is refused. */
export function relateTexts(first: string, second: string): { matrix: string; relations: Record<RelationName, boolean> };

/** An index of envelopes, which finds those that meet a window without a look at each. */
export class Index {
  /** RangeError where a least bound is past its greatest, or one past the limit. */
  constructor(envelopes: Iterable<Envelope>);

  /** How many envelopes it was made of. */
  readonly length: number;

  /** The places, ascending, of the envelopes that share a point with the window. That of null finds those of empty geometries. */
  search(window: Envelope): number[];

  /** Gives back its memory. Freeing it again does nothing. */
  free(): void;
}

export type ColumnType = "INTEGER" | "TEXT" | "GEOMETRY";

export interface Column {
  readonly name: string;
  readonly type: ColumnType;
}

export interface Table {
  readonly name: string;
  readonly columns: readonly Column[];
}

/** A field of a row: a number, where it is one exactly, else a BigInt; a text; the canonical text of a geometry; null. */
export type Value = number | bigint | string | null;

/** A database of tables that are kept in memory. */
export class Database {
  private constructor();

  /** Opens the database of a schema. No table is loaded. */
  static open(schema: string | Uint8Array): Database;

  /** The tables of the schema. */
  readonly tables: readonly Table[];

  /** Loads a table from CSV, in place of what was loaded of it. No statement may be open. */
  load(table: string, csv: string | Uint8Array): void;

  /** Whether a table is loaded. */
  isLoaded(table: string): boolean;

  /** Opens a statement of a query. NotLoadedError where a table that it names isn't loaded. */
  prepare(query: string | Uint8Array): Statement;

  /** The rows of a query, with its first constants bound to values. */
  query(query: string | Uint8Array, values?: readonly (Value | Geometry)[]): IterableIterator<Value[]>;

  /** Ends its statements, and gives back its memory. Freeing it again does nothing. */
  free(): void;
}

/** A query that is read, bound and planned once. */
export class Statement {
  private constructor();

  readonly database: Database;

  /** The columns of its rows, by their names in the header. */
  readonly columns: readonly Column[];

  /** The types of its constants, from the left: the numbers, texts and NULLs that it compares, and its geometries. */
  readonly constants: readonly (ColumnType | "NULL")[];

  /** Has another value of the same type, or null, in place of a constant, from 0, and begins anew. TypeError where none takes it. */
  bind(constant: number, value: Value | Geometry): void;

  /** The rows, from the first on. */
  rows(): IterableIterator<Value[]>;
  [Symbol.iterator](): IterableIterator<Value[]>;

  /**
   * Finds the next row. It is `busy` where it has looked at so many candidates without one, and the same rows are to come. RangeError
   * where that is no whole number from 0.
   */
  step(most?: number): "row" | "busy" | "end";

  /** Begins anew, before the first row. */
  reset(): void;

  /** The row that the last step found. */
  readonly row: Value[];

  /** The header and the row that the last step found, as the program `sfq` writes them. */
  readonly headerText: string;
  readonly rowText: string;

  /** The plan, as EXPLAIN writes it. */
  readonly plan: string;

  /** How many DE-9IM predicates without a NULL argument were decided since it began; a pair that the probe or an earlier condition rules out costs none. */
  readonly work: number | bigint;

  /** Ends it. Ending it again does nothing. */
  free(): void;
}
