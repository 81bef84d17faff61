// What the types of the package take, and what they refuse: the compiler finds an error in each line behind `@ts-expect-error`.
import { BOUNDARY, Database, Envelope, FaultError, Geometry, Index, load, loadDatabases, Place, relateMany, relateTexts, Value } from "sfq";

export async function uses(): Promise<void> {
  await load();
  await loadDatabases(new URL("sfq_tables.wasm", "https://example.org/"));
  await load(new Uint8Array());
  const square: Geometry = Geometry.read("POLYGON((0 0,4 0,4 4,0 4,0 0))");
  const polygons = Geometry.fromPositions("MultiPolygon", new Int32Array(16), [[4], [4]]);
  const town = Geometry.fromGeoJSON({ type: "Point", coordinates: [1.5, 2] }, { step: "0.01", origin: [0, "0.5"] });
  const bytes: Uint8Array = Geometry.fromBinary(new Uint8Array(), { step: "0.01" }).toBinary();
  const matrix: string = square.relate(town), touches: boolean = square.touches("POINT(4 4)");
  const place: Place = square.locate(4, 1), isBoundary: boolean = place === BOUNDARY;
  const bounds: Envelope = polygons.envelope, near: number[] = new Index([bounds, null]).search([0, 0, 1, 1]);
  const all: string[] = relateMany([square, town], square), within: boolean = relateTexts("POINT(1 1)", "POINT(1 1)").relations.within;
  for (const { witness, dimension } of square.why(town)) {
    if (witness?.kind === "stretch") console.log(dimension, witness.from[0][0] + 1n);
  }
  const database = Database.open("CREATE TABLE t (id INTEGER PRIMARY KEY);");
  const rows: Value[][] = [...database.query("SELECT id FROM t WHERE id = 1", [1n])];
  try {
    database.load("t", "id\n");
  } catch (error) {
    if (error instanceof FaultError) console.log(error.code, error.fault.table, error.fault.geometry?.place);
  }
  console.log(matrix, touches, isBoundary, near, all, within, rows, bytes);
}

export function misuses(square: Geometry): void {
  // @ts-expect-error
  new Geometry("POINT(1 1)");
  // @ts-expect-error
  Geometry.read(1);
  // @ts-expect-error
  Geometry.fromPositions("Circle", new Int32Array(2));
  // @ts-expect-error
  Geometry.fromPositions("Point", [1, 2]);
  // @ts-expect-error
  square.text = "POINT(1 1)";
  // @ts-expect-error
  if (square.isValid) return;
  // @ts-expect-error
  square.distance("POINT(1 1)");
  // @ts-expect-error
  const fault: string = square.fault;
  // @ts-expect-error
  new Index([[1, 2, 3]]);
  console.log(fault);
}
