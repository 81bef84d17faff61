// What the package is tried with, in Node and in browsers: each function takes what is handed in, and returns what came of it as JSON has
// it. tests/test_javascript.py compares.
import * as sfq from "sfq";

/** @type {sfq.RelationName[]} */
const RELATIONS = [
  "equals", "disjoint", "intersects", "touches", "crosses", "within", "contains", "overlaps", "covers", "coveredBy", "containsProperly",
];

/**
 * What a call returns, or the line that the program has for a fault.
 * @template T
 * @param {() => T} call
 */
function orFault(call) {
  try {
    return call();
  } catch (error) {
    if (!(error instanceof sfq.FaultError)) throw error;
    return ["sfq:", error.which, error.place].filter(Boolean).join(" ");
  }
}

/** @param {sfq.Cell} cell */
const lineOf = (cell) => [cell.first, cell.second, cell.dimension, cell.shown].filter(Boolean).join(" ");

/**
 * Relates a pair by its texts, and by geometries in both orders.
 * @param {[string, string]} texts
 */
function related([a, b]) {
  const line = orFault(() => sfq.relateTexts(a, b).matrix), [one, other] = [sfq.Geometry.read(a), sfq.Geometry.read(b)];
  const reasons = [one, other].map((it) => it.reason), kept = orFault(() => one.relate(other));
  const isRelated = line.length === 9;
  const turned = isRelated ? other.relate(a) : "", relations = isRelated ? RELATIONS.filter((name) => one[name](other)) : [];
  const atOnce = isRelated ? sfq.relateTexts(a, b).relations : null, agree = RELATIONS.filter((name) => atOnce?.[name]);
  const pattern = isRelated && one.relatePattern(other, line) && !one.relatePattern(other, line.replace(/[F012]/, (it) => (it === "F" ? "0" : "F")));
  [one, other].forEach((it) => it.free());
  return { line, kept, turned, relations, agree: agree.join() === relations.join(), pattern: pattern === isRelated, reasons };
}

/** @param {{ pairs: [string, string][] }} given */
export async function pairs({ pairs }) {
  await sfq.load();
  const found = pairs.map(related), bytes = sfq.memorySize();
  pairs.forEach(related);
  return { found, lost: sfq.memorySize() - bytes };
}

/**
 * The nine lines of each pair; and whether each witness is what its line shows.
 * @param {{ pairs: [string, string][] }} given
 */
export async function whys({ pairs }) {
  await sfq.load();
  return pairs.map(([a, b]) => {
    const cells = sfq.Geometry.read(a).why(b), shown = { point: "0", stretch: "1", around: "2" };
    const isShown = cells.every(({ witness, dimension }) => (witness ? shown[witness.kind] : "F") === dimension);
    return { lines: cells.map(lineOf), isShown };
  });
}

// The faults of a query's grammar: `run` has them before it loads tables, and those of what names mean behind that.
const OF_GRAMMAR = ["Q1", "Q2", "Q10", "Q11", "Q12"];

/**
 * The line of a query's fault of grammar, or null.
 * @param {sfq.Database} database
 * @param {string} query
 */
function faultOfGrammar(database, query) {
  try {
    database.prepare(query).free();
    return null;
  } catch (error) {
    if (error instanceof sfq.NotLoadedError) return null;
    if (!(error instanceof sfq.FaultError)) throw error;
    return OF_GRAMMAR.includes(error.code) ? `sfq: ${error.place}` : null;
  }
}

/**
 * The answer to a query as the program writes it, with its rows as values; or the line of a fault.
 * @param {sfq.Database} database
 * @param {string} query
 */
function answer(database, query) {
  return orFault(() => {
    const statement = database.prepare(query), parts = [statement.headerText];
    for (;;) {
      const came = statement.step(64);
      if (came === "end") break;
      if (came === "row") parts.push(statement.rowText);
    }
    const rows = [...statement.rows()].map((row) => row.map((it) => (typeof it === "bigint" ? `${it}` : it)));
    statement.free();
    return { text: parts.join(""), rows };
  });
}

/** @param {{ databases: { schema: string, tables: (string | number[])[], queries: string[] }[] }} given */
export async function queries({ databases }) {
  await sfq.loadDatabases();
  const all = () => databases.map(({ schema, tables, queries }) => {
    const opened = orFault(() => sfq.Database.open(schema));
    if (typeof opened === "string") return queries.map(() => opened);
    const bytesOf = (/** @type {string | number[]} */ it) => (typeof it === "string" ? it : Uint8Array.from(it));
    const grammar = queries.map((query) => faultOfGrammar(opened, query));
    const loads = orFault(() => tables.forEach((text, place) => opened.load(opened.tables[place].name, bytesOf(text))));
    const found = queries.map((query, place) => grammar[place] ?? loads ?? answer(opened, query));
    opened.free();
    return found;
  });
  const found = all(), bytes = sfq.memorySize();
  all();
  return { found, lost: sfq.memorySize() - bytes };
}

/**
 * Calls so often, of all kinds. The memory is measured after a tenth of them.
 * @param {{ calls: number }} given
 */
export async function many({ calls }) {
  await sfq.loadDatabases();
  let made = 0, bytes = 0;
  const schema = "CREATE TABLE t (id INTEGER PRIMARY KEY, name TEXT, at POINT);";
  const table = "id,name,at\n1,one,POINT(1 1)\n2,two,POINT(9 9)\n";
  const turn = () => {
    const square = sfq.Geometry.read(`POLYGON((0 0,${4 + (made % 100)} 0,4 4,0 4,0 0))`);
    const line = sfq.Geometry.fromPositions("LineString", Int32Array.of(-2, 2, 2 + (made % 7), -2));
    const found = /** @type {unknown[]} */ ([]);
    found.push(square.relate(line), square.touches(line), square.locate(1, 1), square.envelope, line.text, sfq.Geometry.read("POINT(1").fault);
    sfq.relateMany([square, line], square);
    const index = new sfq.Index([square.envelope, line.envelope]);
    index.search([0, 0, 1, 1]);
    square.why(line);
    const database = sfq.Database.open(schema);
    database.load("t", table);
    found.push([...database.query("SELECT id, name FROM t WHERE ST_Within(at, ST_GeomFromText('POLYGON((0 0,4 0,4 4,0 4,0 0))'))")]);
    [square, line, index, database].forEach((it) => it.free());
    made += 20 + found.length;
  };
  while (made < calls / 10) turn();
  bytes = sfq.memorySize();
  while (made < calls) turn();
  return { made, lost: sfq.memorySize() - bytes };
}

// A row of calls of all kinds, which returns the same each time.
function row() {
  const many = Array.from({ length: 2000 }, (_, at) => [at * 10, at % 7]), text = `LINESTRING(${many.map((it) => it.join(" ")).join(",")})`;
  const line = sfq.Geometry.read(text), square = sfq.Geometry.read("POLYGON((0 0,400 0,400 4,0 4,0 0))");
  const index = new sfq.Index(many.map(([x, y]) => [x, y, x + 5, y + 5]));
  const found = [
    line.relate(square), line.text.length, square.crosses(line), square.locateMany(Int32Array.from(many.flat())).reduce((sum, it) => sum + it, 0),
    index.search([0, 0, 100, 9]).length, line.why(square).map(lineOf).join(), sfq.relateMany([line, square], square).join(),
  ];
  const database = sfq.Database.open("CREATE TABLE t (id INTEGER PRIMARY KEY, at POINT);");
  database.load("t", `id,at\n${many.map(([x, y], at) => `${at},POINT(${x} ${y})\n`).join("")}`);
  found.push([...database.query("SELECT COUNT(*) FROM t a, t b WHERE ST_Equals(a.at, b.at)")].join());
  [line, square, index, database].forEach((it) => it.free());
  return JSON.stringify(found);
}

/**
 * Makes a row of calls in modules whose memory grows by more and more pages: each growth is refused in turn, and the module goes on.
 * @param {{ modules: string[] }} given
 */
export async function shortOfMemory({ modules }) {
  await sfq.loadDatabases();
  const wanted = row(), found = [];
  for (const text of modules) {
    await sfq.loadDatabases(Uint8Array.from(atob(text), (it) => it.charCodeAt(0)));
    for (let round = 0; round < 3; round++) {
      try {
        found.push(row() === wanted ? "well" : "differs");
      } catch (error) {
        if (!(error instanceof sfq.OutOfMemoryError)) throw error;
        found.push(sfq.relateTexts("POINT(1 1)", "POINT(1 1)").matrix === "0FFFFFFF2" ? "refused" : "differs");
      }
    }
  }
  return found;
}

/**
 * Blocks of the heap keep what is written into them until they are given back.
 * @param {{ modules: string[] }} given
 */
export async function heap({ modules }) {
  const bytes = Uint8Array.from(atob(modules[modules.length - 1]), (it) => it.charCodeAt(0));
  const { exports } = (await WebAssembly.instantiate(bytes, {})).instance, calls = /** @type {any} */ (exports);
  const held = /** @type {{ at: number, size: number, mark: number }[]} */ ([]), memory = () => new Uint8Array(calls.memory.buffer);
  let seed = 1, refused = 0;
  const chance = (/** @type {number} */ most) => (seed = (seed * 48271) % 2147483647) % most;
  for (let round = 0; round < 5000; round++) {
    if (held.length && chance(2)) {
      const [{ at, size, mark }] = held.splice(chance(held.length), 1);
      if (!memory().subarray(at, at + size).every((it) => it === mark)) throw new Error(`a block of ${size} changed`);
      calls.give(at);
    } else {
      const size = chance(2) ? chance(60) : chance(90000), at = calls.take(size), mark = chance(256);
      if (!at) refused++;
      else if (at % 16) throw new Error("a block isn't aligned");
      else memory().fill(mark, at, at + size), held.push({ at, size, mark });
    }
  }
  if (calls.take(-1) || calls.take(2 ** 31 - 1)) throw new Error("more than there is");
  return refused ? "well" : "nothing was refused";
}

/**
 * What a call throws: the name and the message; or what it returns.
 * @param {() => unknown} call
 */
function thrown(call) {
  try {
    return call();
  } catch (error) {
    return error instanceof Error ? `${error.name}: ${error.message}` : "something else";
  }
}

// What is freed or of another module throws; so does what isn't on the grid.
export async function misuses() {
  await sfq.load();
  const square = sfq.Geometry.read("POLYGON((0 0,4 0,4 4,0 4,0 0))"), freed = sfq.Geometry.read("POINT(1 1)");
  freed.free();
  freed.free();
  const index = new sfq.Index([null, [0, 0, 1, 1]]), found = /** @type {Record<string, unknown>} */ ({
    freed: thrown(() => square.relate(freed)), text: thrown(() => freed.text), valid: thrown(() => freed.isValid()),
    noDatabase: thrown(() => sfq.Database.open("")), made: thrown(() => Reflect.construct(sfq.Geometry, [])),
    located: thrown(() => square.locate(0.5, 1)), past: thrown(() => square.locate(10000001, 1)),
    pastMany: thrown(() => square.locateMany(Int32Array.of(1, 1, 1, -10000001))),
    pattern: thrown(() => square.relatePattern("POINT(1 1)", "T********F")),
    parts: thrown(() => sfq.Geometry.fromPositions("Polygon", Int32Array.of(0, 0, 1, 0, 1, 1, 0, 0), [3])),
    limit: thrown(() => sfq.Geometry.fromPositions("Point", Int32Array.of(0, 10000001))),
    ring: thrown(() => sfq.Geometry.fromPositions("Polygon", Int32Array.of(0, 0, 1, 0, 1, 1, 0, 1), [4])),
    envelope: thrown(() => new sfq.Index([[0, 0, 1, 1], [1, 0, 0, 1]])), window: thrown(() => index.search([1, 0, 0, 1])),
    pair: thrown(() => sfq.relateMany([square, square], [square, sfq.Geometry.read("POINT(1.5 2)")])),
    none: index.search(null), one: index.search([1, 1, 2, 2]),
  });
  index.free();
  found.index = thrown(() => index.search(null));
  await sfq.load();
  found.other = thrown(() => square.relate("POINT(1 1)"));
  return found;
}

// What statements and databases refuse, and values of each kind.
export async function statements() {
  await sfq.loadDatabases();
  const database = sfq.Database.open("CREATE TABLE t (id INTEGER PRIMARY KEY, name TEXT, shape GEOMETRY);");
  const notLoaded = thrown(() => database.prepare("SELECT id FROM t"));
  database.load("T", new TextEncoder().encode("id,name,shape\n1,\"one, é\",POINT(1 1)\n9007199254740993,,\n"));
  const statement = database.prepare("SELECT * FROM t WHERE id >= 1 AND (name = 'x' OR id > 0 OR ST_Within(shape, ST_GeomFromText('POINT(1 1)')))");
  const rows = [...statement.rows()].map((row) => row.map((it) => (typeof it === "bigint" ? `${it}n` : it)));
  statement.bind(0, 2n ** 53n);
  const found = {
    notLoaded, rows, bound: [...statement].length, columns: statement.columns, constants: statement.constants, tables: database.tables,
    loaded: database.isLoaded("t"), plan: statement.plan, work: statement.work, header: statement.headerText,
    open: thrown(() => database.load("t", "")), unknown: thrown(() => database.load("u", "")), noRow: thrown(() => statement.row),
    wrong: thrown(() => statement.bind(0, "text")), half: thrown(() => statement.bind(1, "\ud800")), many: thrown(() => statement.bind(9, 1)),
    fraction: thrown(() => statement.bind(0, 1.5)), large: thrown(() => statement.bind(0, 2n ** 63n)),
    refused: thrown(() => statement.bind(3, "POINT(1")), unpaired: thrown(() => database.prepare("SELECT id FROM t WHERE name = '\ud800'")),
  };
  statement.free();
  const freed = thrown(() => statement.step());
  database.free();
  return { ...found, freed, closed: thrown(() => database.isLoaded("t")) };
}

/**
 * Numbers on a grid, and back.
 * @param {{ shapes: { shape: object, step: string, origin: [string, string] }[] }} given
 */
export async function onGrids({ shapes }) {
  await sfq.load();
  return shapes.map(({ shape, ...grid }) => orFault(() => {
    const it = sfq.Geometry.fromGeoJSON(shape, grid), found = [it.text, it.toGeoJSON(grid), it.toGeoJSON()];
    it.free();
    return found;
  }));
}

/**
 * Well-known binary, and what is written of it.
 * @param {{ values: { hex: string, step?: string, origin?: [string, string] }[] }} given
 */
export async function binaries({ values }) {
  await sfq.load();
  return values.map(({ hex, ...grid }) => orFault(() => {
    const bytes = Uint8Array.from({ length: hex.length / 2 }, (_, at) => parseInt(hex.slice(2 * at, 2 * at + 2), 16));
    const it = sfq.Geometry.fromBinary(bytes, grid), again = sfq.Geometry.fromBinary(it.toBinary(grid), grid);
    const found = [it.text, again.text, [...it.toBinary()].map((byte) => byte.toString(16).padStart(2, "0")).join("")];
    for (const one of [it, again]) one.free();
    return found;
  }));
}
