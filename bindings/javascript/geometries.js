// Geometries that a module keeps, and indexes of envelopes.
import { MADE, NONE, OK, REFUSED, SECOND_REFUSED, TOO_SMALL, UNKNOWN, engine, freeLater, isFreed } from "./engine.js";
import { FaultError, shapeFault } from "./faults.js";
import { fromGeoJSON, toGeoJSON } from "./geojson.js";
import { gridOf } from "./grid.js";

// The types and the relations, by the numbers that the calls have for them.
const TYPES = ["Point", "LineString", "Polygon", "MultiPoint", "MultiLineString", "MultiPolygon"];
const RELATIONS = [
  "equals", "disjoint", "intersects", "touches", "crosses", "within", "contains", "overlaps", "covers", "coveredBy",
  "containsProperly",
];
// How many positions or pairs are handed in at a time.
const MOST = 4096;
// Returns the module of a geometry, and where it is kept there.
let keptOf;

// Reads `n` or `n/d` as a fraction, and words of which two are a point.
const fractionOf = (word) => [...word.split("/").map(BigInt), 1n].slice(0, 2);
const pointOf = (words) => words.map(fractionOf);

// Reads what shows a cell: `at 0 0`, `from 0 0 to 6/5 2/5`, `around 2 2`.
function witnessOf(shown) {
  const [how, x, y, , ...end] = shown.split(" ");
  if (!how) return null;
  if (how === "from") return { kind: "stretch", from: pointOf([x, y]), to: pointOf(end) };
  return { kind: how === "at" ? "point" : "around", at: pointOf([x, y]) };
}

// Reads a line of `why`: `interior boundary 0 at 0 0`.
function cellOf(line) {
  const [first, second, dimension, ...words] = line.split(" "), shown = words.join(" ");
  return { first, second, dimension, shown, witness: witnessOf(shown) };
}

const whole32 = (it) => Number.isInteger(it) && it === (it | 0);

function needPositions(positions) {
  if (!(positions instanceof Int32Array) || positions.length % 2) throw new TypeError("sfq: positions are an Int32Array, an x and a y each");
}

const pastLimit = (what) => new RangeError(`sfq: ${what} is past 10,000,000 either way`);

// Reads positions with their parts: how many positions each line or ring has, by polygons of a MultiPolygon. Returns the engine and
// where the geometry is kept.
function readPositions(type, positions, parts) {
  const number = TYPES.indexOf(type) + 1;
  if (!number) throw new TypeError(`sfq: a type is one of ${TYPES.join(", ")}, not ${String(type)}`);
  needPositions(positions);
  const lines = parts.flat(), polygons = type === "MultiPolygon" ? parts.map((it) => it.length) : [], it = engine();
  if (![...lines, ...polygons].every((count) => whole32(count) && count > 0)) throw new TypeError("sfq: a part has one position or ring at least");
  const behind = 4 * positions.length, count = behind + 8 * (lines.length + polygons.length), slot = emptySlot(it);
  try {
    it.grow(count);
    it.bytes.set(new Uint8Array(positions.buffer, positions.byteOffset, behind), it.room);
    it.putSizes(it.room + behind, lines);
    it.putSizes(it.room + behind + 8 * lines.length, polygons);
    const listed = [it.room + behind, lines.length, it.room + behind + 8 * lines.length, polygons.length];
    const status = it.calls.read_positions(number, it.room, positions.length / 2, ...listed, slot, it.found);
    if (status === UNKNOWN) throw new RangeError(`sfq: a ${type} has no such parts, or they don't have these positions`);
    it.needUnlessRefused(status, () => it.geometryFault(true));
  } catch (error) {
    it.calls.give(slot);
    throw error;
  }
  return [it, slot];
}

// Reads well-known binary, on a grid where there is one. Returns the engine and where the geometry is kept.
function readBinary(bytes, grid) {
  if (!(bytes instanceof Uint8Array)) throw new TypeError("sfq: well-known binary is a Uint8Array");
  const it = engine(), slot = emptySlot(it);
  try {
    const length = it.put(bytes), status = it.calls.read_binary(grid ? grid.put(it) : 0, it.room, length, slot, 0, 0, it.found);
    if (status === UNKNOWN) throw new FaultError(shapeFault("W1", `a geometry is one of ${TYPES.join(", ")}, flat and without empty parts`));
    it.needUnlessRefused(status, () => it.binaryFault());
  } catch (error) {
    it.calls.give(slot);
    throw error;
  } finally {
    it.shrink();
  }
  return [it, slot];
}

// Room for a geometry or an index, which is empty.
function emptySlot(it) {
  const slot = it.take(8);
  it.putSizes(slot, [0]);
  return slot;
}

function freeGeometry(it, slot) {
  it.calls.free(slot);
  it.calls.give(slot);
}

export class Geometry {
  #engine;
  #slot;
  #fault;
  #spelled;

  constructor(made, it, slot, fault, spelled) {
    if (made !== MADE) throw new TypeError("sfq: a geometry is made by Geometry.read, fromPositions, fromBinary or fromGeoJSON");
    [this.#engine, this.#slot, this.#fault, this.#spelled] = [it, slot, fault, spelled];
    if (slot) freeLater(this, freeGeometry, it, slot);
  }

  static read(text) {
    if (typeof text !== "string") throw new TypeError("sfq: a text is a string");
    const it = engine(), slot = emptySlot(it);
    let status;
    try {
      const length = it.put(text);
      status = it.calls.read(it.room, length, slot, it.found);
      if (status !== REFUSED) it.need(status);
    } finally {
      if (status !== OK) it.calls.give(slot);
    }
    return status === OK ? new Geometry(MADE, it, slot, null, null) : new Geometry(MADE, it, 0, it.geometryFault(), text);
  }

  static fromPositions(type, positions, parts = []) {
    return new Geometry(MADE, ...readPositions(type, positions, parts), null, null);
  }

  static fromBinary(bytes, grid = {}) {
    return new Geometry(MADE, ...readBinary(bytes, gridOf(grid)), null, null);
  }

  toBinary(grid = {}) {
    const it = this.#engine, slot = this.#need(), made = gridOf(grid);
    it.need(it.fill((...room) => it.calls.write_binary(slot, made ? made.put(it) : 0, ...room)));
    return it.bytes.slice(it.room, it.room + it.number());
  }

  static fromGeoJSON(object, grid = {}) {
    return Geometry.fromPositions(...fromGeoJSON(object, grid));
  }

  toGeoJSON(grid = {}) {
    this.#need();
    return toGeoJSON(this.text, grid);
  }

  // Throws where it is freed or refused. Returns where it is kept.
  #need(which) {
    if (this.#fault) throw new FaultError(this.#fault, { which });
    if (!this.#slot) throw new Error("sfq: the geometry is freed");
    return this.#slot;
  }

  // Calls with where this geometry and another are kept. One that is a text is read for the call alone.
  #with(other, call) {
    const first = this.#need("first"), it = typeof other === "string" ? Geometry.read(other) : other;
    if (!(it instanceof Geometry)) throw new TypeError("sfq: a geometry or its text is needed");
    const second = it.#need("second");
    if (it.#engine !== this.#engine) throw new Error("sfq: the geometries are of two modules");
    try {
      return call(first, second);
    } finally {
      if (it !== other) it.free();
    }
  }

  #holds(relation, other) {
    const it = this.#engine;
    return this.#with(other, (first, second) => it.foundIn(it.calls.holds(relation, first, second)) === 1);
  }

  relate(other) {
    const it = this.#engine;
    return this.#with(other, (first, second) => {
      it.need(it.calls.relate(first, second, it.found));
      return it.matrix(it.found);
    });
  }

  relatePattern(other, pattern) {
    const it = this.#engine;
    return this.#with(other, (first, second) => {
      const length = it.put(String(pattern)), came = it.calls.relate_pattern(first, second, it.room, length);
      if ((came & 255) === UNKNOWN) throw new RangeError(`sfq: a pattern is nine characters T, F, *, 0, 1 or 2, not ${pattern}`);
      return it.foundIn(came) === 1;
    });
  }

  why(other) {
    const it = this.#engine;
    return this.#with(other, (first, second) => {
      const text = it.textOf((...room) => it.calls.why(first, second, ...room));
      return text.trimEnd().split("\n").map(cellOf);
    });
  }

  locate(x, y) {
    const it = this.#engine, slot = this.#need();
    if (!whole32(x) || !whole32(y)) throw new RangeError(`sfq: ${x} ${y} isn't a position of whole coordinates on the grid`);
    const came = it.calls.locate(slot, x, y);
    if ((came & 255) === UNKNOWN) throw pastLimit(`the position ${x} ${y}`);
    return it.foundIn(came);
  }

  locateMany(positions) {
    needPositions(positions);
    const it = this.#engine, slot = this.#need(), places = new Uint8Array(positions.length / 2);
    for (let from = 0; from < places.length; from += MOST) {
      const part = positions.subarray(2 * from, 2 * (from + MOST)), count = part.length / 2;
      it.grow(12 * count);
      it.bytes.set(new Uint8Array(part.buffer, part.byteOffset, part.byteLength), it.room);
      const status = it.calls.locate_many(slot, it.room, count, it.room + 8 * count, it.found);
      if (status === UNKNOWN) throw pastLimit(`position ${from + it.number()}`);
      it.need(status);
      places.set(new Uint32Array(it.bytes.buffer, it.room + 8 * count, count), from);
    }
    return places;
  }

  isValid() {
    if (!this.#fault) this.#need();
    return this.#fault === null;
  }

  get fault() {
    if (!this.#fault) this.#need();
    return this.#fault;
  }

  get reason() {
    if (this.isValid()) return "valid";
    if (this.#fault.code[0] === "W") return this.#fault.place;
    const it = this.#engine, length = it.put(this.#spelled);
    it.need(it.fill((at, size, count) => it.calls.reason(it.room, length, at, size, count, it.found + 16), length));
    return it.text(length).trimEnd();
  }

  get text() {
    if (this.#fault) return this.#spelled;
    const it = this.#engine, slot = this.#need();
    return it.textOf((...room) => it.calls.text(slot, ...room));
  }

  toString() {
    return this.text;
  }

  get dimension() {
    const it = this.#engine;
    return it.foundIn(it.calls.dimension(this.#need()));
  }

  isEmpty() {
    const it = this.#engine;
    return it.foundIn(it.calls.is_empty(this.#need())) === 1;
  }

  get envelope() {
    const it = this.#engine, status = it.calls.envelope(this.#need(), it.found);
    if (status === NONE) return null;
    it.need(status);
    const [left, right, low, high] = new Int32Array(it.bytes.buffer, it.found, 4);
    return [left, low, right, high];
  }

  free() {
    if (!this.#slot) return;
    isFreed(this);
    freeGeometry(this.#engine, this.#slot);
    this.#slot = 0;
  }

  static {
    for (const [number, name] of RELATIONS.entries()) {
      const { [name]: value } = { [name](other) { return this.#holds(number, other); } };
      Object.defineProperty(Geometry.prototype, name, { value, writable: true, configurable: true });
    }
    keptOf = (it, which, index) => {
      if (!(it instanceof Geometry)) throw new TypeError("sfq: a geometry is needed");
      if (it.#fault) throw new FaultError(it.#fault, { which, index });
      return [it.#engine, it.#need()];
    };
  }
}

// The matrices of pairs of geometries, of which the first has the place `from`.
function matricesOf(first, second, from) {
  const pairs = first.map((it, place) => [keptOf(it, "first", from + place), keptOf(second[place], "second", from + place)]);
  const it = pairs[0][0][0], count = pairs.length;
  if (!pairs.flat().every(([other]) => other === it)) throw new Error("sfq: the geometries are of two modules");
  it.grow(25 * count);
  const [ones, others, matrices] = [it.room, it.room + 8 * count, it.room + 16 * count];
  it.putSizes(ones, pairs.map(([[, one]]) => one));
  it.putSizes(others, pairs.map(([, [, other]]) => other));
  it.need(it.calls.relate_many(ones, others, count, matrices, it.found));
  const text = it.letters(matrices, 9 * count);
  return pairs.map((_, place) => text.slice(9 * place, 9 * place + 9));
}

export function relateMany(first, second) {
  const others = second instanceof Geometry ? first.map(() => second) : second, found = [];
  if (others.length !== first.length) throw new RangeError(`sfq: ${first.length} geometries with ${others.length}: both have to have as many`);
  for (let from = 0; from < first.length; from += MOST) {
    found.push(...matricesOf(first.slice(from, from + MOST), others.slice(from, from + MOST), from));
  }
  return found;
}

export function relateTexts(first, second) {
  if (typeof first !== "string" || typeof second !== "string") throw new TypeError("sfq: a text is a string");
  const it = engine(), length = it.put(first), other = it.put(second, length);
  const [matrix, holds] = [it.found + 24, it.found + 40];
  const status = it.calls.answer_texts(it.room, length, it.room + length, other, matrix, holds, it.found);
  if (status === REFUSED || status === SECOND_REFUSED) {
    throw new FaultError(it.geometryFault(), { which: status === REFUSED ? "first" : "second" });
  }
  it.need(status);
  const found = it.bytes.slice(holds, holds + RELATIONS.length);
  return { matrix: it.matrix(matrix), relations: Object.fromEntries(RELATIONS.map((name, place) => [name, found[place] === 1])) };
}

// The bounds that the calls have for an envelope: the least x, the greatest x, the least y and the greatest y.
function boundsOf(envelope, place) {
  if (envelope === null) return [0, -1, 0, -1];
  const [left, low, right, high] = envelope;
  if (envelope.length !== 4 || !envelope.every(whole32)) throw new RangeError(`sfq: ${place} isn't four whole numbers on the grid`);
  return [left, right, low, high];
}

const noEnvelope = (place) => new RangeError(`sfq: ${place} has a least bound past its greatest, or one past 10,000,000 either way`);

function freeIndex(it, slot) {
  it.calls.index_free(slot);
  it.calls.give(slot);
}

export class Index {
  #engine;
  #slot;

  constructor(envelopes) {
    const bounds = Int32Array.from([...envelopes].flatMap((envelope, place) => boundsOf(envelope, `the envelope at ${place}`)));
    const it = engine(), slot = emptySlot(it);
    try {
      const length = it.put(new Uint8Array(bounds.buffer)), status = it.calls.index_build(it.room, length / 16, slot, it.found);
      if (status === UNKNOWN) throw noEnvelope(`the envelope at ${it.number()}`);
      it.need(status);
    } catch (error) {
      it.calls.give(slot);
      throw error;
    } finally {
      it.shrink();
    }
    [this.#engine, this.#slot, this.length] = [it, slot, bounds.length / 4];
    freeLater(this, freeIndex, it, slot);
  }

  search(window) {
    const it = this.#engine, slot = this.#slot;
    if (!slot) throw new Error("sfq: the index is freed");
    const bounds = Int32Array.from(boundsOf(window, "the window"));
    // The window is behind the count, and the positions are in the room.
    for (;;) {
      it.bytes.set(new Uint8Array(bounds.buffer), it.found + 16);
      const status = it.calls.index_search(slot, it.found + 16, it.room, Math.floor(it.size / 8), it.found), count = it.number();
      if (status === UNKNOWN) throw noEnvelope("the window");
      if (status !== TOO_SMALL) {
        it.need(status);
        const found = new Uint32Array(it.bytes.buffer, it.room, 2 * count);
        return Array.from({ length: count }, (_, place) => found[2 * place]);
      }
      it.grow(8 * count);
    }
  }

  free() {
    if (!this.#slot) return;
    isFreed(this);
    freeIndex(this.#engine, this.#slot);
    this.#slot = 0;
  }
}
