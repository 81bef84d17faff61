// Databases of tables that a module keeps, and their statements.
import { BUSY, MADE, NONE, NOT_LOADED, OPEN, UNKNOWN, engine, freeLater, isFreed } from "./engine.js";
import { NotLoadedError } from "./faults.js";
import { Geometry } from "./geometries.js";

// The types of columns and of constants, by their numbers. Only a constant is NULL.
const COLUMN_TYPES = ["INTEGER", "TEXT", "GEOMETRY", "NULL"];
// How many candidates a step looks at where nobody says: as many as a call can be asked for.
const ALL = 2 ** 32 - 1;

// Half a surrogate pair has no bytes in UTF-8, so it would become another character.
function needText(text) {
  if (text instanceof Uint8Array) return text;
  if (typeof text !== "string") throw new TypeError("sfq: a text is a string, or its bytes in UTF-8");
  if (/\p{Surrogate}/u.test(text)) throw new TypeError("sfq: the text has half a surrogate pair");
  return text;
}

// A database where it is kept, and its open statements: what a Database and its statements share. An open statement is an object of its
// own, `{ number }`: the number itself is another statement's once the module has ended this one.
class Kept {
  constructor(it) {
    [this.engine, this.slot, this.statements] = [it, it.take(8), new Set()];
    it.putSizes(this.slot, [0]);
  }

  // Throws where it is freed.
  need() {
    if (!this.slot) throw new Error("sfq: the database is freed");
    return this.slot;
  }

  // Makes a call that gets this database, what else it is handed, and where a number goes. Returns the number.
  size(call, ...words) {
    this.engine.need(this.engine.calls[call](this.need(), ...words, this.engine.found));
    return this.engine.number();
  }

  // Makes a call that gets this database, what else it is handed, and room for a text. Returns the text.
  text(call, ...words) {
    const slot = this.need();
    return this.engine.textOf((...room) => this.engine.calls[call](slot, ...words, ...room));
  }

  end(statement) {
    if (!this.statements.delete(statement)) return;
    this.engine.need(this.engine.calls.finalize(this.slot, statement.number));
  }

  free() {
    if (!this.slot) return;
    [...this.statements].forEach((it) => this.end(it));
    this.engine.need(this.engine.calls.close(this.slot));
    this.engine.calls.give(this.slot);
    this.slot = 0;
  }
}

const freeKept = (kept) => kept.free();
const endStatement = (kept, statement) => kept.end(statement);

export class Database {
  #kept;

  constructor(made, kept) {
    if (made !== MADE) throw new TypeError("sfq: a database is made by Database.open");
    this.#kept = kept;
    const column = (table, place) => {
      const type = kept.engine.found + 16;
      const name = kept.engine.textOf((...room) => kept.engine.calls.table_column(kept.slot, table, place, ...room, type));
      return Object.freeze({ name, type: COLUMN_TYPES[kept.engine.number(16)] });
    };
    const listed = (count, make) => Object.freeze(Array.from({ length: count }, (_, place) => make(place)));
    this.tables = listed(kept.size("table_count"), (table) => Object.freeze({
      name: kept.text("table_name", table),
      columns: listed(kept.size("table_columns", table), (place) => column(table, place)),
    }));
    freeLater(this, freeKept, kept);
  }

  static open(schema) {
    const it = engine(), text = needText(schema);
    if (!it.calls.open) throw new Error("sfq: the module that was loaded has no databases: await loadDatabases()");
    const kept = new Kept(it);
    try {
      const length = it.put(text);
      it.needUnlessRefused(it.calls.open(it.room, length, kept.slot, it.found), () => it.tableFault());
    } catch (error) {
      it.calls.give(kept.slot);
      throw error;
    }
    return new Database(MADE, kept);
  }

  // The number of a table, by its name without regard to case.
  #table(name) {
    const { engine: it } = this.#kept, slot = this.#kept.need(), length = it.put(needText(name));
    const status = it.calls.find_table(slot, it.room, length, it.found);
    if (status === UNKNOWN) throw new RangeError(`sfq: the schema has no table ${name}`);
    it.need(status);
    return it.number();
  }

  load(name, csv) {
    const { engine: it } = this.#kept, table = this.#table(name), text = needText(csv);
    try {
      const length = it.put(text), status = it.calls.load(this.#kept.need(), table, it.room, length, it.found);
      if (status === OPEN) throw new Error("sfq: statements are open: free them before a table is loaded");
      it.needUnlessRefused(status, () => it.tableFault(this.tables[table].name));
    } finally {
      it.shrink();
    }
  }

  isLoaded(name) {
    const { engine: it } = this.#kept;
    it.need(it.calls.is_loaded(this.#kept.need(), this.#table(name), it.found));
    return it.bytes[it.found] === 1;
  }

  prepare(query) {
    const kept = this.#kept, { engine: it } = kept, slot = kept.need(), length = it.put(needText(query));
    // The number of the statement is in the way of no fault.
    const number = it.found + 48, status = it.calls.prepare(slot, it.room, length, number, it.found);
    if (status === NOT_LOADED) throw new NotLoadedError(this.tables[it.number(8)].name);
    if (status === UNKNOWN) throw new TypeError("sfq: the query's bytes aren't UTF-8");
    it.needUnlessRefused(status, () => it.tableFault());
    const statement = { number: it.number(48) };
    kept.statements.add(statement);
    return new Statement(MADE, this, kept, statement);
  }

  *query(query, values = []) {
    const statement = this.prepare(query);
    try {
      values.forEach((value, place) => statement.bind(place, value));
      yield* statement.rows();
    } finally {
      statement.free();
    }
  }

  free() {
    isFreed(this);
    this.#kept.free();
  }
}

// A number where it is one exactly, else a BigInt.
function numberOf(text) {
  const found = Number(text);
  return Number.isSafeInteger(found) ? found : BigInt(text);
}

export class Statement {
  #kept;
  #open;

  constructor(made, database, kept, open) {
    if (made !== MADE) throw new TypeError("sfq: a statement is made by Database.prepare");
    // The database is there as long as the statement.
    [this.database, this.#kept, this.#open] = [database, kept, open];
    freeLater(this, endStatement, kept, open);
    const { number } = open;
    const typeOf = (call, place) => COLUMN_TYPES[kept.size(call, number, place)];
    const listed = (call, make) => Object.freeze(Array.from({ length: kept.size(call, number) }, (_, place) => make(place)));
    this.columns = listed("columns", (place) => Object.freeze({
      name: kept.text("column_name", number, place), type: typeOf("column_type", place),
    }));
    this.constants = listed("constants", (place) => typeOf("constant_type", place));
  }

  // Throws where it is freed, or its database is. Returns its number.
  #need() {
    this.#kept.need();
    if (!this.#kept.statements.has(this.#open)) throw new Error("sfq: the statement is freed");
    return this.#open.number;
  }

  bind(constant, value) {
    const status = this.#bound(this.#need(), constant, value);
    if (status === UNKNOWN) throw new TypeError(`sfq: no constant ${constant} takes this value: ${this.constants.join(", ") || "there is none"}`);
    this.#kept.engine.needUnlessRefused(status, () => this.#kept.engine.tableFault());
  }

  #bound(number, constant, value) {
    const { engine: it, slot } = this.#kept;
    if (!Number.isInteger(constant) || constant < 0 || constant >= this.constants.length) return UNKNOWN;
    if (value === null) return it.calls.bind_null(slot, number, constant);
    if (typeof value === "bigint" || typeof value === "number") {
      if (typeof value === "number" && !Number.isSafeInteger(value)) throw new TypeError(`sfq: ${value} isn't a whole number, or isn't exact`);
      const exact = BigInt(value);
      if (exact !== BigInt.asIntN(64, exact)) throw new RangeError(`sfq: ${value} is past 64 bits`);
      return it.calls.bind_integer(slot, number, constant, exact);
    }
    const isGeometry = value instanceof Geometry || this.constants[constant] === "GEOMETRY";
    const length = it.put(value instanceof Geometry ? value.text : needText(value));
    return isGeometry
      ? it.calls.bind_geometry(slot, number, constant, it.room, length, it.found)
      : it.calls.bind_text(slot, number, constant, it.room, length);
  }

  step(most = ALL) {
    const { engine: it } = this.#kept, number = this.#need();
    if (!(most === Infinity || Number.isInteger(most)) || most < 0) throw new RangeError(`sfq: a step looks at a whole number of candidates, not ${most}`);
    const status = it.calls.step(this.#kept.slot, number, Math.min(most, ALL));
    if (status === NONE) return "end";
    if (status === BUSY) return "busy";
    it.need(status);
    return "row";
  }

  reset() {
    const { engine: it } = this.#kept, number = this.#need();
    it.need(it.calls.reset(this.#kept.slot, number));
  }

  get row() {
    const { engine: it } = this.#kept, number = this.#need();
    return this.columns.map(({ type }, column) => {
      const status = it.fill((...room) => it.calls.column_text(this.#kept.slot, number, column, ...room));
      if (status === NONE) return null;
      it.need(status);
      return type === "INTEGER" ? numberOf(it.text()) : it.text();
    });
  }

  *rows() {
    this.reset();
    for (;;) {
      const came = this.step();
      if (came === "end") return;
      if (came === "row") yield this.row;
    }
  }

  [Symbol.iterator]() {
    return this.rows();
  }

  get headerText() {
    return this.#kept.text("header_text", this.#need());
  }

  get rowText() {
    return this.#kept.text("row_text", this.#need());
  }

  get plan() {
    return this.#kept.text("plan_text", this.#need());
  }

  get work() {
    const { engine: it } = this.#kept, number = this.#need();
    it.need(it.calls.work(this.#kept.slot, number, it.found));
    return numberOf(it.view.getBigUint64(it.found, true));
  }

  free() {
    isFreed(this);
    if (this.#kept.slot) this.#kept.end(this.#open);
  }
}
