// A module of WebAssembly that was started, with texts and numbers in and out of its memory. bindings/c/sfq.h and sfq_tables.h say
// what its calls do: an address or a count is a number, and what is of 64 bits in memory has its high half 0.
import { FaultError, OutOfMemoryError, binaryFault, geometryFault, tableFault } from "./faults.js";

export const OK = 0, REFUSED = 1, SECOND_REFUSED = 2, OUT_OF_MEMORY = 3, UNKNOWN = 4, TOO_SMALL = 5, NONE = 6, BUSY = 8, NOT_LOADED = 9;
export const OPEN = 10, NO_ROW = 12;
// What makes a Geometry, a Database or a Statement, which nobody else has.
export const MADE = Symbol("made");
// Longer texts are encoded beside the module first, so that the module has room for their bytes alone.
const LONG = 1 << 16;
// Room beyond this is given back once it isn't needed.
const MOST_ROOM = 1 << 20;
// Bytes for what a call writes: a fault, a matrix, bounds, a count.
const FOUND = 64;

const encoder = new TextEncoder(), decoder = new TextDecoder("utf-8", { ignoreBOM: true });

export class Engine {
  #memory;
  #bytes = new Uint8Array();
  #view = new DataView(new ArrayBuffer(0));
  #size = 0;

  constructor(instance) {
    this.calls = instance.exports;
    this.#memory = instance.exports.memory;
    // Where calls write what they find, and where texts are handed in and out.
    this.found = this.take(FOUND);
    this.room = 0;
    this.grow(1 << 12);
  }

  // The memory as bytes, and by numbers: anew where it has grown, which empties what was there of it.
  get bytes() {
    if (this.#bytes.length === 0) this.#renew();
    return this.#bytes;
  }

  get view() {
    if (this.#bytes.length === 0) this.#renew();
    return this.#view;
  }

  #renew() {
    this.#bytes = new Uint8Array(this.#memory.buffer);
    this.#view = new DataView(this.#memory.buffer);
  }

  get size() {
    return this.#size;
  }

  take(count) {
    const at = count < 2 ** 31 ? this.calls.take(count) >>> 0 : 0;
    if (at === 0) throw new OutOfMemoryError();
    return at;
  }

  // Has room for so many bytes. What was in it stays.
  grow(count) {
    if (count <= this.#size) return;
    const larger = this.take(count);
    this.bytes.copyWithin(larger, this.room, this.room + this.#size);
    if (this.room) this.calls.give(this.room);
    [this.room, this.#size] = [larger, count];
  }

  // Gives back what a large text needed.
  shrink() {
    if (this.#size <= MOST_ROOM) return;
    this.calls.give(this.room);
    [this.room, this.#size] = [0, 0];
    this.grow(1 << 12);
  }

  // Writes a text, or bytes, into the room, behind so many bytes. Returns how many bytes it has.
  put(text, behind = 0) {
    if (typeof text === "string" && text.length < LONG) {
      this.grow(behind + 3 * text.length);
      return encoder.encodeInto(text, this.bytes.subarray(this.room + behind, this.room + this.#size)).written;
    }
    const bytes = typeof text === "string" ? encoder.encode(text) : text;
    this.grow(behind + bytes.length);
    this.bytes.set(bytes, this.room + behind);
    return bytes.length;
  }

  // Makes a call that writes a text into the room, behind so many bytes: it gets where, how many bytes fit, and where the length goes.
  // Returns the status.
  fill(call, behind = 0) {
    for (;;) {
      const status = call(this.room + behind, this.#size - behind, this.found);
      if (status !== TOO_SMALL) return status;
      this.grow(behind + this.number());
    }
  }

  // The text that was written into the room behind so many bytes, whose length is the number found.
  text(behind = 0) {
    return this.letters(this.room + behind, this.number());
  }

  // The nine characters of a matrix at an address.
  matrix(at) {
    const it = this.bytes;
    return String.fromCharCode(
      it[at], it[at + 1], it[at + 2], it[at + 3], it[at + 4], it[at + 5], it[at + 6], it[at + 7], it[at + 8],
    );
  }

  // So many letters at an address.
  letters(at, count) {
    return decoder.decode(this.bytes.slice(at, at + count));
  }

  // The text that a call writes, which has to be well.
  textOf(call) {
    this.need(this.fill(call));
    return this.text();
  }

  // A number that was found, so many bytes behind the first.
  number(behind = 0) {
    return this.view.getUint32(this.found + behind, true);
  }

  // Writes numbers of 64 bits at an address: counts or addresses, whose high half is 0.
  putSizes(at, numbers) {
    const to = new Uint32Array(this.#memory.buffer, at, 2 * numbers.length);
    for (let place = 0; place < numbers.length; place++) {
      to[2 * place] = numbers[place];
      to[2 * place + 1] = 0;
    }
  }

  // Throws unless a status is OK.
  need(status) {
    if (status === OK) return;
    if (status === OUT_OF_MEMORY) throw new OutOfMemoryError();
    if (status === NO_ROW) throw new Error("sfq: no row is there: the last step found none");
    throw new Error(`sfq: the module returned the status ${status}`);
  }

  // What a short call found, which is above the 8 bits of its status.
  foundIn(came) {
    if (came & 255) this.need(came & 255);
    return came >> 8;
  }

  // Throws unless a status is OK, and what `fault` returns where it is refused.
  needUnlessRefused(status, fault) {
    if (status === REFUSED) throw new FaultError(fault());
    this.need(status);
  }

  #code(behind) {
    return String.fromCharCode(this.view.getUint8(this.found + behind)) + this.view.getUint8(this.found + behind + 1);
  }

  // The fault of a geometry that was written.
  geometryFault(isOfPositions = false, behind = 0) {
    return geometryFault(this.#code(behind), [this.number(behind + 8), this.number(behind + 16)], isOfPositions);
  }

  // The fault of well-known binary that was written.
  binaryFault() {
    return binaryFault(this.#code(0), [this.number(8), this.number(16)]);
  }

  // The fault of a schema, a table or a query that was written.
  tableFault(table) {
    const hasGeometry = this.view.getUint8(this.found + 16) !== 0;
    return tableFault(this.#code(0), this.number(8), table, hasGeometry ? this.geometryFault(false, 16) : undefined);
  }
}

let current = null;

// The module that was started last.
export function engine() {
  if (!current) throw new Error("sfq: no module was loaded: await load() first");
  return current;
}

// How many bytes the memory of the module has that was started last.
export function memorySize() {
  return engine().bytes.length;
}

// Starts a module, given its bytes or as it was compiled.
export async function start(source) {
  const made = await WebAssembly.instantiate(source, {});
  current = new Engine(made instanceof WebAssembly.Instance ? made : made.instance);
}

// Frees what nobody can use any more: a geometry, an index, a statement or a database that wasn't freed.
const registry = new FinalizationRegistry(([free, ...words]) => free(...words));

// Has a call made with these words once nobody can use a thing any more. They hold nothing of it.
export function freeLater(it, free, ...words) {
  registry.register(it, [free, ...words], it);
}

export function isFreed(it) {
  registry.unregister(it);
}
