// Faults: why a text, numbers, a table or a query are refused.
import { SENTENCES } from "./sentences.js";

// How many of the two numbers each fault of a geometry uses.
const USED = { W1: 1, W2: 1, W3: 1, W4: 0, V1: 1, V2: 1, V3: 1, V4: 2, V5: 1, V6: 2, V7: 2, V8: 2 };
// The faults of a schema, a table or a query that have no place.
const WITHOUT_PLACE = ["S6", "L1", "L2", "L10", "L11", "Q11"];

// Returns the first fault of a geometry: of a text, or of positions, where what is at a byte of a text is at a position.
export function geometryFault(code, found, isOfPositions = false) {
  const numbers = found.slice(0, USED[code]), isOfText = code[0] === "W";
  const at = isOfText && numbers.length ? [isOfPositions ? "at position" : "at"] : [];
  const sentence = isOfPositions ? SENTENCES[code].replace("the number at this byte", "a coordinate of this position") : SENTENCES[code];
  return Object.freeze({ code, numbers: Object.freeze(numbers), place: [code, ...at, ...numbers].join(" "), sentence });
}

// Returns the first fault of well-known binary: at a byte, or at a position.
export function binaryFault(code, found) {
  if (code !== "W1") return geometryFault(code, found, code === "W2" || code === "W3");
  const numbers = Object.freeze(found.slice(0, 1)), sentence = "this is no well-known binary from this byte on";
  return Object.freeze({ code, numbers, place: `W1 at ${found[0]}`, sentence });
}

// Returns the fault of what GeoJSON has and a text can't have, at a position or nowhere.
export function shapeFault(code, sentence, position) {
  const numbers = position === undefined ? [] : [position];
  const place = numbers.length ? `${code} at position ${position}` : code;
  return Object.freeze({ code, numbers: Object.freeze(numbers), place, sentence });
}

// Returns the first fault of a schema, of a query, or of the table of a name; `geometry` is that of a geometry's text in it.
export function tableFault(code, at, table, geometry) {
  const numbers = WITHOUT_PLACE.includes(code) ? [] : [at], word = code[0] === "L" ? "record" : "at";
  const words = [table, code, ...(numbers.length ? [word, at] : []), geometry?.place].filter((it) => it !== undefined);
  const sentence = geometry ? `${SENTENCES[code]}: ${geometry.sentence}` : SENTENCES[code];
  return Object.freeze({ code, numbers: Object.freeze(numbers), place: words.join(" "), sentence, table, geometry });
}

export class FaultError extends Error {
  constructor(fault, { which, index } = {}) {
    const words = [which, `${fault.place}: ${fault.sentence}`, index === undefined ? undefined : `(pair ${index})`];
    super(`sfq: ${words.filter((it) => it !== undefined).join(" ")}`);
    this.name = "FaultError";
    Object.assign(this, { fault, code: fault.code, place: fault.place, sentence: fault.sentence, which, index });
  }
}

export class NotLoadedError extends Error {
  constructor(table) {
    super(`sfq: the table ${table} isn't loaded`);
    this.name = "NotLoadedError";
    this.table = table;
  }
}

export class OutOfMemoryError extends Error {
  constructor() {
    super("sfq: memory ran out");
    this.name = "OutOfMemoryError";
  }
}
