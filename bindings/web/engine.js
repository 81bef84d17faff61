// The package sfq as the page of two shapes asks it. `startEngine()` returns these calls once the module is ready.
//
//   fault(text)      null where the text is a valid geometry, else {code: "V4", numbers: [0, 1], place}
//   relate(a, b)     {matrix, holds}, or null where a text is refused
//   why(a, b)        a witness for each cell of the matrix, by rows, or null where a text is refused
//   about            what the module is
//
// `holds` has a Boolean for each relation. A witness is as the package has it. The place of a fault of a geometry is {line, words,
// points, edges, stretches}: the line that the program prints, what it says after the fault, and what it names: points, edges by their
// two ends, and the stretches that edges share; null for a fault of the text. All calls throw where memory runs out.
"use strict";

// Reads `n` or `n/d` as a fraction, and words of which two are a point.
const pointOf = (words) => words.map((word) => [...word.split("/").map(BigInt), 1n].slice(0, 2));

// Reads the line of a fault: `V3 0: 0 0 to 4 4 and 4 0 to 0 4 share 2 2`, `V2 0: from 0 0 to 0 4 isn't closed`,
// `V5 1: outside at 20 20`, `V1 0: 1 position left at 3 3`.
function placeOf(line) {
  const words = line.slice(line.indexOf(": ") + 2), number = "(-?\\d+(?:/\\d+)?)";
  const found = [...words.matchAll(new RegExp(`${number} ${number}(?: to ${number} ${number})?`, "g"))].map((it) => it.slice(1));
  const pairs = found.filter((it) => it[2]).map((it) => [pointOf(it.slice(0, 2)), pointOf(it.slice(2))]);
  const points = found.filter((it) => !it[2]).map((it) => pointOf(it.slice(0, 2)));
  if (words.startsWith("from ")) return { line, words, points: pairs[0], edges: [], stretches: [] };
  return { line, words, points, edges: pairs.slice(0, 2), stretches: pairs.slice(2) };
}

function fault(text) {
  const it = sfq.Geometry.read(text);
  try {
    return it.fault && { code: it.fault.code, numbers: it.fault.numbers, place: it.fault.code[0] === "V" ? placeOf(it.reason) : null };
  } finally {
    it.free();
  }
}

// Makes a call of the package, and returns null where it refuses a text.
function unlessRefused(call) {
  try {
    return call();
  } catch (error) {
    if (error instanceof sfq.FaultError) return null;
    throw error;
  }
}

function relate(a, b) {
  const found = unlessRefused(() => sfq.relateTexts(a, b));
  if (!found) return null;
  const named = Object.entries(found.relations).map(([name, is]) => [name[0].toUpperCase() + name.slice(1), is]);
  return { matrix: found.matrix, holds: Object.fromEntries(named) };
}

function why(a, b) {
  const it = sfq.Geometry.read(a);
  try {
    return unlessRefused(() => it.why(b).map((cell) => cell.witness));
  } finally {
    it.free();
  }
}

async function startEngine() {
  await sfq.start(MODULE.bytes);
  return { fault, relate, why, about: MODULE.about };
}
