// The DE-9IM matrix of two geometries, exactly (OGC 06-103r4), and queries over tables, by proved code in a module of WebAssembly.
import { start } from "./engine.js";

export { memorySize } from "./engine.js";
export { Database, Statement } from "./databases.js";
export { FaultError, NotLoadedError, OutOfMemoryError } from "./faults.js";
export { Geometry, Index, relateMany, relateTexts } from "./geometries.js";

// Where a position lies, as `locate` returns it.
export const INTERIOR = 0, BOUNDARY = 1, EXTERIOR = 2;

async function bytesAt(address) {
  if (address.protocol === "file:" && globalThis.process?.versions?.node) {
    const { readFile } = await import("node:fs/promises");
    return readFile(address);
  }
  const answer = await fetch(address);
  if (!answer.ok) throw new Error(`sfq: ${address} isn't there: ${answer.status}`);
  return answer.arrayBuffer();
}

async function begin(source) {
  const isAddress = typeof source === "string" || source instanceof URL;
  await start(isAddress ? await bytesAt(new URL(source, globalThis.location?.href)) : source);
}

export const load = (source = new URL("sfq.wasm", import.meta.url)) => begin(source);

export const loadDatabases = (source = new URL("sfq_tables.wasm", import.meta.url)) => begin(source);
