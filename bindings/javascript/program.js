// The program sfq in Node: it reads the files that a command names, and writes what the proved code gives.
import fs from "node:fs";
import * as found from "./serve.js";
import { OutOfMemory, isInput, isLong, serving } from "./serve.js";

// Statuses, and the lines that go with them where the module gives none.
const FILES = 6, MEMORY = 7;
const WRITE_FAILED = "sfq: write failed\n", OUT_OF_MEMORY = "sfq: out of memory\n";
// How much of a file is read that isn't read whole: a byte more than the longest of them may have. And of one that is: more than the
// module's memory has room for.
const MOST_TEXT = (16 << 20) + 1, MOST_BYTES = 2 ** 30;
const PIECE = 1 << 20;
// How long a stream that isn't ready is waited for, in milliseconds.
const PAUSE = 10;
// What shows explanations in colour on a terminal: cyan, for each line by itself.
const COLOUR = "\x1b[36m", PLAIN = "\x1b[0m";

function wait() {
  Atomics.wait(new Int32Array(new SharedArrayBuffer(4)), 0, 0, PAUSE);
}

// Makes a call of the system again where the stream isn't ready, or a signal interrupts it.
function patiently(call) {
  for (;;) {
    try {
      return call();
    } catch (error) {
      if (error.code !== "EAGAIN" && error.code !== "EINTR") throw error;
      wait();
    }
  }
}

// ---- reading

// What can be read of an open file that is expected to have so many bytes, and whether that is all.
function readOpen(file, most, expected) {
  let bytes = new Uint8Array(Math.min(most, expected + 1)), size = 0, isWhole = true;
  try {
    for (;;) {
      if (size === bytes.length) bytes = larger(bytes, most);
      const count = patiently(() => fs.readSync(file, bytes, size, bytes.length - size, null));
      size += count;
      if (count === 0 || size === most) break;
    }
  } catch (error) {
    if (error instanceof RangeError) throw error;
    isWhole = false;
  }
  if (size === MOST_BYTES) throw new OutOfMemory();
  return { isWhole, bytes: bytes.subarray(0, size) };
}

function larger(bytes, most) {
  const more = new Uint8Array(Math.min(most, 2 * bytes.length));
  more.set(bytes);
  return more;
}

function foundOf(stat, isWhole) {
  if (stat.isDirectory()) return found.FOLDER;
  if (!stat.isFile()) return found.PASSING;
  return isWhole ? found.LASTING : found.BROKEN;
}

// What is said of a file that can't be opened.
function refusalOf(code) {
  if (code === "ENOENT") return found.NOTHING;
  return code === "EACCES" || code === "EPERM" ? found.DENIED : found.CLOSED;
}

// Reads a file of a command, or standard input.
export function readFile(path, role) {
  const most = isLong(role) ? MOST_BYTES : MOST_TEXT;
  if (isInput(path, role)) {
    const { isWhole, bytes } = readOpen(0, most, PIECE);
    return { found: isWhole ? found.PASSING : found.BROKEN, bytes };
  }
  let file;
  try {
    file = fs.openSync(path, "r");
  } catch (error) {
    return { found: refusalOf(error.code), bytes: new Uint8Array() };
  }
  try {
    const stat = fs.fstatSync(file), { isWhole, bytes } = readOpen(file, most, stat.isFile() ? stat.size : PIECE);
    return { found: foundOf(stat, isWhole), bytes };
  } finally {
    fs.closeSync(file);
  }
}

// ---- writing

// Writes all bytes to an open file. Returns whether that was done.
function isWritten(file, bytes) {
  try {
    for (let at = 0; at < bytes.length; ) at += patiently(() => fs.writeSync(file, bytes, at, bytes.length - at));
    return true;
  } catch {
    return false;
  }
}

function coloured(bytes) {
  if (!process.stderr.isTTY || process.env.NO_COLOR) return bytes;
  return Buffer.from(Buffer.from(bytes).toString("latin1").replace(/[^\n]+/g, `${COLOUR}$&${PLAIN}`), "latin1");
}

// Writes what a command gave, and returns the status to end with. An answer that can't be written is a failure, if there is no other.
function written({ status, out, err, more }) {
  const isOut = isWritten(1, out), isFailure = !isOut && (status === 0 || status === 5);
  const isErr = isWritten(2, isFailure ? Buffer.from(WRITE_FAILED) : err);
  if (isOut && isErr) isWritten(2, coloured(more));
  return isFailure ? FILES : status;
}

// ---- running

const asksWhy = () => !["", "0", undefined].includes(process.env.SFQ_WHY);

// Does what the words of the command line order. Returns the status to end with.
export async function run(words) {
  try {
    const serve = await serving(fs.readFileSync(new URL("sfq_serve.wasm", import.meta.url)));
    return written(serve(["sfq", ...words], asksWhy(), readFile));
  } catch (error) {
    if (!(error instanceof OutOfMemory) && !(error instanceof RangeError)) throw error;
    isWritten(2, Buffer.from(OUT_OF_MEMORY));
    return MEMORY;
  }
}
