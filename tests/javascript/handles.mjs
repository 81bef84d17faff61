// Statements over a module that only notes which calls come with which numbers: `node handles.mjs FOLDER` imports the sources of that
// folder, and prints what came of misuses as JSON. A number that was given back is the next statement's, as in the module.
import { pathToFileURL } from "node:url";

const load = (name) => import(pathToFileURL(`${process.argv[2]}/${name}`).href);
const [{ start }, { Database }] = [await load("engine.js"), await load("databases.js")];

const memory = new WebAssembly.Memory({ initial: 2 }), open = new Set(), calls = [];
let unused = 1024;
const write = (at, number) => new DataView(memory.buffer).setBigUint64(at, BigInt(number), true);
const noted = (name, status) => (slot, number, ...words) => {
  calls.push([name, number, ...words.map(String)].join(" "));
  return open.has(number) ? status : 4;
};
const exports = {
  memory,
  take(count) {
    unused += count + (-count & 15);
    return unused - count - (-count & 15);
  },
  give: () => 0,
  open: () => 0,
  close: () => 0,
  table_count(slot, found) {
    write(found, 0);
    return 0;
  },
  prepare(slot, room, length, number) {
    let least = 0;
    while (open.has(least)) least++;
    open.add(least);
    write(number, least);
    return 0;
  },
  columns(slot, number, found) {
    write(found, 0);
    return 0;
  },
  constants(slot, number, found) {
    write(found, 2);
    return 0;
  },
  constant_type(slot, number, constant, found) {
    write(found, 0);
    return 0;
  },
  bind_integer: noted("bind", 0),
  bind_null: noted("null", 0),
  step: noted("step", 6),
  finalize(slot, number) {
    calls.push(`finalize ${number}`);
    return open.delete(number) ? 0 : 4;
  },
};

WebAssembly.instantiate = async () => ({ exports, instance: { exports } });
await start(new Uint8Array());

function said(call) {
  try {
    return call() ?? "done";
  } catch (error) {
    return `${error.name}: ${error.message}`;
  }
}

// What a call comes to, with the calls of the module that it makes.
const tried = (call) => [said(call), calls.splice(0)];

const database = Database.open(""), first = database.prepare("one");
first.free();
calls.splice(0);
const second = database.prepare("another");
const found = {
  steps: tried(() => first.step()), binds: tried(() => first.bind(0, 1)), resets: tried(() => first.reset()), plans: tried(() => first.plan),
  freedTwice: tried(() => first.free()), other: tried(() => second.step()),
  bound: tried(() => second.bind(1, 7n)), nothing: tried(() => second.bind(0, null)),
  wrapped: tried(() => second.bind(2 ** 32, 7)), past: tried(() => second.bind(2, 7)), below: tried(() => second.bind(-1, 7)),
  fraction: tried(() => second.bind(0.5, 7)), text: tried(() => second.bind("0", 7)), length: tried(() => second.bind("length", 7)),
  most: tried(() => second.step(2 ** 32 + 5)), all: tried(() => second.step(Infinity)), negative: tried(() => second.step(-1)),
  half: tried(() => second.step(0.5)), none: tried(() => second.step(NaN)), word: tried(() => second.step("1")),
  freed: tried(() => second.free()), freedAgain: tried(() => second.free()),
};
const third = database.prepare("a third");
database.free();
calls.splice(0);
Object.assign(found, { closed: tried(() => third.step()), ofClosed: tried(() => third.free()), closedAgain: tried(() => database.free()) });
console.log(JSON.stringify(found));
process.exit(0);
