// Runs a trial in Node, and prints what came of it as JSON: `node node.mjs NAME FILE`, where FILE has what is handed in, or `workers`,
// `copies` or `collected`.
import { readFileSync } from "node:fs";
import { Worker, isMainThread, parentPort, workerData } from "node:worker_threads";
import { fileURLToPath } from "node:url";
import * as trials from "./trials.js";

const [name, file] = process.argv.slice(2);
const given = () => JSON.parse(readFileSync(isMainThread ? file : workerData, "utf8"));

// The pairs in four threads at once.
function workers() {
  const one = () => new Promise((done, fail) => {
    const it = new Worker(fileURLToPath(import.meta.url), { workerData: file });
    it.on("message", done);
    it.on("error", fail);
  });
  return Promise.all([one(), one(), one(), one()]);
}

// Two copies of the package: each has a module of its own, and takes no geometry of the other.
async function copies() {
  const [one, other] = await Promise.all(["sfq", "sfq-too"].map((it) => import(it)));
  await one.load();
  await other.load();
  const [line, square] = [one.Geometry.read("LINESTRING(0 0,4 0)"), other.Geometry.read("POLYGON((0 0,4 0,4 4,0 4,0 0))")];
  let mixed = "nothing was thrown";
  try {
    line.relate(square);
  } catch (error) {
    mixed = `${error.name}: ${error.message}`;
  }
  return { isOther: one.Geometry !== other.Geometry, mixed, related: [line.relate(square.text), square.relate(line.text)] };
}

// What nobody uses any more is freed: under `--expose-gc` the memory stays as it is.
async function collected() {
  const sfq = await import("sfq");
  await sfq.loadDatabases();
  const numbers = Array.from({ length: 2000 }, (_, at) => `${at} ${at % 5}`).join(",");
  const turn = async () => {
    for (let round = 0; round < 50; round++) {
      sfq.Geometry.read(`LINESTRING(${numbers})`);
      new sfq.Index([[0, 0, 1, round]]);
      const database = sfq.Database.open("CREATE TABLE t (id INTEGER PRIMARY KEY);");
      database.load("t", "id\n1\n2\n");
      database.prepare("SELECT id FROM t").step();
    }
    for (let round = 0; round < 3; round++) {
      globalThis.gc();
      await new Promise((go) => setTimeout(go, 10));
    }
  };
  await turn();
  const bytes = sfq.memorySize();
  for (let round = 0; round < 20; round++) await turn();
  return { lost: sfq.memorySize() - bytes };
}

if (!isMainThread) {
  parentPort.postMessage(await trials.pairs(given()));
} else {
  const run = { workers, copies, collected }[name] ?? (() => trials[name](file ? given() : undefined));
  console.log(JSON.stringify(await run()));
}
