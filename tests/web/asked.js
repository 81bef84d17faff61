// Asks the page's module in Node, and prints what came of it as JSON. FOLDER has the page.
//
//     node asked.js FOLDER queries FILE   asks each query of FILE: a list of databases, each with `schema`, `tables` and `queries`, all
//                                         in base64. Of each database it prints the answers or the lines of faults, and how often
//                                         each call of the module was made well; and how many bytes the memory grows by at a third time:
//                                         the second begins with what the last database of the first left
//     node asked.js FOLDER stop           ends a query that takes long, asks on, and then asks it to its end
//     node asked.js FOLDER short          asks small and large tables in turns, where memory is short
"use strict";

const fs = require("fs");
const [folder, what, file] = process.argv.slice(2);

// How often each call of the module was made well, and its memory.
let made = {}, memory = null;
const instantiate = WebAssembly.instantiate;
WebAssembly.instantiate = async (...words) => {
  const { instance } = await instantiate(...words);
  memory = instance.exports.memory;
  const counted = (name, it) => (...given) => {
    const status = it(...given);
    if (status === 0) made[name] = (made[name] || 0) + 1;
    return status;
  };
  const exports = Object.entries(instance.exports).map(([name, it]) => [name, typeof it === "function" ? counted(name, it) : it]);
  return { instance: { exports: Object.fromEntries(exports) } };
};

const scripts = ["tables_module.js", "sfq.js", "tables_engine.js"].map((name) => fs.readFileSync(`${folder}/${name}`, "utf8"));
const startTables = new Function(`${scripts.join("\n")}\nreturn startTables;`)();

// Asks a query until it has an answer. Returns what came, with how often it rested.
function answered(asking) {
  for (let rests = 0; ; rests++) {
    const { done, value } = asking.next();
    if (done) return { ...value, rests };
  }
}

async function queries() {
  const engine = await startTables(), read = (text) => new Uint8Array(Buffer.from(text, "base64"));
  const given = JSON.parse(fs.readFileSync(file, "utf8"));
  const databases = given.map((it) => [read(it.schema), it.tables.map(read), it.queries.map(read)]);
  const all = () => databases.map(([schema, tables, asked]) => {
    made = {};
    const answers = asked.map((query) => answered(engine.asking(schema, tables, query))).map((it) => it.answer ?? it.fault);
    return { answers, made };
  });
  const found = all();
  all();
  const bytes = memory.buffer.byteLength;
  all();
  return { found, lost: memory.buffer.byteLength - bytes };
}

const SCHEMA = "CREATE TABLE t (id INTEGER PRIMARY KEY, n INTEGER);";
const tableOf = (count) => `id,n\n${Array.from({ length: count }, (_, at) => `${at},${at % 7}\n`).join("")}`;

async function stop() {
  const engine = await startTables(), table = tableOf(3000);
  const ask = (query) => engine.asking(SCHEMA, [table], query);
  // Of nine million pairs none is in the answer.
  const long = "SELECT a.id FROM t a, t b WHERE a.n < b.n AND a.n > b.n", short = "SELECT id FROM t WHERE id = 7";
  const running = ask(long), rested = running.next(), stopped = running.return("stopped");
  const answers = [answered(ask(short)), answered(ask(long)), answered(ask(short))];
  return { rested, stopped, answers, made };
}

async function short() {
  const engine = await startTables();
  const ask = (count) => {
    try {
      return answered(engine.asking(SCHEMA, [tableOf(count)], "SELECT n FROM t WHERE id = 1")).answer;
    } catch (error) {
      return error.message;
    }
  };
  return [2, 100000, 3, 100000, 2].map(ask);
}

({ queries, stop, short })[what]().then((found) => console.log(JSON.stringify(found)));
