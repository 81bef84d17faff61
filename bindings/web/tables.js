// The page of tables: the query, its answer, the map, and the tables' texts.
"use strict";

const find = (id) => document.getElementById(id);
// An answer of more rows than this isn't shown whole.
const MOST_ROWS = 500;
// The query that is being asked is a generator, and none is before the first.
let engine = null, trouble = "", asked = null;

function make(name, text = "", className = "") {
  const it = document.createElement(name);
  it.textContent = text;
  if (className) it.className = className;
  return it;
}

// ---- texts

function fieldOf(name, text, rows) {
  const label = make("label", name), field = make("textarea");
  label.htmlFor = field.id = `table-${name}`;
  field.value = text;
  field.rows = rows;
  field.spellcheck = false;
  field.addEventListener("input", renew);
  find("tables").append(label, field);
}

function buildTexts() {
  fieldOf("schema", TOWN.schema, 10);
  for (const [name, text] of Object.entries(TOWN.tables)) fieldOf(name, text, Math.min(8, text.split("\n").length));
  TOWN.queries.forEach((it, place) => find("example").append(new Option(`${place + 1}. ${it.title}`, place)));
}

function tables() {
  return Object.fromEntries(Object.keys(TOWN.tables).map((name) => [name, find(`table-${name}`).value]));
}

function open(place) {
  const it = TOWN.queries[place];
  find("example").value = place;
  find("says").textContent = it.says;
  find("query").value = it.query;
  renew();
}

// ---- the answer

// Says what a line of a fault means: `sfq: Q2 at 7 unknown name`, `sfq: parcel L6 record 2 V3 0`.
function faultWords(line) {
  const codes = [...line.matchAll(/\b([SLQWV]\d+)\b/g)].map(([, code]) => TOWN.faults[code]).filter(Boolean);
  return codes.map((it) => ` It means: ${it.means}. To mend it: ${it.remedy}.`).join("");
}

function showAnswer(header, records) {
  const table = make("table"), caption = table.createCaption(), head = table.createTHead().insertRow();
  caption.textContent = rowsIn(records.length);
  head.append(...header.map((name) => {
    const cell = make("th", name);
    cell.scope = "col";
    return cell;
  }));
  const body = table.createTBody();
  for (const record of records.slice(0, MOST_ROWS)) body.insertRow().append(...record.map((field) => make("td", field)));
  if (records.length > MOST_ROWS) caption.textContent += `, of which ${MOST_ROWS} are shown`;
  find("answer").replaceChildren(table);
}

// Asks the query of the page. One that is being asked is ended.
function renew() {
  stop();
  const given = tables(), query = find("query").value;
  asked = ask(() => engine.asking(find("table-schema").value, Object.values(given), query));
  goOn({ asked, given, query, begun: performance.now() });
}

function stop() {
  const it = asked;
  asked = null;
  find("running").hidden = true;
  if (it) ask(() => it.return());
}

function stopped() {
  stop();
  find("speed").textContent = "Stopped.";
}

// Goes on with a query until it rests, and then lets the page be used before it goes on; shows what came once it is there.
function goOn(it) {
  if (it.asked !== asked) return;
  const came = it.asked && ask(() => it.asked.next()), took = performance.now() - it.begun;
  if (came && !came.done) {
    for (const name of ["answer", "fault", "speed"]) find(name).replaceChildren();
    find("running").hidden = false;
    find("progress").textContent = `${(took / 1000).toFixed(1)} s, ${rowsIn(came.value)} so far`;
    setTimeout(goOn, 0, it);
    return;
  }
  asked = null;
  find("running").hidden = true;
  show(came?.value, it.given, it.query, took);
}

const rowsIn = (count) => (count === 1 ? "1 row" : `${count} rows`);

// Shows what came of a query: an answer, a fault, or nothing where the module has none.
function show(came, given, query, took) {
  const [header = [], ...records] = came?.answer === undefined ? [] : recordsOf(came.answer);
  find("query").setAttribute("aria-invalid", String(came?.fault !== undefined));
  find("fault").replaceChildren(...(came?.fault ? [make("strong", came.fault), faultWords(came.fault)] : [trouble]));
  find("answer").replaceChildren();
  if (came?.answer !== undefined) showAnswer(header, records);
  find("speed").textContent = came?.answer !== undefined ? `${loadedIn(came.loaded)}The query took ${Math.max(1, took).toFixed(0)} ms.` : "";
  const marked = rowsOf(query, header, records);
  drawMap(find("map"), featuresOf(given), marked);
  find("hint").textContent = came?.answer === undefined || marked.size
    ? "Point at a shape to read its table, key and name." : "Select an id to see the rows on the map.";
  if (engine || trouble) document.documentElement.dataset.ready = "yes";
}

const loadedIn = (count) => (count ? `Tables loaded: ${count}. ` : "");

// Calls the module, and notes why it returns nothing. A module that stopped is started anew.
function ask(call) {
  if (!engine) return null;
  try {
    trouble = "";
    return call();
  } catch (error) {
    trouble = `There is no answer: ${error.message}.`;
    if (error instanceof WebAssembly.RuntimeError) start();
    return null;
  }
}

async function start() {
  engine = null;
  try {
    engine = await startTables();
    find("module").textContent = `The module: ${engine.about}.`;
  } catch (error) {
    trouble = `The module didn't start, so there is no answer: ${error.message}`;
    find("module").textContent = trouble;
  }
}

async function begin() {
  buildTexts();
  find("example").addEventListener("change", () => open(Number(find("example").value)));
  find("query").addEventListener("input", renew);
  find("stop").addEventListener("click", stopped);
  new ResizeObserver(renew).observe(find("map"));
  await start();
  open(1);
}

begin();
