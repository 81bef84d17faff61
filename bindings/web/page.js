// The page: both texts, the sheet, the matrix with its sentences, the predicates, the examples, and what can be undone.
"use strict";

const PARTS = ["interior", "boundary", "exterior"];
const SPOKEN = {
  Equals: "a equals b", Disjoint: "a is disjoint from b", Intersects: "a intersects b", Touches: "a touches b",
  Crosses: "a crosses b", Within: "a is within b", Contains: "a contains b", Overlaps: "a overlaps b",
};
const HINT = "Drag a corner, or the small circle between two corners for a new one. Tab and the arrow keys move a corner too, and "
  + "Delete removes it. The wheel, + and \u2212 zoom; drag the paper to move it.";
const DRAWING = {
  point: "Click where the point is. Escape gives up.",
  line: "Click the positions of the line. A double click or Enter ends it, Escape gives up.",
  polygon: "Click the corners of the ring. A double click, Enter or its first corner ends it, Escape gives up.",
};
// Longer addresses than this aren't written, since not every program takes them.
const LONGEST_ADDRESS = 100000;

const find = (id) => document.getElementById(id);
const state = {
  texts: ["", ""], past: [], future: [], settled: ["", ""], matrix: "", result: null, faults: [], shown: null, trouble: "",
  // The witnesses of the present texts: undefined until a cell is shown, null where there are none.
  witnesses: undefined,
};
let engine = null;

const sheet = new Sheet(find("sheet"), {
  changed: (which, shape) => show(which, Shapes.print(shape)),
  settled: settle,
  drawn: (which, kind, positions) => {
    press(null);
    show(which, Shapes.print(Shapes.joined(sheet.shapes[which], kind, positions)));
    settle();
  },
  hint,
});

function target() {
  return Number(document.querySelector('input[name="target"]:checked').value);
}

function hint(text) {
  find("hint").textContent = text;
}

function make(name, text = "", className = "") {
  const it = document.createElement(name);
  it.textContent = text;
  if (className) it.className = className;
  return it;
}

// ---- texts and what can be undone

function show(which, text) {
  state.texts[which] = text;
  if (find(`text-${which}`).value !== text) find(`text-${which}`).value = text;
  renew();
}

function showBoth(texts) {
  texts.forEach((text, which) => {
    state.texts[which] = text;
    find(`text-${which}`).value = text;
  });
  renew();
}

// Notes the present texts as a state to come back to, and writes them into the address.
function settle() {
  if (state.texts.every((text, i) => text === state.settled[i])) return;
  state.past.push(state.settled);
  state.future = [];
  keep();
}

function keep() {
  state.settled = [...state.texts];
  const words = address(...state.texts);
  if (words.length < LONGEST_ADDRESS) history.replaceState(null, "", words);
  document.querySelector('[data-do="undo"]').disabled = !state.past.length;
  document.querySelector('[data-do="redo"]').disabled = !state.future.length;
}

function goBack(from, to) {
  if (!from.length) return;
  to.push(state.settled);
  showBoth(from.pop());
  keep();
}

function open(a, b) {
  press(null);
  showBoth([a, b]);
  settle();
  sheet.fit();
}

function address(a, b) {
  const written = (text) => encodeURIComponent(text).replaceAll("%20", "+").replaceAll("%2C", ",");
  return `#a=${written(a)}&b=${written(b)}`;
}

function readAddress() {
  const words = new URLSearchParams(location.hash.slice(1));
  return words.has("a") && words.has("b") ? [words.get("a"), words.get("b")] : null;
}

// ---- what the module returns

function renew() {
  const begun = performance.now();
  state.result = ask(() => engine.relate(...state.texts));
  state.witnesses = undefined;
  const took = performance.now() - begun;
  const faults = state.texts.map((text) => (state.result ? null : ask(() => engine.fault(text))));
  state.faults = faults.map((fault, which) => fault && `${fault.code} in ${"ab"[which]}`).filter(Boolean);
  faults.forEach((fault, which) => {
    const shape = Shapes.read(state.texts[which]);
    sheet.shapes[which] = shape;
    sheet.refused[which] = fault && shape ? Shapes.refused(shape, fault) : [];
    showFault(which, fault);
  });
  sheet.places = faults.map((fault) => fault?.place).filter(Boolean);
  const shown = took < 1 ? "less than 1 ms" : `${took.toFixed(0)} ms`;
  find("speed").textContent = state.result ? `Read, checked and related in ${shown}.` : "";
  showMatrix();
}

// Calls the module, and notes why it returns nothing. A module that stopped is started anew.
function ask(call) {
  if (!engine) return null;
  try {
    const found = call();
    state.trouble = "";
    return found;
  } catch (error) {
    state.trouble = `There is no matrix: ${error.message}.`;
    if (error instanceof WebAssembly.RuntimeError) start();
    return null;
  }
}

// Says what a fault means and what to do, as a sentence.
function meaning(code) {
  const words = sfq.SENTENCES[code];
  return `${words[0].toUpperCase()}${words.slice(1)}.`;
}

function showFault(which, fault) {
  const line = find(`fault-${which}`), text = state.texts[which];
  line.replaceChildren();
  find(`text-${which}`).setAttribute("aria-invalid", String(Boolean(fault)));
  if (!fault) return;
  line.append(make("strong", [fault.code, ...fault.numbers].join(" ")), ` ${meaning(fault.code)}`);
  if (fault.code[0] === "W" && fault.numbers.length) {
    const [before, after] = splitAt(text, fault.numbers[0]);
    const place = make("button", after ? [...after].slice(0, 16).join("") : "the end of the text", "byte");
    place.type = "button";
    place.title = "Show it in the text";
    place.addEventListener("click", () => {
      find(`text-${which}`).focus();
      find(`text-${which}`).setSelectionRange(before.length, text.length);
    });
    line.append(" Byte ", String(fault.numbers[0]), ": ", place);
  }
  if (fault.place) line.append(` ${placeWords(fault)}`);
}

// Says in words where a geometry has a fault.
function placeWords({ code, place }) {
  const [points, edges, stretches] = [place.points, place.edges, place.stretches].map((all) => all.map((it) => spoken(it)));
  if (edges.length) {
    return `The edges ${edges.join(" and ")} share ${stretches.length ? `the stretch ${stretches[0]}` : `the point ${points[0]}`}.`;
  }
  if (code === "V1") return `It begins at ${points[0]}.`;
  if (code === "V2") return `It begins at ${points[0]} and ends at ${points[1]}.`;
  return `Its corner ${points[0]} is ${place.words.startsWith("outside") ? "outside" : "inside"}.`;
}

// Returns a text before a byte of it and from there on.
function splitAt(text, byte) {
  const bytes = new TextEncoder().encode(text), decoder = new TextDecoder();
  return [decoder.decode(bytes.slice(0, byte)), decoder.decode(bytes.slice(byte))];
}

// ---- the matrix

const GLYPHS = {
  F: '<circle class="none" cx="12" cy="12" r="8"/>',
  0: '<circle class="is" cx="12" cy="12" r="4"/>',
  1: '<path class="is" d="M4 18L20 6" stroke-width="3.4" stroke-linecap="round"/>',
  2: '<path class="is" d="M3.5 19L12 4L20.5 19Z"/>',
};

function sentence(dimension, row, column) {
  const what = { F: "share no point", 0: "share points, and no line", 1: "share a line, and no area", 2: "share an area" }[dimension];
  return `The ${PARTS[row]} of a and the ${PARTS[column]} of b ${what}.`;
}

// A fraction in lowest terms.
function fraction([n, d]) {
  let [x, y] = [n < 0n ? -n : n, d];
  while (y) [x, y] = [y, x % y];
  return d === x ? `${n / x}` : `${n / x}/${d / x}`;
}

// A point, or two with a word between.
function spoken(place) {
  const point = (p) => `(${p.map(fraction).join(",\u00a0")})`;
  return typeof place[0][0] === "bigint" ? point(place) : place.map(point).join(" to ");
}

function witnessWords(witness) {
  if (!witness) return "";
  if (witness.kind === "point") return ` For example the point ${spoken(witness.at)}.`;
  if (witness.kind === "stretch") return ` For example the stretch from ${spoken([witness.from, witness.to])}, without its ends.`;
  return ` For example the points around ${spoken(witness.at)}.`;
}

function buildMatrix() {
  const body = document.querySelector("#matrix tbody");
  PARTS.forEach((part, row) => {
    const line = body.insertRow(), head = make("th", `${part} of a`);
    head.scope = "row";
    line.append(head);
    PARTS.forEach((_, column) => {
      const cell = line.insertCell(), button = make("button");
      cell.className = "cell";
      button.type = "button";
      button.id = `cell-${row}-${column}`;
      for (const event of ["mouseenter", "focus", "click"]) button.addEventListener(event, () => explain([row, column]));
      for (const event of ["mouseleave", "blur"]) button.addEventListener(event, () => explain(null));
      button.addEventListener("animationend", () => button.classList.remove("changed"));
      cell.append(button);
    });
  });
  find("lights").append(...Object.keys(SPOKEN).map((name) => {
    const light = make("li", SPOKEN[name]);
    light.id = `light-${name}`;
    light.append(make("span", "", "unseen"));
    return light;
  }));
}

function showMatrix() {
  const matrix = state.result?.matrix || "";
  find("nine").textContent = matrix || "\u2013";
  find("matrix").classList.toggle("stale", !matrix);
  for (let place = 0; place < 9; place++) {
    const [row, column] = [Math.floor(place / 3), place % 3], button = find(`cell-${row}-${column}`);
    const dimension = matrix[place] || "", was = state.matrix[place];
    button.innerHTML = `<svg viewBox="0 0 24 24" aria-hidden="true">${GLYPHS[dimension] || ""}</svg><span>${dimension}</span>`;
    button.setAttribute("aria-label", matrix ? `${dimension}: ${sentence(dimension, row, column)}` : "no matrix");
    button.disabled = !matrix;
    button.dataset.dimension = dimension;
    if (matrix && was && was !== dimension) button.classList.add("changed");
  }
  if (matrix) state.matrix = matrix;
  for (const name of Object.keys(SPOKEN)) {
    const light = find(`light-${name}`), is = Boolean(state.result?.holds[name]);
    light.classList.toggle("on", is);
    light.classList.toggle("stale", !matrix);
    light.lastChild.textContent = matrix ? (is ? ": yes" : ": no") : ": not known";
  }
  explain(state.shown);
}

// Shows the sentence and the witness of a cell, given its row and column, or of none.
function explain(cell) {
  state.shown = cell;
  const matrix = state.result?.matrix, place = cell ? 3 * cell[0] + cell[1] : 0;
  if (cell && matrix && state.witnesses === undefined) state.witnesses = ask(() => engine.why(...state.texts));
  const witness = (cell && matrix && state.witnesses?.[place]) || null;
  find("sentence").textContent = state.trouble
    || (!matrix ? (state.faults.length ? `There is no matrix: fault ${state.faults.join(", fault ")}.` : "\u00a0") : "")
    || (cell ? sentence(matrix[place], ...cell) + witnessWords(witness) : "Point at a cell to read what it says.");
  sheet.mark = witness;
  sheet.draw();
}

// ---- examples

function buildCards() {
  find("cards").append(...EXAMPLES.map((it) => {
    const card = make("li"), link = make("a");
    link.href = address(it.a, it.b);
    link.append(picture([Shapes.read(it.a), Shapes.read(it.b)]), make("h3", it.title));
    if (it.elsewhere) {
      const line = make("p", "", "verdict");
      line.append(make("del", it.elsewhere), " ", make("strong", it.sfq));
      line.title = `${it.engines} print the first, sfq prints the second`;
      link.append(line);
    }
    link.append(make("p", it.says));
    for (const name of ["a", "b"]) {
      const line = make("p", "", "spelled");
      line.append(make("span", name, `ink ink-${name}`), " ", make("code", it[name]));
      link.append(line);
    }
    card.append(link);
    return card;
  }));
  const engines = EXAMPLES.find((it) => it.engines)?.engines;
  find("elsewhere").textContent = engines ? `What is struck through is what ${engines} print.` : "";
}

// ---- buttons and keys

function press(tool) {
  for (const button of document.querySelectorAll("[data-tool]")) button.setAttribute("aria-pressed", String(button.dataset.tool === tool));
  sheet.start(tool, target());
  if (tool) sheet.svg.focus();
  hint(tool ? DRAWING[tool] : HINT);
}

// What the buttons do.
const DOING = {
  in: () => sheet.zoom(1.25),
  out: () => sheet.zoom(0.8),
  fit: () => sheet.fit(),
  undo: () => goBack(state.past, state.future),
  redo: () => goBack(state.future, state.past),
  swap: () => {
    showBoth([state.texts[1], state.texts[0]]);
    settle();
  },
  clear: () => {
    show(target(), `${sheet.shapes[target()]?.type || "POINT"} EMPTY`);
    settle();
  },
};

function key(event) {
  if (event.key === "Escape" && sheet.tool) press(null);
  const isTyping = event.target.tagName === "TEXTAREA", isRedo = event.key === "y" || (event.shiftKey && event.key === "Z");
  if (!(event.ctrlKey || event.metaKey) || isTyping) return;
  if (event.key !== "z" && !isRedo) return;
  event.preventDefault();
  (isRedo ? DOING.redo : DOING.undo)();
}

function listen() {
  for (const button of document.querySelectorAll("[data-tool]")) {
    button.addEventListener("click", () => press(sheet.tool === button.dataset.tool ? null : button.dataset.tool));
  }
  for (const radio of document.querySelectorAll('input[name="target"]')) {
    radio.addEventListener("change", () => sheet.tool && press(sheet.tool));
  }
  for (const button of document.querySelectorAll("[data-do]")) button.addEventListener("click", DOING[button.dataset.do]);
  for (const which of [0, 1]) {
    find(`text-${which}`).addEventListener("input", (event) => show(which, event.target.value));
    find(`text-${which}`).addEventListener("change", settle);
  }
  document.addEventListener("keydown", key);
  window.addEventListener("hashchange", () => {
    const texts = readAddress();
    if (!texts) return;
    open(...texts);
    find("sheet").scrollIntoView({ block: "nearest" });
  });
}

async function start() {
  engine = null;
  try {
    engine = await startEngine();
    // The first call takes longer, since the browser still compiles what it calls.
    engine.relate(...state.texts);
    find("module").textContent = `The module: ${engine.about}.`;
  } catch (error) {
    state.trouble = `The module didn't start, so there is no matrix: ${error.message}`;
    find("module").textContent = state.trouble;
  }
}

async function begin() {
  if (typeof EXAMPLES === "undefined") {
    hint("Open bindings/web/out/index.html, which ./build --web makes of these files.");
    return;
  }
  buildMatrix();
  buildCards();
  listen();
  press(null);
  showBoth(readAddress() || [EXAMPLES[0].a, EXAMPLES[0].b]);
  keep();
  sheet.fit();
  await start();
  renew();
  document.documentElement.dataset.ready = "yes";
}

begin();
