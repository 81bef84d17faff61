// The map of a schema's tables: a shape for each geometry of a row. What is read here serves the drawing alone.
"use strict";

// Returns the records of a text of CSV, each a list of fields.
function recordsOf(text) {
  const records = [];
  let record = [], field = "", quoted = false;
  const endField = () => (record.push(field), (field = ""));
  const endRecord = () => {
    if (record.length || field) endField();
    if (record.length) records.push(record);
    record = [];
  };
  for (let at = 0; at < text.length; at++) {
    const c = text[at];
    if (quoted && c === '"' && text[at + 1] === '"') field += text[++at];
    else if (c === '"') quoted = !quoted;
    else if (quoted) field += c;
    else if (c === ",") endField();
    else if (c === "\n") endRecord();
    else if (c !== "\r") field += c;
  }
  endRecord();
  return records;
}

// Returns what can be drawn of tables, given as their names and texts: of each row with a geometry its table, its key and its shape.
function featuresOf(tables) {
  return Object.entries(tables).flatMap(([table, text]) => {
    const [header = [], ...records] = recordsOf(text), key = header.findIndex((name) => name.toLowerCase() === "id");
    return records.flatMap((record) => {
      const label = record[header.findIndex((name) => name.toLowerCase() === "name")] || "";
      const shapes = record.map((field) => Shapes.read(field)).filter((shape) => shape?.lists.length);
      return shapes.map((shape) => ({ table, key: record[key], label, shape }));
    });
  });
}

const NAME = "[A-Za-z_][A-Za-z_0-9]*";

// Returns the tables of a query's FROM by the names that it gives them: `FROM parcel a JOIN parcel b` has a and b.
function referencesOf(query) {
  const words = "WHERE|JOIN|ON|LIMIT", from = query.match(new RegExp(`\\bFROM\\s+([^]*?)(?:\\b(?:ON|WHERE|LIMIT)\\b|$)`, "i"));
  const found = {};
  const one = new RegExp(`(?:^|,|\\bJOIN\\b)\\s*(${NAME})(?:\\s+(?:AS\\s+)?(?!(?:${words})\\b)(${NAME}))?`, "gi");
  for (const [, table, name] of (from?.[1] || "").matchAll(one)) found[(name || table).toLowerCase()] = table.toLowerCase();
  return found;
}

// Returns which rows an answer names, as `table key`: those in its columns `id` or `b.id`.
function rowsOf(query, header, records) {
  const references = referencesOf(query), only = Object.values(references);
  const columns = header.flatMap((name, place) => {
    const [, reference, column] = name.toLowerCase().match(/^(?:(.*)\.)?(.*)$/);
    const table = reference ? references[reference] : only.length === 1 ? only[0] : undefined;
    return column === "id" && table ? [[place, table]] : [];
  });
  return new Set(records.flatMap((record) => columns.map(([place, table]) => `${table} ${record[place]}`)));
}

// Draws features into an element of so many pixels. Those whose `table key` is marked stand out.
function drawMap(svg, features, marked) {
  const box = svg.getBoundingClientRect(), [w, h] = [box.width || 600, box.height || 400];
  const bounds = Shapes.bounds(features.flatMap((it) => it.shape.lists.flat()));
  svg.replaceChildren();
  if (!(bounds.left <= bounds.right)) return;
  const unit = Math.min((w - 40) / Math.max(1, bounds.right - bounds.left), (h - 40) / Math.max(1, bounds.high - bounds.low));
  const middle = [(bounds.left + bounds.right) / 2, (bounds.low + bounds.high) / 2];
  const toScreen = ([x, y]) => [w / 2 + (x - middle[0]) * unit, h / 2 - (y - middle[1]) * unit];
  const kinds = ["area", "line", "point"], kind = (shape) => (Shapes.isArea(shape) ? "area" : Shapes.isPoints(shape) ? "point" : "line");
  const path = (list) => "M" + list.map((p) => toScreen(p).map((n) => n.toFixed(1)).join(" ")).join("L");
  const isMarked = (it) => marked.has(`${it.table} ${it.key}`);
  const order = (it) => kinds.indexOf(kind(it.shape)) + (isMarked(it) ? 10 : 0);
  for (const it of [...features].sort((one, other) => order(one) - order(other))) {
    const name = `feature ${kind(it.shape)} of-${it.table}${isMarked(it) ? " marked" : ""}`, title = `${it.table} ${it.key} ${it.label}`.trim();
    const drawn = kind(it.shape) === "point"
      ? it.shape.lists.map(([p]) => element("circle", { cx: toScreen(p)[0], cy: toScreen(p)[1], r: 6, class: name }, svg))
      : [element("path", { d: it.shape.lists.map(path).join(""), class: name }, svg)];
    drawn.forEach((shape) => {
      shape.dataset.row = `${it.table} ${it.key}`;
      element("title", {}, shape).textContent = title;
    });
  }
  drawKeys(svg, features.filter((it) => it.table === "parcel" && it.key !== undefined), toScreen);
}

// Writes the keys of areas at their lower left corners, those of the same corner together.
function drawKeys(svg, areas, toScreen) {
  const corners = new Map();
  for (const { key, shape } of areas) {
    const inner = Shapes.bounds(shape.lists[0]), [x, y] = toScreen([inner.left, inner.low]), name = `${x} ${y}`;
    corners.set(name, { x, y, keys: [...(corners.get(name)?.keys || []), key] });
  }
  for (const { x, y, keys } of corners.values()) element("text", { x: x + 5, y: y - 5, class: "key" }, svg).textContent = keys.join(", ");
}
