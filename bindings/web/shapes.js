// Texts as shapes to draw, and shapes as texts. What a text means, and whether it is valid, only the module says: what is
// read here serves the drawing alone.
"use strict";

const Shapes = (() => {
  const NESTING = { POINT: 1, MULTIPOINT: 1, LINESTRING: 1, MULTILINESTRING: 2, POLYGON: 2, MULTIPOLYGON: 3 };
  const LIMIT = 10000000;

  // Returns {type, lists, elements} of a text, or null where it can't be drawn. Each list is one of positions [x, y]: a point, a
  // line or a ring. `elements` has the number of the polygon that each ring is of.
  function read(text) {
    const tokens = text.match(/[A-Za-z]+|[-+]?[0-9.]+|[(),]|\S/g) || [];
    let at = 0;
    const take = (wanted) => (tokens[at] === wanted ? (at++, true) : false);
    const type = (tokens[at++] || "").toUpperCase();
    if (!(type in NESTING)) return null;
    if ((tokens[at] || "").toUpperCase() === "EMPTY") return at + 1 === tokens.length ? { type, lists: [], elements: [] } : null;

    function position() {
      const x = Number(tokens[at++]), y = Number(tokens[at++]);
      if (!Number.isInteger(x) || !Number.isInteger(y)) throw new Error("no position");
      return [x, y];
    }
    function separated(part) {
      if (!take("(")) throw new Error("no parenthesis");
      const parts = [part()];
      while (take(",")) parts.push(part());
      if (!take(")")) throw new Error("not closed");
      return parts;
    }
    function pointOfMany() {
      if (!take("(")) return position();
      const p = position();
      if (!take(")")) throw new Error("not closed");
      return p;
    }
    const list = () => separated(position);
    try {
      let lists, elements;
      if (type === "POINT" || type === "MULTIPOINT") {
        lists = separated(type === "POINT" ? position : pointOfMany).map((p) => [p]);
      } else if (NESTING[type] === 1) {
        lists = [list()];
      } else if (NESTING[type] === 2) {
        lists = separated(list);
      } else {
        const polygons = separated(() => separated(list));
        lists = polygons.flat();
        elements = polygons.flatMap((rings, number) => rings.map(() => number));
      }
      if (at !== tokens.length) return null;
      return { type, lists, elements: elements || lists.map(() => 0) };
    } catch {
      return null;
    }
  }

  const positions = (list) => "(" + list.map(([x, y]) => `${x} ${y}`).join(",") + ")";

  // Returns the text of a shape.
  function print(shape) {
    const { type, lists, elements } = shape;
    if (!lists.length) return `${type} EMPTY`;
    switch (type) {
      case "POINT":
      case "LINESTRING":
        return type + positions(lists[0]);
      case "MULTIPOINT":
        return `${type}(${lists.map(positions).join(",")})`;
      case "MULTIPOLYGON": {
        const polygons = [];
        lists.forEach((ring, i) => (polygons[elements[i]] ||= []).push(positions(ring)));
        return `${type}(${polygons.filter(Boolean).map((rings) => `(${rings.join(",")})`).join(",")})`;
      }
      default:
        return `${type}(${lists.map(positions).join(",")})`;
    }
  }

  const isArea = (shape) => shape.type.endsWith("POLYGON");
  const isPoints = (shape) => shape.type.endsWith("POINT");
  const same = (p, q) => p[0] === q[0] && p[1] === q[1];
  // Whether the last position of a list repeats the first, so that both are one corner.
  const isClosed = (list) => list.length > 2 && same(list[0], list[list.length - 1]);
  const clamp = (n) => Math.max(-LIMIT, Math.min(LIMIT, Math.round(n)));
  const copy = (shape) => ({ type: shape.type, lists: shape.lists.map((l) => l.map((p) => [...p])), elements: [...shape.elements] });

  // Returns the corners of a shape: for each its list, its place in it and its position. The last one of a closed list is left out.
  function corners(shape) {
    return shape.lists.flatMap((list, l) =>
      list.slice(0, isClosed(list) ? -1 : undefined).map((position, p) => ({ list: l, place: p, position })));
  }

  // Returns a shape with a corner moved. The two ends of a list that is closed move together.
  function moved(shape, corner, [x, y]) {
    const next = copy(shape), list = next.lists[corner.list], closed = isClosed(list);
    list[corner.place] = [clamp(x), clamp(y)];
    if (closed && corner.place === 0) list[list.length - 1] = [clamp(x), clamp(y)];
    return next;
  }

  // Returns a shape with a new corner after a place of a list.
  function inserted(shape, corner, [x, y]) {
    const next = copy(shape);
    next.lists[corner.list].splice(corner.place + 1, 0, [clamp(x), clamp(y)]);
    return next;
  }

  // Returns a shape without a corner; a list that would be left without an edge goes whole.
  function removed(shape, corner) {
    const next = copy(shape), list = next.lists[corner.list], closed = isClosed(list);
    const least = isPoints(shape) ? 1 : isArea(shape) ? 4 : 2;
    if (list.length - 1 < least) {
      next.lists.splice(corner.list, 1);
      next.elements.splice(corner.list, 1);
      return next;
    }
    list.splice(corner.place, 1);
    if (closed && corner.place === 0) list[list.length - 1] = [...list[0]];
    return next;
  }

  // Returns the numbers of the lists that a fault of a geometry names: rings, lines, or all rings of two polygons.
  function refused(shape, fault) {
    if (fault.code[0] !== "V") return [];
    const byElement = fault.code === "V7" || fault.code === "V8";
    return shape.lists.map((_, l) => l).filter((l) => fault.numbers.includes(byElement ? shape.elements[l] : l));
  }

  // Returns the least and the greatest coordinates of some positions.
  function bounds(all) {
    const box = { left: Infinity, right: -Infinity, low: Infinity, high: -Infinity };
    for (const [x, y] of all) {
      box.left = Math.min(box.left, x);
      box.right = Math.max(box.right, x);
      box.low = Math.min(box.low, y);
      box.high = Math.max(box.high, y);
    }
    return box;
  }

  // Returns a shape with one more element: a drawn point, line or polygon joins what is of its kind, else it takes its place.
  function joined(shape, kind, drawn) {
    const ring = kind === "polygon" && !isClosed(drawn) ? [...drawn, [...drawn[0]]] : drawn;
    const one = { point: "POINT", line: "LINESTRING", polygon: "POLYGON" }[kind];
    if (!shape || !shape.lists.length || !shape.type.endsWith(one)) return { type: one, lists: [ring], elements: [0] };
    const next = copy(shape);
    next.type = `MULTI${one}`;
    next.elements = kind === "polygon" ? next.elements : next.lists.map((_, i) => i);
    next.elements.push(Math.max(...next.elements) + 1);
    next.lists.push(ring);
    return next;
  }

  return { read, print, corners, moved, inserted, removed, joined, refused, bounds, isArea, isPoints, clamp };
})();
