// The sheet: the grid, both shapes, their corners, what is being drawn, and the witness of a cell or the place of a fault.
"use strict";

const SVG = "http://www.w3.org/2000/svg";
const ARROWS = { ArrowLeft: [-1, 0], ArrowRight: [1, 0], ArrowUp: [0, 1], ArrowDown: [0, -1] };

function element(name, attributes, parent) {
  const it = document.createElementNS(SVG, name);
  for (const [key, value] of Object.entries(attributes)) it.setAttribute(key, value);
  parent?.append(it);
  return it;
}

// Returns the number next to each fraction of a point, to draw it.
const nearest = (point) => point.map(([n, d]) => Number(n) / Number(d));

// Draws a shape into an element; `toScreen` says where a position is there. The lists that are refused are dashed.
function drawShape(parent, shape, target, toScreen, refused = []) {
  const path = (list) => "M" + list.map((p) => toScreen(p).map((n) => n.toFixed(2)).join(" ")).join("L");
  if (Shapes.isPoints(shape)) {
    for (const [position] of shape.lists) {
      const [cx, cy] = toScreen(position);
      element("circle", { cx, cy, r: target ? 5 : 9, class: `shape dot-${target}` }, parent);
    }
    return;
  }
  const d = (lists) => lists.map(path).join("");
  if (Shapes.isArea(shape)) element("path", { d: d(shape.lists), class: `shape area-${target}` }, parent);
  const isRefused = shape.lists.map((_, l) => refused.includes(l));
  const sound = shape.lists.filter((_, l) => !isRefused[l]), unsound = shape.lists.filter((_, l) => isRefused[l]);
  if (sound.length) element("path", { d: d(sound), class: `shape line-${target}` }, parent);
  if (unsound.length) element("path", { d: d(unsound), class: `shape line-${target} refused` }, parent);
}

// Returns a small drawing of two shapes, for a card.
function picture(shapes) {
  const [w, h] = [240, 110], svg = element("svg", { viewBox: `0 0 ${w} ${h}`, class: "drawing", "aria-hidden": "true" });
  const all = shapes.flatMap((shape) => shape?.lists.flat() || []), box = Shapes.bounds(all);
  if (!all.length) {
    element("text", { x: w / 2, y: h / 2 + 5, class: "empty" }, svg).textContent = "nothing to draw";
    return svg;
  }
  const unit = Math.min((w - 30) / Math.max(1, box.right - box.left), (h - 26) / Math.max(1, box.high - box.low));
  const middle = [(box.left + box.right) / 2, (box.low + box.high) / 2];
  const toScreen = ([x, y]) => [w / 2 + (x - middle[0]) * unit, h / 2 - (y - middle[1]) * unit];
  shapes.forEach((shape, target) => shape && drawShape(svg, shape, target, toScreen));
  return svg;
}

class Sheet {
  // `calls` has: changed(target, shape), settled(), drawn(target, kind, positions), hint(text)
  constructor(svg, calls) {
    this.svg = svg;
    this.calls = calls;
    this.view = { x: 4, y: 3, unit: 40 };
    this.shapes = [null, null];
    this.refused = [[], []];
    this.mark = null;
    this.places = [];
    this.tool = null;
    this.draft = [];
    this.pointer = null;
    this.drag = null;
    this.fingers = new Map();
    this.measure();
    this.listen();
    new ResizeObserver(() => {
      this.measure();
      this.draw();
    }).observe(svg);
  }

  // ---- from the grid to the screen and back

  // Notes the size of the sheet, which would be slow to ask for at each position.
  measure() {
    const box = this.svg.getBoundingClientRect();
    this.size = [box.width || 600, box.height || 400];
  }

  toScreen([x, y]) {
    const [w, h] = this.size;
    return [w / 2 + (x - this.view.x) * this.view.unit, h / 2 - (y - this.view.y) * this.view.unit];
  }

  toGrid(event) {
    const box = this.svg.getBoundingClientRect();
    return [
      this.view.x + (event.clientX - box.left - box.width / 2) / this.view.unit,
      this.view.y - (event.clientY - box.top - box.height / 2) / this.view.unit,
    ];
  }

  toPosition(event) {
    return this.toGrid(event).map(Shapes.clamp);
  }

  // Changes the scale, and keeps a place of the grid where it is on the screen.
  zoom(factor, at = [this.view.x, this.view.y]) {
    const unit = Math.max(1e-5, Math.min(400, this.view.unit * factor)), scale = this.view.unit / unit;
    this.view = { x: at[0] + (this.view.x - at[0]) * scale, y: at[1] + (this.view.y - at[1]) * scale, unit };
    this.draw();
  }

  fit() {
    const box = Shapes.bounds(this.shapes.flatMap((shape) => shape?.lists.flat() || []));
    const [w, h] = this.size;
    if (box.left <= box.right) {
      const unit = Math.min((w - 80) / Math.max(1, box.right - box.left), (h - 80) / Math.max(1, box.high - box.low));
      this.view = { x: (box.left + box.right) / 2, y: (box.low + box.high) / 2, unit: Math.max(1e-5, Math.min(unit, 90)) };
    }
    this.draw();
  }

  // Moves the view so far that a position can be seen.
  show(position) {
    const [x, y] = this.toScreen(position), [w, h] = this.size, edge = 20;
    const past = (n, most) => Math.min(0, n - edge) + Math.max(0, n - most + edge);
    this.view = { ...this.view, x: this.view.x + past(x, w) / this.view.unit, y: this.view.y - past(y, h) / this.view.unit };
  }

  // ---- drawing

  draw() {
    const toScreen = this.toScreen.bind(this);
    const focused = this.svg.contains(document.activeElement) ? document.activeElement.dataset.corner : undefined;
    this.svg.replaceChildren();
    this.drawGrid(...this.size);
    this.shapes.forEach((shape, target) => shape && drawShape(this.svg, shape, target, toScreen, this.refused[target]));
    this.shapes.forEach((shape, target) => shape && !this.tool && this.drawCorners(shape, target));
    this.drawMark();
    this.places.forEach((place) => this.drawPlace(place));
    this.drawDraft();
    if (focused) (this.svg.querySelector(`[data-corner="${focused}"]`) || this.svg).focus({ preventScroll: true });
  }

  drawGrid(w, h) {
    const grid = element("g", { class: "grid", "aria-hidden": "true" }, this.svg), { x, y, unit } = this.view;
    let step = 1;
    while (step * unit < 24) step *= String(step)[0] === "2" ? 2.5 : 2;
    const [left, right, low, high] = [x - w / 2 / unit, x + w / 2 / unit, y - h / 2 / unit, y + h / 2 / unit];
    const widest = 8 * Math.max(...[left, right].map((n) => String(Math.round(n / step) * step).length));
    const every = [1, 2, 5, 10].find((n) => n * step * unit > widest + 12) || 10;
    for (let n = Math.ceil(left / step); n * step <= right; n++) {
      const [at] = this.toScreen([n * step, 0]);
      element("line", { x1: at, x2: at, y1: 0, y2: h, class: n === 0 ? "axis" : "" }, grid);
      if (n % every === 0 && at > 34 && at < w - 12) element("text", { x: at + 3, y: h - 5 }, grid).textContent = n * step;
    }
    for (let n = Math.ceil(low / step); n * step <= high; n++) {
      const [, at] = this.toScreen([0, n * step]);
      element("line", { x1: 0, x2: w, y1: at, y2: at, class: n === 0 ? "axis" : "" }, grid);
      if (at < h - 20) element("text", { x: 4, y: at - 3 }, grid).textContent = n * step;
    }
  }

  drawDot(position, name, r) {
    const [cx, cy] = this.toScreen(position);
    return element("circle", { cx, cy, r, class: name }, this.svg);
  }

  drawCorners(shape, target) {
    const corners = Shapes.corners(shape);
    if (corners.length > 400) return;
    const name = (corner) => `${target}-${corner.list}-${corner.place}`;
    // While a corner is dragged, only what is needed is drawn at each move.
    const isStill = !this.drag?.corner;
    for (const corner of Shapes.isPoints(shape) || !isStill ? [] : corners) {
      const next = shape.lists[corner.list][corner.place + 1];
      if (!next) continue;
      const ends = [this.toScreen(corner.position), this.toScreen(next)];
      if (Math.hypot(ends[0][0] - ends[1][0], ends[0][1] - ends[1][1]) < 44) continue;
      const middle = [(corner.position[0] + next[0]) / 2, (corner.position[1] + next[1]) / 2];
      const it = this.drawDot(middle, `between corner-${target}`, 5);
      it.dataset.between = name(corner);
      element("title", {}, it).textContent = "Drag for a new corner";
    }
    corners.forEach((corner, number) => {
      const kind = Shapes.isPoints(shape) ? "corner point" : "corner";
      const it = this.drawDot(corner.position, `${kind} corner-${target}`, 7);
      it.dataset.corner = name(corner);
      if (!isStill) return;
      it.setAttribute("tabindex", "0");
      it.setAttribute("role", "button");
      it.setAttribute("aria-roledescription", "corner");
      it.setAttribute("aria-label",
        `Corner ${number + 1} of ${corners.length} of ${target ? "b" : "a"} at ${corner.position.join(" ")}`);
      element("title", {}, it).textContent = corner.position.join(" ");
    });
  }

  drawDraft() {
    if (!this.tool) return;
    const all = this.pointer ? [...this.draft, this.pointer] : this.draft;
    if (all.length > 1) {
      const d = "M" + all.map((p) => this.toScreen(p).join(" ")).join("L");
      element("path", { d, class: `shape line-${this.target} draft` }, this.svg);
    }
    for (const position of this.draft) this.drawDot(position, `shape dot-${this.target}`, 5);
    if (this.pointer) this.drawDot(this.pointer, `corner corner-${this.target}`, 6);
  }

  // Draws a stretch between two points, each of which is two fractions.
  drawStretch(ends, name) {
    const d = `M${ends.map((p) => this.toScreen(nearest(p)).join(" ")).join("L")}`;
    return element("path", { d, class: name }, this.svg);
  }

  // Draws the witness of a cell: a dot, a thick stretch, or a ring around a face point.
  drawMark() {
    if (!this.mark) return;
    if (this.mark.kind === "stretch") {
      this.drawStretch([this.mark.from, this.mark.to], "witness");
    } else if (this.mark.kind === "around") {
      this.drawDot(nearest(this.mark.at), "witness", 14);
      this.drawDot(nearest(this.mark.at), "witness spot", 4);
    } else {
      this.drawDot(nearest(this.mark.at), "witness spot", 8);
    }
  }

  // Draws the place of a fault in red: the edges that share something, what they share, or the positions that it names.
  drawPlace(place) {
    place.edges.forEach((ends) => this.drawStretch(ends, "place edge"));
    place.stretches.forEach((ends) => this.drawStretch(ends, "place shared"));
    place.points.forEach((p) => this.drawDot(nearest(p), "place", 11));
  }

  // ---- the mouse and touch

  listen() {
    const svg = this.svg;
    svg.addEventListener("pointerdown", (event) => {
      this.fingers.set(event.pointerId, event);
      if (this.fingers.size === 2) this.beginPinch();
      else if (this.tool) this.click(event);
      else this.begin(event);
    });
    svg.addEventListener("pointermove", (event) => {
      if (this.fingers.has(event.pointerId)) this.fingers.set(event.pointerId, event);
      this.move(event);
    });
    for (const name of ["pointerup", "pointercancel"]) {
      svg.addEventListener(name, (event) => {
        this.fingers.delete(event.pointerId);
        this.end();
      });
    }
    svg.addEventListener("dblclick", () => this.finish());
    svg.addEventListener("wheel", (event) => {
      event.preventDefault();
      this.zoom(Math.exp(-event.deltaY / 400), this.toGrid(event));
    }, { passive: false });
    svg.addEventListener("keydown", (event) => {
      const corner = this.cornerOf(event.target.dataset.corner);
      const isUsed = corner ? this.cornerKey(event, corner) : event.target === svg && this.key(event);
      if (isUsed) event.preventDefault();
    });
  }

  // Returns the target, the list and the place that the name of a corner says.
  cornerOf(name) {
    if (!name) return null;
    const [target, list, place] = name.split("-").map(Number);
    return { target, list, place };
  }

  // Begins to drag a corner, a new corner, or the paper. The shape as it was at first is kept, so that a corner can be dragged over
  // another and away again.
  begin(event) {
    if (event.button > 0 || this.drag) return;
    this.svg.setPointerCapture(event.pointerId);
    const corner = this.cornerOf(event.target.dataset.corner), between = this.cornerOf(event.target.dataset.between);
    if (corner) {
      this.drag = { corner, shape: this.shapes[corner.target] };
    } else if (between) {
      const shape = Shapes.inserted(this.shapes[between.target], between, this.toPosition(event));
      this.drag = { corner: { ...between, place: between.place + 1 }, shape };
    } else {
      this.drag = { start: [event.clientX, event.clientY], view: this.view };
    }
  }

  // Two fingers scale and move the view. Returns how far they are apart, and the place of the grid between them.
  span() {
    const [p, q] = this.fingers.values(), between = { clientX: (p.clientX + q.clientX) / 2, clientY: (p.clientY + q.clientY) / 2 };
    return [Math.hypot(p.clientX - q.clientX, p.clientY - q.clientY), this.toGrid(between)];
  }

  beginPinch() {
    if (this.drag?.corner) this.calls.settled();
    this.drag = { pinch: this.span() };
  }

  pinch() {
    const [was, place] = this.drag.pinch, [is, moved] = this.span();
    this.view = { ...this.view, x: this.view.x + place[0] - moved[0], y: this.view.y + place[1] - moved[1] };
    this.zoom(is / was, place);
    this.drag.pinch = this.span();
  }

  move(event) {
    if (this.drag?.pinch) {
      if (this.fingers.size === 2) this.pinch();
    } else if (this.tool) {
      this.pointer = this.toPosition(event);
      this.draw();
    } else if (this.drag?.corner) {
      const { corner, shape } = this.drag;
      this.calls.changed(corner.target, Shapes.moved(shape, corner, this.toPosition(event)));
    } else if (this.drag) {
      const { start, view } = this.drag;
      const [right, down] = [event.clientX - start[0], event.clientY - start[1]];
      this.view = { ...view, x: view.x - right / view.unit, y: view.y + down / view.unit };
      this.draw();
    }
  }

  end() {
    const isCorner = Boolean(this.drag?.corner);
    this.drag = null;
    if (!isCorner) return;
    this.draw();
    this.calls.settled();
  }

  // ---- new shapes

  start(tool, target) {
    this.tool = tool;
    this.target = target;
    this.draft = [];
    this.pointer = null;
    this.draw();
  }

  click(event) {
    if (event.button === 0) this.put(this.toPosition(event));
  }

  // Adds a position to what is drawn. The first one ends a polygon, and a point is drawn by one.
  put(position) {
    const same = (p) => p && p[0] === position[0] && p[1] === position[1];
    const ends = this.tool === "polygon" && this.draft.length > 2 && same(this.draft[0]);
    if (!ends && same(this.draft[this.draft.length - 1])) return;
    if (!ends) this.draft.push(position);
    if (ends || this.tool === "point") this.finish();
    else this.draw();
  }

  finish() {
    const least = { point: 1, line: 2, polygon: 3 }[this.tool];
    if (!this.tool || this.draft.length < least) return;
    const { draft, tool, target } = this;
    this.start(null, target);
    this.calls.drawn(target, tool, draft);
  }

  // ---- keys

  // Keys on the sheet: arrows move the view, or while drawing the next position, which the space bar sets. Returns whether the key
  // has a use.
  key(event) {
    const step = ARROWS[event.key], far = event.shiftKey ? 10 : 1;
    if (step && this.tool) {
      const from = this.pointer || [this.view.x, this.view.y].map(Math.round);
      this.pointer = from.map((n, axis) => Shapes.clamp(n + step[axis] * far));
      this.show(this.pointer);
      this.calls.hint(`At ${this.pointer.join(" ")}. Space sets a position, Enter ends, Escape gives up.`);
    } else if (step) {
      const by = (40 * far) / this.view.unit;
      this.view = { ...this.view, x: this.view.x + step[0] * by, y: this.view.y + step[1] * by };
    } else if (event.key === " " && this.tool) {
      if (this.pointer) this.put(this.pointer);
    } else if (event.key === "Enter" && this.tool) this.finish();
    else if (event.key === "+" || event.key === "=") this.zoom(1.25);
    else if (event.key === "-") this.zoom(0.8);
    else if (event.key === "0") this.fit();
    else return false;
    this.draw();
    return true;
  }

  // Keys on a corner: arrows move it by a step, Insert or n adds one after it, Delete removes it. Returns whether the key has a use.
  cornerKey(event, corner) {
    const step = ARROWS[event.key], far = event.shiftKey ? 10 : 1, shape = this.shapes[corner.target];
    const list = shape.lists[corner.list], position = list[corner.place];
    if (step) {
      const to = position.map((n, axis) => n + step[axis] * far);
      this.show(to);
      this.calls.changed(corner.target, Shapes.moved(shape, corner, to));
    } else if (event.key === "Delete" || event.key === "Backspace") {
      this.calls.changed(corner.target, Shapes.removed(shape, corner));
    } else if ((event.key === "Insert" || event.key === "n") && !Shapes.isPoints(shape)) {
      const next = list[corner.place + 1] || position;
      const middle = position.map((n, axis) => (n + next[axis]) / 2);
      this.calls.changed(corner.target, Shapes.inserted(shape, corner, middle));
    } else return false;
    this.calls.settled();
    return true;
  }
}
