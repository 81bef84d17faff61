// GeoJSON (RFC 7946) to positions with their parts, and canonical texts to GeoJSON.
import { FaultError, shapeFault } from "./faults.js";
import { gridOf } from "./grid.js";

// How deep a position is in the coordinates of each type.
const DEPTHS = { Point: 0, MultiPoint: 1, LineString: 1, MultiLineString: 2, Polygon: 2, MultiPolygon: 3 };
const OF_WORD = Object.fromEntries(Object.keys(DEPTHS).map((name) => [name.toUpperCase(), name]));
// A greater coordinate is past the limit, and so is this.
const PAST = 2 ** 31 - 1;

const refused = (code, sentence, position) => new FaultError(shapeFault(code, sentence, position));

function needList(it) {
  if (!Array.isArray(it)) throw new TypeError("sfq: coordinates of GeoJSON are arrays");
  return it;
}

// Returns a position as it is, whose numbers have to be whole where there is no grid.
function positionOf(it, place, grid) {
  if (needList(it).length !== 2) throw refused("W1", "a position is an x and a y: geometries here are flat", place);
  if (!it.every((number) => typeof number === "number" && Number.isFinite(number))) {
    throw refused("W1", "a coordinate of this position is infinite or no number", place);
  }
  if (grid) return it;
  if (!it.every(Number.isInteger)) {
    throw refused("W2", "a coordinate of this position isn't whole: say how large a step of the grid is", place);
  }
  return it.map((number) => Math.max(-PAST, Math.min(PAST, number)));
}

// Whether a part has no position, or a polygon no ring.
const isNothing = (part) => part === 0 || (Array.isArray(part) && (part.length === 0 || part.some(isNothing)));

// Returns the type, the positions and the parts of a geometry of GeoJSON, or of a Feature's geometry.
export function fromGeoJSON(object, options) {
  const shape = object?.type === "Feature" ? object.geometry : object;
  if (typeof shape?.type !== "string") throw new TypeError("sfq: this is no geometry of GeoJSON");
  const depth = DEPTHS[shape.type], grid = gridOf(options);
  if (depth === undefined) throw refused("W1", `a geometry is one of ${Object.keys(DEPTHS).join(", ")}, not a ${shape.type}`);
  const all = needList(shape.coordinates), numbers = [];
  const add = (it) => numbers.push(...positionOf(it, numbers.length / 2, grid));
  // Adds a list of positions, and returns how many it has.
  const list = (them) => needList(them).reduce((count, it) => (add(it), count + 1), 0);
  const nested = (them, level) => (level === 1 ? list(them) : needList(them).map((it) => nested(it, level - 1)));
  const parts = all.length === 0 ? [] : depth === 0 ? (add(all), []) : nested(all, depth);
  const listed = Array.isArray(parts) ? parts : [];
  if (listed.some(isNothing)) throw refused("W1", "a line or a ring has no position");
  return [shape.type, grid ? grid.nearest(numbers) : Int32Array.from(numbers), listed];
}

// Returns a canonical text as a geometry of GeoJSON, by the numbers of a grid where there is one.
export function toGeoJSON(text, options) {
  const [word, rest] = text.match(/^(\w+) ?(.*)$/).slice(1), type = OF_WORD[word];
  if (rest === "EMPTY") return { type, coordinates: [] };
  const grid = gridOf(options);
  const spelled = (_, x, y) => JSON.stringify(grid ? grid.numbers([Number(x), Number(y)]) : [Number(x), Number(y)]);
  const nested = JSON.parse(rest.replace(/(-?\d+) (-?\d+)/g, spelled).replaceAll("(", "[").replaceAll(")", "]"));
  if (type === "Point") return { type, coordinates: nested[0] };
  // A point of a MULTIPOINT is in parentheses of its own.
  return { type, coordinates: type === "MultiPoint" ? nested.map(([it]) => it) : nested };
}
