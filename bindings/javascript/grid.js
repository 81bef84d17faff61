// The grid: how large a step is and where its 0 0 is, in decimal numbers, and whole coordinates as numbers of the source. The module
// rounds.
import { engine } from "./engine.js";

// A decimal number, in the parts that count: its sign, its digits before and after the point, and its exponent.
const NUMBER = /^([+-]?)(\d*)(?:\.(\d*))?(?:[eE]([+-]?\d{1,3}))?$/;
// The smallest and the greatest exponent that a number can have here.
const MOST_EXPONENT = 60;
// The most parts of a step or a unit, and of an origin.
const MOST_PARTS = 10n ** 15n, FARTHEST = 2n ** 63n - 1n;
// Where a grid is behind what a call finds.
const BEHIND = 32;

// Reads a decimal number as digits with so many of them after the point.
function decimal(text) {
  const [, sign, whole, fraction = "", exponent = "0"] = NUMBER.exec(text) ?? [];
  if (sign === undefined || !(whole + fraction)) throw new RangeError(`sfq: ${text} isn't a decimal number`);
  const places = fraction.length - Number(exponent), digits = BigInt(whole + fraction);
  if (digits && Math.abs(String(digits).length - 1 - places) > MOST_EXPONENT) throw new RangeError(`sfq: ${text} isn't a decimal number that a grid can have`);
  return { digits: sign === "-" ? -digits : digits, places };
}

// A grid: the size of a step, and where its 0 0 is.
export class Grid {
  constructor(step, [x, y] = [0, 0]) {
    const all = [step, x, y].map((it) => decimal(String(it)));
    // Step and origin counted in the last digit after the point that any of them has.
    this.places = Math.max(0, ...all.map((it) => it.places));
    [this.step, this.x, this.y] = all.map((it) => it.digits * 10n ** BigInt(this.places - it.places));
    if (this.step <= 0n) throw new RangeError(`sfq: the step ${step} isn't greater than 0`);
    const parts = 10n ** BigInt(this.places), far = [this.x, this.y].some((it) => it > FARTHEST || it < -FARTHEST);
    if (this.step > MOST_PARTS || parts > MOST_PARTS || far) throw new RangeError("sfq: the step or the origin has too many digits");
    this.fields = BigInt64Array.of(this.step, this.x, this.y, parts);
  }

  // Writes it where a call of a module finds it. Returns its address.
  put(it) {
    new BigInt64Array(it.bytes.buffer, it.found + BEHIND, 4).set(this.fields);
    return it.found + BEHIND;
  }

  // Returns the whole coordinates that are nearest to numbers, an x and a y in turn, all of them finite.
  nearest(numbers) {
    const it = engine(), count = numbers.length / 2, size = 8 * numbers.length;
    try {
      it.grow(size + 4 * numbers.length);
      new Float64Array(it.bytes.buffer, it.room, numbers.length).set(numbers);
      it.need(it.calls.round(this.put(it), it.room, count, it.room + size, it.found));
      return new Int32Array(it.bytes.buffer, it.room + size, numbers.length).slice();
    } finally {
      it.shrink();
    }
  }

  // Returns the numbers of the source at whole coordinates: the doubles that are nearest to them.
  numbers(position) {
    return position.map((whole, place) => Number(`${[this.x, this.y][place] + BigInt(whole) * this.step}e-${this.places}`));
  }
}

// The grid of options, or null where they have none.
export function gridOf({ step, origin }) {
  return step === undefined && origin === undefined ? null : new Grid(step ?? 1, origin);
}
