// Positions in a kept polygon, and two kept polygons, by the package for JavaScript, for javascript.py.
//
//   node javascript.mjs PACKAGE HOW TIMES FILE
//
// FILE and HOW are those of prepared.c: locate, holds, contains, meet and relate. Everything is read and kept once, then all is asked
// TIMES times, and three times as often for the clock. It prints what prepared.c prints, and the least nanoseconds of processor time of a
// call.
import { readFileSync } from "node:fs";
import { pathToFileURL } from "node:url";

const [folder, how, times, file] = process.argv.slice(2);
const { EXTERIOR, Geometry, load } = await import(pathToFileURL(`${folder}/index.js`));
await load();
const [text, ...lines] = readFileSync(file, "utf8").trimEnd().split("\n"), polygon = Geometry.read(text);

// What is asked once: how often it holds, or the matrix; and how many calls that are.
function asks() {
  if (how === "meet" || how === "relate") {
    const other = Geometry.read(lines[0]);
    return [how === "meet" ? () => `${Number(polygon.intersects(other))} ` : () => `0 ${polygon.relate(other)}`, 1];
  }
  const positions = lines.map((line) => line.split(" ").map(Number)), points = positions.map(([x, y]) => Geometry.read(`POINT(${x} ${y})`));
  const calls = {
    locate: () => positions.reduce((sum, [x, y]) => sum + (polygon.locate(x, y) !== EXTERIOR ? 1 : 0), 0),
    holds: () => points.reduce((sum, it) => sum + (polygon.intersects(it) ? 1 : 0), 0),
    contains: () => points.reduce((sum, it) => sum + (polygon.contains(it) ? 1 : 0), 0),
  };
  return [calls[how], points.length];
}

const [ask, count] = asks();
function turns() {
  const begun = process.cpuUsage();
  for (let turn = 0; turn < Number(times); turn++) ask();
  return (process.cpuUsage(begun).user * 1000) / Number(times) / count;
}
turns();
console.log(ask());
console.log(Math.min(turns(), turns(), turns()));
