// Has the program's proved code answer within the memory of each module that is named, and then a shorter order. Writes what it gave for both.
import fs from "node:fs";

const [folder, ...modules] = process.argv.slice(2);
const { LASTING, OutOfMemory, serving } = await import(`${folder}/serve.js`);

const rows = Array.from({ length: 50000 }, (_, it) => it).join("\n");
const files = { s: "CREATE TABLE t (id INTEGER PRIMARY KEY)", "d/t.csv": `id\n${rows}\n` };
const read = (path) => ({ found: LASTING, bytes: Buffer.from(files[path]) });

function answer(serve, ...words) {
  try {
    const { status, out, err } = serve(["sfq", ...words], false, read);
    return `${status} ${out.length} ${Buffer.from(err)}`;
  } catch (error) {
    if (!(error instanceof OutOfMemory)) throw error;
    return error.message;
  }
}

const found = [];
for (const module of modules) {
  const serve = await serving(fs.readFileSync(module));
  found.push([answer(serve, "run", "s", "d", "SELECT id FROM t"), answer(serve, "relate", "POINT(1 1)", "POINT(1 1)")]);
}
process.stdout.write(JSON.stringify(found));
