// Does what the words of each case order by the program's proved code in one process, and writes what each gave. A case is words, the files that
// it has by their paths, or null where they are on the disk, and whether the environment asks why. All bytes are in base64.
import fs from "node:fs";

const folder = process.argv[2];
const { LASTING, NOTHING, serving } = await import(`${folder}/serve.js`);
const { readFile } = await import(`${folder}/program.js`);
const serve = await serving(fs.readFileSync(`${folder}/sfq_serve.wasm`));

const coded = (bytes) => Buffer.from(bytes).toString("base64");

function reading(files) {
  return (path) => {
    const found = Object.hasOwn(files, path);
    return { found: found ? LASTING : NOTHING, bytes: Buffer.from(found ? files[path] : "", "base64") };
  };
}

function answer([words, files, asks]) {
  const { status, out, err, more } = serve(words, asks, files ? reading(files) : readFile);
  return [status, coded(out), coded(err), coded(more)];
}

process.stdout.write(JSON.stringify(JSON.parse(fs.readFileSync(0, "utf8")).map(answer)));
