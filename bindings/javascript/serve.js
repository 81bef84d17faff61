// What the words of a command line order, done by the proved code of the program sfq in a module of WebAssembly, over files that a caller
// reads. `serving(bytes)` starts the module, given its bytes, and returns
//
//   serve(words, asks, read)   does what the words order, the program's name first: {status, out, err, more}. `out` and `err` are the bytes
//                              for standard output and standard error, and `more` what explains a fault, which follows `err` there.
//                              `asks` says whether the environment asks why. `read(path, role)` returns {found, bytes} of a file.
//
// It throws OutOfMemory where the module's memory, of 32 bits, has no room for the files and what is written.

// What was found at the path of a file.
export const LASTING = 0, PASSING = 1, FOLDER = 2, BROKEN = 3, NOTHING = 4, DENIED = 5, CLOSED = 6;
// What a file is for a command.
export const SCHEMA = 0, TABLE = 1, QUERY = 2, GEOMETRY = 3, PAIRS = 4;

// What the module's call returns.
const DONE = 0, MISUSED = 1, OUT_OF_MEMORY = 3, TOO_SMALL = 5, MISSING = 6;
// How many bytes a list of texts takes, what is handed in, and what is said of what is handed out: each number has eight. What is handed in
// has three lists, two texts, and then a byte for what was found at standard input, and one for whether the caller asks why.
const LIST_BYTES = 32, FLAGS_AT = 3 * LIST_BYTES + 2 * 16, GIVEN_BYTES = FLAGS_AT + 8, SAID_BYTES = 32;
// The room for what is written, at first.
const FIRST_ROOM = 1 << 20;

const encoder = new TextEncoder(), decoder = new TextDecoder("utf-8", { ignoreBOM: true });

export class OutOfMemory extends Error {
  constructor() {
    super("out of memory");
    this.name = "OutOfMemory";
  }
}

// Whether a command reads all of a file, and not only so much of it.
export const isLong = (role) => role === TABLE || role === PAIRS;

// Whether a command reads standard input under this path.
export const isInput = (path, role) => role >= QUERY && path === "-";

// Memory of a module that is taken for one call, and given back together.
class Loans {
  #calls;
  #held = [];

  constructor(calls) {
    this.#calls = calls;
  }

  get memory() {
    return this.#calls.memory.buffer;
  }

  take(count) {
    const at = count < 2 ** 31 ? this.#calls.take(count) >>> 0 : 0;
    if (at === 0) throw new OutOfMemory();
    this.#held.push(at);
    return at;
  }

  // Numbers of 64 bits at an address, whose high half is 0.
  put(at, numbers) {
    const view = new DataView(this.memory);
    numbers.forEach((it, place) => view.setBigUint64(at + 8 * place, BigInt(it), true));
    return at;
  }

  bytes(list) {
    const at = this.take(list.reduce((sum, it) => sum + it.length, 0));
    let end = at;
    for (const it of list) {
      new Uint8Array(this.memory).set(it, end);
      end += it.length;
    }
    return [at, end - at];
  }

  // A list of texts, as four numbers.
  texts(list) {
    const lengths = this.put(this.take(8 * list.length), list.map((it) => it.length));
    return [...this.bytes(list), lengths, list.length];
  }

  giveLast() {
    this.#calls.give(this.#held.pop());
  }

  end() {
    this.#held.splice(0).forEach((at) => this.#calls.give(at));
  }
}

// Hands all in to the module's call, whose room is as large as it needs. Returns its status and what is said of what it hands out.
function handIn(calls, loans, words, asks, files, input) {
  const given = loans.take(GIVEN_BYTES), said = loans.take(SAID_BYTES);
  const lists = [words, files.map((it) => it.path), files.map((it) => it.bytes)].flatMap((it) => loans.texts(it));
  const found = Uint8Array.from(files, (it) => it.found);
  loans.put(given, [...lists, ...loans.bytes([found]), ...loans.bytes([input.bytes])]);
  new Uint8Array(loans.memory).set([input.found, asks ? 1 : 0], given + FLAGS_AT);
  for (let size = FIRST_ROOM; ; ) {
    const room = loans.take(size), status = calls.serve(given, room, size, said) >>> 0, view = new DataView(loans.memory);
    const [bytes, out, err] = [0, 8, 16].map((at) => Number(view.getBigUint64(said + at, true)));
    if (status !== TOO_SMALL) {
      const text = status === OUT_OF_MEMORY ? new Uint8Array() : new Uint8Array(loans.memory).slice(room, room + bytes);
      return { status, text, out, err, code: view.getUint8(said + 24) };
    }
    loans.giveLast();
    size = bytes;
  }
}

// Makes the call, and gives back what it took.
function called(calls, ...given) {
  const loans = new Loans(calls);
  try {
    return handIn(calls, loans, ...given);
  } finally {
    loans.end();
  }
}

const NOTHING_READ = { found: CLOSED, bytes: new Uint8Array() };

// What the words order. Each file that is missing is read and handed in, until none is; meanwhile tables and pairs are handed in without their
// bytes, so that these are copied once, and nothing is explained.
function served(calls, words, asks, read) {
  const files = [], texts = words.map((it) => encoder.encode(it));
  let input = NOTHING_READ, isWhole = false;
  for (;;) {
    const handed = isWhole ? files : files.map((it) => (it.isLong ? { ...it, bytes: NOTHING_READ.bytes } : it));
    const { status, text, out, err, code } = called(calls, texts, asks && isWhole, handed, input);
    if (status === OUT_OF_MEMORY) throw new OutOfMemory();
    if (status === MISSING) {
      const path = decoder.decode(text), file = read(path, code);
      if (isInput(path, code)) input = file;
      else files.push({ ...file, path: text, isLong: isLong(code) });
    } else if (status !== DONE && status !== MISUSED) {
      throw new Error(`sfq: the module returned the status ${status}`);
    } else if (!isWhole && (asks || files.some((it) => it.isLong))) {
      isWhole = true;
    } else {
      return { status: code, out: text.subarray(0, out), err: text.subarray(out, out + err), more: text.subarray(out + err) };
    }
  }
}

// The same by the calls of a module that was started.
export const servingBy = (calls) => (words, asks, read) => served(calls, words, asks, read);

export async function serving(bytes) {
  const { instance } = await WebAssembly.instantiate(bytes, {});
  return servingBy(instance.exports);
}
