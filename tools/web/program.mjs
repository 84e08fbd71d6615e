// Runs the program as wasm32-wasip1: program.mjs FILE.wasm WORD.. < INPUT > OUTPUT. It has the few calls that the program makes
// of the system, so that it runs where no other WASI is: a page can do the same.
import { readFileSync, readSync, writeSync } from "node:fs";

const [file, ...given] = process.argv.slice(2);
const words = ["lakmozet", ...given].map((word) => Buffer.from(`${word}\0`));
const AGAIN = 6, NO_CALL = 52, FAULT = 29;

let memory;
const view = () => new DataView(memory.buffer);
const bytes = (at, length) => new Uint8Array(memory.buffer, at, length);

class Exit {
  constructor(status) {
    this.status = status;
  }
}

// Reads into or writes from a list of pieces of memory, until one isn't taken whole, and stores how many bytes there were.
function each(list, count, done, call) {
  let all = 0;
  for (let i = 0; i < count; i++) {
    const start = view().getUint32(list + 8 * i, true);
    const length = view().getUint32(list + 8 * i + 4, true);
    let n = 0;
    try {
      n = call(bytes(start, length));
    } catch (fault) {
      if (fault.code !== "EOF") return fault.code === "EAGAIN" ? AGAIN : FAULT;
    }
    all += n;
    if (n < length) break;
  }
  view().setUint32(done, all, true);
  return 0;
}

// Puts words one behind another, and the place of each into a list.
function put(list, at) {
  for (const word of words) {
    view().setUint32(list, at, true);
    bytes(at, word.length).set(word);
    list += 4;
    at += word.length;
  }
  return 0;
}

function sizes(count, size, of) {
  view().setUint32(count, of.length, true);
  view().setUint32(size, of.reduce((sum, word) => sum + word.length, 0), true);
  return 0;
}

const system = {
  args_sizes_get: (count, size) => sizes(count, size, words),
  args_get: put,
  environ_sizes_get: (count, size) => sizes(count, size, []),
  environ_get: () => 0,
  fd_read: (fd, list, count, done) => each(list, count, done, (piece) => readSync(fd, piece)),
  fd_write: (fd, list, count, done) => each(list, count, done, (piece) => writeSync(fd, piece)),
  proc_exit: (status) => {
    throw new Exit(status);
  },
};

const module = new WebAssembly.Module(readFileSync(file));
for (const { name } of WebAssembly.Module.imports(module)) system[name] ??= () => NO_CALL;
const instance = new WebAssembly.Instance(module, { wasi_snapshot_preview1: system });
memory = instance.exports.memory;
try {
  instance.exports._start();
} catch (end) {
  if (!(end instanceof Exit)) throw end;
  process.exitCode = end.status;
}
