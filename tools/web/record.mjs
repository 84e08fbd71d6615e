// Records a session by the C library as WebAssembly, as a web page calls it: record.mjs LIBRARY.wasm < INPUT > LOG. The input is
// a scene, a line %%, and a script; the status is the program's,
// which lak_record answers with 32 added.
import { readFileSync, writeSync } from "node:fs";

const ROOM = 1 << 24;
const { instance } = await WebAssembly.instantiate(readFileSync(process.argv[2]));
const lak = instance.exports;

// Puts bytes into memory of the library's, which a page asks for and gives back.
function put(bytes) {
  const at = lak.lak_take(bytes.length);
  new Uint8Array(lak.memory.buffer, at, bytes.length).set(bytes);
  return at;
}

// The place of the line %%, and of what stands behind it.
function split(input) {
  let start = 0;
  for (const line of input.toString("latin1").split("\n")) {
    const next = start + line.length + 1;
    if (line.replace(/\r$/, "") === "%%") return [start, next];
    start = next;
  }
  throw new Error("no line %%");
}

const input = readFileSync(0);
const [end, next] = split(input);
const scene = input.subarray(0, end), script = input.subarray(next);
const sceneAt = put(scene), scriptAt = put(script), log = lak.lak_take(ROOM), written = lak.lak_take(8);
const status = lak.lak_record(sceneAt, scene.length, scriptAt, script.length, log, ROOM, written);
let rest = new Uint8Array(lak.memory.buffer, log, new DataView(lak.memory.buffer).getUint32(written, true));
while (rest.length) rest = rest.subarray(writeSync(1, rest));
lak.lak_give(sceneAt, scene.length);
lak.lak_give(scriptAt, script.length);
lak.lak_give(log, ROOM);
lak.lak_give(written, 8);
process.exitCode = status && status - 32;
