// The scene, and what follows from it: where its particles are at first, and the bounds of an input.
import { HASH } from "./lakmozet.js";

export const SIDE = 32, METRE = 65536, STEPS = 3, SLOTS = 16;
export const SPHERE = { at: [0, 50000, 62000], radius: 50000 };
const SPACING = 4369, UP = 140000, HALF = SPACING * 31 / 2;
export const ORIGIN = [-Math.round(HALF), UP, 0], GRAVITY = 179;

export const SCENE = `gravity = [0, -${GRAVITY}, 0]
passes = 8
damping = 6
thickness = 2200
friction = 48
pins = [0, 31]

[[cloth]]
origin = [${ORIGIN.join(", ")}]
across = [${SPACING}, 0, 0]
down = [0, 0, ${SPACING}]
rows = ${SIDE}
columns = ${SIDE}
bend = 16

[[plane]]
normal = [0, 1, 0]
offset = 0

[[sphere]]
centre = [${SPHERE.at.join(", ")}]
radius = ${SPHERE.radius}
`;

export const opened = i => [ORIGIN[0] + SPACING * (i % SIDE), UP, SPACING * Math.floor(i / SIDE)];

// An input is what one player does in one turn: a list of commands [which step of the turn, kind, number, x, y, z].
export const PIN = 1, UNPIN = 2, MOVE = 3, CUT = 4, TURN = 5;
export const LIMIT = 3 * METRE, MOST = 64, MOST_TURNS = 32;

// (a link that there isn't is no matter here: it is refused in both worlds alike)
export function allowed(input) {
    const near = n => Math.abs(n) <= LIMIT;
    return input.length <= MOST && input.every(([step, kind, n, x, y, z]) => step < STEPS && (
        kind === PIN || kind === UNPIN ? n < SIDE * SIDE : kind === MOVE ? n < SIDE * SIDE && near(x) && near(y) && near(z) :
        kind === CUT || kind === TURN && [x, y, z].every(g => Math.abs(g) <= 2 * GRAVITY)));
}

// Inputs as bytes: how many commands a turn has, and of each its step and kind, its number, and where it has one its vector.
const sizeOf = inputs => inputs.reduce((size, input) => size + 1 + input.reduce((n, [, kind]) => n + (hasVector(kind) ? 15 : 3), 0), 0);
const hasVector = kind => kind === MOVE || kind === TURN;

function write(view, at, inputs) {
    for (const input of inputs) {
        view.setUint8(at++, input.length);
        for (const [step, kind, n, ...vector] of input) {
            view.setUint8(at, step * 8 + kind);
            view.setUint16(at + 1, n);
            at += 3;
            if (!hasVector(kind)) continue;
            vector.forEach((axis, k) => view.setInt32(at + 4 * k, axis));
            at += 12;
        }
    }
    return at;
}

// Reads so many turns, and answers them with where they end; an input that isn't allowed is an error.
function read(view, at, many) {
    const inputs = [];
    for (let turn = 0; turn < many; turn++) {
        const input = [];
        for (let left = view.getUint8(at++); left > 0; left--) {
            const tag = view.getUint8(at), kind = tag & 7, it = [tag >> 3, kind, view.getUint16(at + 1), 0, 0, 0];
            at += 3;
            if (hasVector(kind)) {
                for (let k = 0; k < 3; k++) it[3 + k] = view.getInt32(at + 4 * k);
                at += 12;
            }
            input.push(it);
        }
        if (!allowed(input)) throw new Error("an input that isn't allowed");
        inputs.push(input);
    }
    return [inputs, at];
}

// A packet: all turns that the other hasn't said it has, how many turns I have of it, and the digest of a turn that I'm sure of,
// once there is one.
const HEAD = 16, BLANK = new Uint8Array(HASH);
export function pack({ first, inputs, known, turn, digest }) {
    const bytes = new Uint8Array(HEAD + HASH + sizeOf(inputs)), view = new DataView(bytes.buffer);
    view.setUint32(0, first);
    view.setUint32(4, inputs.length);
    view.setUint32(8, known);
    view.setInt32(12, turn);
    bytes.set(digest ?? BLANK, HEAD);
    write(view, HEAD + HASH, inputs);
    return bytes;
}

// What a packet says, or nothing where it says anything that isn't allowed.
export function unpack(bytes) {
    try {
        const view = new DataView(bytes.buffer, bytes.byteOffset, bytes.length);
        const first = view.getUint32(0), many = view.getUint32(4), known = view.getUint32(8), turn = view.getInt32(12);
        if (many > MOST_TURNS) return null;
        const [inputs, end] = read(view, HEAD + HASH, many);
        return end === bytes.length ? { first, inputs, known, turn, digest: bytes.slice(HEAD, HEAD + HASH) } : null;
    } catch {
        return null;
    }
}

// A session, the inputs of both players in each turn, as a link carries it.
export const LONGEST = 12000;
export function packSession(session) {
    const bytes = new Uint8Array(4 + sizeOf(session[0]) + sizeOf(session[1])), view = new DataView(bytes.buffer);
    view.setUint32(0, session[0].length);
    write(view, write(view, 4, session[0]), session[1]);
    return bytes;
}

export function unpackSession(bytes) {
    const view = new DataView(bytes.buffer, bytes.byteOffset, bytes.length), turns = view.getUint32(0);
    if (turns > LONGEST) throw new Error("the session is too long");
    const [one, middle] = read(view, 4, turns), [two, end] = read(view, middle, turns);
    if (end !== bytes.length) throw new Error("the session is longer than it says");
    return [one, two];
}

// The lines of a script that do what an input does before one step of its turn.
export function lines(input, step) {
    return input.filter(it => it[0] === step).map(([, kind, n, x, y, z]) =>
        kind === PIN ? `pin ${n}\n` : kind === UNPIN ? `unpin ${n}\n` : kind === MOVE ? `move ${n} ${x} ${y} ${z}\n` :
        kind === CUT ? `cut ${n}\n` : `gravity ${x} ${y} ${z}\n`).join("");
}
