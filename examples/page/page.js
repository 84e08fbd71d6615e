// The page: two sides and the network between them, frame by frame, and what is around them.
import { $, fail, game, told } from "./game.js";
import { equal, hex } from "./lakmozet.js";
import { Network } from "./network.js";
import { LONGEST, SCENE, STEPS, packSession, unpackSession } from "./scene.js";
import { Side } from "./side.js";
import { drawWire, traffic } from "./wire.js";

let sides = [], restarting = false, arrived = false;
const spelled = number => number.toLocaleString("en");
const units = { delay: " ms", jitter: " ms", loss: " %" };
for (const name of Object.keys(units)) {
    const slider = $(name);
    if (game.query.has(name)) slider.value = game.query.get(name);
    const tell = () => {
        game.network[name] = Number(slider.value);
        $(`${name}-out`).textContent = (name === "jitter" ? "± " : "") + slider.value + units[name];
    };
    slider.addEventListener("input", tell);
    tell();
}

// ---- an input in one world alone

let broke = null;
function offer(mend) {
    $("alone").textContent = mend ? "Mend it with world 1’s state" : "Play one input in one world alone";
}
$("alone").addEventListener("click", async () => {
    if (broke?.done) {
        const start = await sides[0].ask({ what: "sure" }), turns = start.session[0].length;
        await anew(start, `Mended after turn ${turns - 1}: world 2 read the ${spelled(start.state.length)} bytes of world 1’s state.`);
    } else if (!broke) {
        game.paused = false;
        broke = { at: game.clock };
        sides[1].lonely = true;
        told("Playing it in world 2 alone …");
    }
});
function watch() {
    if (!broke || broke.done) return;
    const turn = sides[1].state.alone?.turn, found = sides.map(s => s.state.desync).filter(Boolean);
    if (turn === undefined || !found.length) return;
    broke.done = true;
    const first = found.reduce((a, b) => a.now <= b.now ? a : b);
    const late = Math.round(first.now - broke.at);
    told(`Seen. The input was in turn ${turn}; the digests of turn ${first.turn} differ, known ${late} ms later.`, true);
    offer(true);
}

// ---- a link that has the session's inputs in it

const through = (bytes, stream) => new Response(new Blob([bytes]).stream().pipeThrough(stream)).arrayBuffer();

async function link() {
    const { session, whole } = await sides[0].ask({ what: "sure" });
    if (!whole) return null;
    const bytes = new Uint8Array(await through(packSession(session), new CompressionStream("deflate-raw")));
    const text = btoa(Array.from(bytes, byte => String.fromCharCode(byte)).join(""));
    return `${location.origin}${location.pathname}#${text.replaceAll("+", "-").replaceAll("/", "_").replaceAll("=", "")}`;
}
window.link = link;

// The session that the address has, or nothing; an address that can't be read is an error.
async function given() {
    if (location.hash.length < 2) return null;
    const text = atob(location.hash.slice(1).replaceAll("-", "+").replaceAll("_", "/"));
    const bytes = await through(Uint8Array.from(text, sign => sign.charCodeAt(0)), new DecompressionStream("deflate-raw"));
    return unpackSession(new Uint8Array(bytes));
}

$("share").addEventListener("click", async () => {
    const address = await link();
    if (!address) return told("This session began from a file, so its inputs don’t tell all of it. Save it as a file again.");
    history.replaceState(null, "", address);
    await navigator.clipboard?.writeText(address).catch(() => {});
    told(`The address has all turns that the first player has played with both inputs, and was copied where the browser allows it. Opened in a tab with another address, it shows the frame they come to, unless they are more than ${spelled(LONGEST)}.`);
});

// ---- a world as a file: its state, as the library writes it

async function save() {
    const { session, state, digest } = await sides[0].ask({ what: "sure" }), turns = session[0].length;
    const file = document.createElement("a");
    file.href = URL.createObjectURL(new Blob([state]));
    file.download = `lakmozet-${turns}.state`;
    file.click();
    setTimeout(() => URL.revokeObjectURL(file.href), 60000);
    told(`Saved world 1 after ${turns} turns, ${spelled(state.length)} bytes whose SHA-256 is the digest ${hex(digest).slice(0, 16)}…`);
}

// Both worlds go over to the one that a file has, if it is a state of the scene (and no other session is being opened).
async function load(bytes) {
    const { offset } = await sides[0].ask({ what: "wrong", state: bytes });
    if (offset !== undefined) return told(`Refused: at byte ${spelled(offset)} the file stops being a state of this scene.`, true);
    await anew({ session: [[], []], state: bytes, whole: false }, "Both worlds read the file, and go on from there.");
}
Object.assign(window, { save, load });
$("save").addEventListener("click", save);
$("load").addEventListener("click", () => $("file").click());
$("file").addEventListener("change", async ({ target }) => {
    if (target.files.length) await load(new Uint8Array(await target.files[0].arrayBuffer()));
    target.value = "";
});

// ---- running

// Shows the digests of both worlds, of the last turn that both know.
function showDigests() {
    const turn = Math.min(...sides.map(({ digests }) => Math.max(-1, ...digests.keys()))), [one, two] = sides.map(({ digests }) => digests.get(turn));
    sides.forEach((side, id) => side.showDigest(turn, [one, two][id], one && two && equal(one, two)));
}

function drawAll(now) {
    for (const side of sides) {
        side.view.resize();
        side.draw();
        side.keyboard();
    }
    showDigests();
    drawWire(now);
    traffic(now);
}

let before = null;
function live(real) {
    requestAnimationFrame(live);
    if (restarting) return;
    if (arrived) return visit();
    const passed = before === null || game.paused ? 0 : Math.min(50, real - before);
    before = real;
    // Where a machine can't keep up, or the page was hidden, the clock of the game goes slower. (Where both wait it goes on, or
    // no packet would come.)
    const tick = Math.max(...sides.map(s => s.state.tick)), stuck = game.ahead - tick > 10;
    if (!stuck || sides.every(s => s.state.waiting)) game.clock += passed;
    if (!stuck) game.ahead += passed * 0.06;
    for (const side of sides) {
        if (side.asked) continue;
        const waits = side.state.waits;
        side.lead();
        side.frame(game.clock, Math.floor(game.ahead)).then(it => {
            it.waiting = it.waits > waits;
            side.take(it);
            watch();
        });
    }
    drawAll(game.clock);
}

async function automaticRun() {
    const start = performance.now(), fast = game.query.has("fast"), { turns, limit } = game;
    for (let frame = 0; ; frame++) {
        game.clock = frame * 1000 / 60;
        const answers = await Promise.all(sides.map(side => side.frame(game.clock, frame + 1)));
        sides.forEach((side, id) => side.take(answers[id]));
        if (!fast || frame % 100 === 0) drawAll(game.clock);
        if (!fast) await new Promise(requestAnimationFrame);
        if (answers.every(it => it.tick === limit && it.sure === turns && it.compared === turns - 1)) break;
        if (frame > limit * 20) return fail("the run doesn't end");
    }
    drawAll(game.clock);
    const ends = await Promise.all(sides.map(side => side.ask({ what: "finish", turns })));
    const same = ["sums", "script", "after"].every(it => String(ends[0][it]) === String(ends[1][it])), digests = ends.map(it => it.after.at(-1));
    const result = {
        equal: same, sums: ends.map(it => it.sums), digests, after: ends[0].after, script: ends[0].script, scene: SCENE,
        again: sides.map(s => s.state.again), waits: sides.map(s => s.state.waits), refused: sides.map(s => s.state.refused),
        compared: sides.map(s => s.state.compared), desync: sides.map(s => s.state.desync),
        sent: game.network.sent, lost: game.network.lost, bytes: game.network.bytes,
        turnMs: sides.map(s => s.state.totalBusy / s.state.totalPlayed), seconds: (performance.now() - start) / 1000,
    };
    $("result").textContent = JSON.stringify(result);
    document.title = `done ${same ? "equal" : "differ"} | ${digests.join(" | ")}`;
    const end = same ? `${turns} turns, and both worlds are equal.` : "the worlds differ.";
    told(`The automatic run is over: ${end}`, !same);
}

// Begins with two new worlds, at the scene's opening or where they are told.
async function begin(start = null) {
    const { delay, jitter, loss } = game.network;
    game.network = Object.assign(new Network(game.seed ?? 1), { delay, jitter, loss });
    game.ahead = start ? start.session[0].length * STEPS : 0;
    game.clock = game.ahead / 0.06;
    broke = null;
    offer(false);
    told("Moves a corner by 0.015 mm, in world 2 only. Your eyes won’t see it, unless the corner was freed or just moved. The digests will.");
    await Promise.all(sides.map(side => side.open(start)));
}

async function anew(start, text) {
    if (restarting || game.seed !== null) return;
    restarting = true;
    history.replaceState(null, "", location.pathname + location.search);
    game.paused = false;
    await begin(start);
    if (text) told(text);
    restarting = false;
}
$("again").addEventListener("click", () => anew());

// Begins with the session that the address has, which goes on at a touch, or with a new one.
async function visit() {
    restarting = true;
    arrived = false;
    const session = await given().catch(() => undefined);
    game.paused = Boolean(session);
    await begin(session && { session, whole: true });
    if (session === undefined) told("The address can’t be read, so this is a new session.", true);
    restarting = false;
}
// A link that comes into the open page's address is taken by the next frame of `live`, or the first after a restart.
// (What the page puts there itself makes no such event.)
addEventListener("hashchange", () => {
    arrived = true;
});

try {
    const module = await WebAssembly.compileStreaming(fetch("lakmozet.wasm"));
    sides = [new Side(0, module), new Side(1, module)];
    await visit();
    window.sides = sides;
    if (game.seed !== null) {
        for (const name of ["alone", "share", "save", "load"]) $(name).disabled = true;
        await automaticRun();
    } else requestAnimationFrame(live);
} catch (error) {
    fail(String(error.stack ?? error));
}
