// One player, in a thread of its own. The page sends what came by the network and what the hand did; this answers what to draw and send.
import { automatic } from "./automatic.js";
import { Player } from "./players.js";
import { STEPS, PIN, MOVE, SIDE, lines } from "./scene.js";
import { hex, spell } from "./lakmozet.js";

let player, auto, alone = null, live = -1, ready = -1, told = 0;

async function open({ id, module, seed, keep, start }) {
    player = await Player.open(id, module);
    player.keep = keep;
    if (start) {
        player.follow(start.session, start.state);
        player.whole = start.whole;
    }
    auto = seed === null ? null : automatic(seed, id);
    return { id, links: player.world.links };
}

// The upper right corner is held one unit above where it is now, here alone.
function secret(turn) {
    player.secret = null;
    const i = SIDE - 1, p = player.world.places();
    alone = { turn };
    return [[0, PIN, i, 0, 0, 0], [0, MOVE, i, p[i * 6], p[i * 6 + 2] + 1, p[i * 6 + 4]]];
}

function frame({ now, target, packets, wants, lonely, limit = Infinity }) {
    const start = performance.now(), busy = player.busy, played = player.played, { world } = player;
    if (lonely) player.secret = secret;
    const again = player.receive(now, packets);
    for (const it of wants) player.want(...it);
    // A few steps at most, so that a slow machine falls behind rather than stops.
    for (let k = 0; k < 4 && player.tick < Math.min(target, limit); k++) {
        if (auto && ready !== player.tick) {
            auto(player);
            ready = player.tick;
        }
        if (!player.forward(now)) break;
    }
    if (now - player.told >= 50) player.tell(now);
    const count = world.liveCount(), digests = [];
    for (; told < player.sure; told++) if (player.after[told]) digests.push([told, player.after[told]]);
    const answer = {
        id: player.id, tick: player.tick, turn: player.turn, sure: player.sure, again: player.again, lastAgain: again, waits: player.waits,
        refused: player.refused, digests, compared: player.last?.turn, desync: player.desync, alone, leads: player.leads, whole: player.whole,
        busy: player.busy - busy, played: player.played - played, totalBusy: player.busy, totalPlayed: player.played, count,
        places: world.places().slice(), held: world.held().slice(), gravity: world.gravityNow(), out: player.out.splice(0), live: null,
        took: performance.now() - start,
    };
    if (count !== live) {
        live = count;
        answer.live = world.live().slice();
    }
    return answer;
}

function finish({ turns }) {
    let script = "";
    for (let tick = 0; tick < turns * STEPS; tick++) {
        const turn = Math.floor(tick / STEPS);
        for (const inputs of player.inputs) script += lines(inputs[turn] ?? [], tick % STEPS);
        script += "step 1\n";
    }
    return { script, after: player.after.slice(0, turns).map(hex), sums: spell(player.world.sums()) };
}

const answers = {
    open, frame, finish,
    // The turns that this player is sure of, and the state that they came to.
    sure: () => ({ session: player.session, whole: player.whole, ...player.sureWorld }),
    wrong: ({ state }) => ({ offset: player.wrongIn(state) }),
};

onmessage = async ({ data }) => {
    try {
        const answer = await answers[data.what](data);
        postMessage(answer, answer.places ? [answer.places.buffer] : []);
    } catch (error) {
        postMessage({ error: String(error.stack ?? error) });
    }
};
