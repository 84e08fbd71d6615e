// Lock step with rollback, for one player: no drawing and no page here, so it runs under node too.
import { World, equal } from "./lakmozet.js";
import { SCENE, SLOTS, STEPS, MOST, MOST_TURNS, PIN, UNPIN, MOVE, CUT, TURN, pack, unpack } from "./scene.js";

// The slots that turns begin in, and one for the world to come back to from another.
const RING = SLOTS - 1, SPARE = RING;

const NOTHING = [];

export class Player {
    static async open(id, module) { return new Player(id, await World.open(module, SCENE, SLOTS)); }

    constructor(id, world, clock = () => performance.now()) {
        Object.assign(this, { id, world, clock });
        this.out = [];              // packets to send
        this.told = 0;              // when the last one was made
        this.inputs = [[], []];     // by player, then by turn
        this.alone = [];            // by turn: what is played here and told to nobody
        this.known = 0;             // turns of the other that are known without a gap
        this.theyKnow = 0;          // my turns that the other has
        this.tick = 0;              // steps played
        this.after = [];            // by turn: the digest after it, made when it can't change any more
        this.settled = 0;           // turns for which none is to be made any more
        this.theirs = [];           // digests that the other is sure of
        this.compared = 0;          // turns whose digests were compared or needn't be
        this.desync = null;
        this.again = 0;
        this.lastAgain = 0;
        this.waits = 0;
        this.refused = 0;
        this.busy = 0;
        this.played = 0;
        this.cuts = [];
        this.next = [];
        this.leads = [null, null];  // to show: what each leads
        this.whole = true;          // whether the inputs tell all of the world, from the scene's opening on
        world.save(0);              // turn 0 begins
    }

    get turn() { return Math.floor(this.tick / STEPS); }
    // Turns that can't change any more: both inputs are known, and they are played with them.
    get sure() { return Math.min(this.known, this.turn); }

    // The turns that this player has played with both inputs, as a link carries them.
    get session() {
        return this.inputs.map(list => Array.from({ length: this.sure }, (_, turn) => list[turn] ?? NOTHING));
    }

    // Begins at the end of a session that was: plays its turns, or goes over to a state that is given.
    follow(session, state) {
        const turns = session[0].length;
        this.inputs = session.map(list => [...list]);
        if (state) this.world.readState(state);
        for (; this.tick < turns * STEPS; this.tick++) if (!state) this.playStep(this.turn, this.tick % STEPS);
        this.world.save(turns % RING);
        this.known = this.theyKnow = this.compared = this.settled = turns;
    }

    // Lets a function go to another world, comes back to this one, and answers what it answered.
    elsewhere(ask) {
        this.world.save(SPARE);
        const answer = ask();
        this.world.restore(SPARE);
        return answer;
    }

    // The state and the digest after the last turn that can't change any more: those of the slot in which the next one begins.
    get sureWorld() {
        const slot = this.sure % RING, { world } = this;
        const state = this.elsewhere(() => {
            world.restore(slot);
            return world.state();
        });
        return { state, digest: world.digestOf(slot) };
    }

    // How many bytes stand before what can't be in a state of this scene, or nothing where it is one.
    wrongIn(state) { return this.elsewhere(() => this.world.readState(state)); }

    // Says what this player does, at this step of the turn, if it has room; cuts wait for room, and come at a turn's first step.
    want(kind, n, x = 0, y = 0, z = 0) {
        const step = (this.tick + STEPS - 1) % STEPS;   // a turn begins with what came right after the last one was sealed
        if (kind === CUT) {
            if (!this.cuts.includes(n)) this.cuts.push(n);
            return;
        }
        if (kind === MOVE) this.next = this.next.filter(it => !(it[0] === step && it[1] === MOVE && it[2] === n));
        if (kind === TURN) this.next = this.next.filter(it => it[1] !== TURN);
        if (this.next.length < MOST - 1) this.next.push([step, kind, n, x, y, z]);
    }

    seal(turn) {
        const input = this.next;
        while (this.cuts.length && input.length < MOST) input.push([0, CUT, this.cuts.shift(), 0, 0, 0]);
        this.next = [];
        this.note(this.id, input);
        return input;
    }

    // What of an input is worth showing.
    note(id, input) {
        for (const [, kind, n] of input) {
            if (kind === MOVE) this.leads[id] = { n, turn: this.turn };
            if (kind === UNPIN && this.leads[id]?.n === n) this.leads[id] = null;
        }
    }

    // One step on, or none while the other is too far behind to go back to.
    forward(now) {
        const turn = this.turn;
        if (this.tick % STEPS === 0) {
            if (turn - this.known >= RING - 1 || turn - this.theyKnow >= MOST_TURNS - 1) {
                this.waits++;
                return false;
            }
            this.inputs[this.id][turn] = this.seal(turn);
            this.alone[turn] = this.secret?.(turn) ?? NOTHING;
            this.tell(now);
        }
        this.spend(1 / STEPS, () => this.playStep(turn, this.tick++ % STEPS));
        this.settle();
        return true;
    }

    // Plays so many turns, and counts the time.
    spend(turns, play) {
        const start = this.clock();
        play();
        this.busy += this.clock() - start;
        this.played += turns;
    }

    playStep(turn, step) {
        for (const list of [this.inputs[0][turn] ?? NOTHING, this.inputs[1][turn] ?? NOTHING, this.alone[turn] ?? NOTHING]) {
            const now = list.filter(it => it[0] === step);
            for (const it of now) if (it[1] !== CUT) this.play(it);
            this.world.cutMany(now.filter(it => it[1] === CUT).map(it => it[2]));
        }
        this.world.step(1);
        if (step === STEPS - 1) this.world.save((turn + 1) % RING);
    }

    // Gives the turns that can't change any more their digests: what a turn came to is in the slot in which the next one begins.
    settle() {
        this.spend(0, () => {
            for (; this.settled < this.sure; this.settled++) this.after[this.settled] = this.world.digestOf((this.settled + 1) % RING);
        });
    }

    // A refusal is an answer like any other: the same in both worlds, and nothing is changed by it. (A player's cuts come last in a step.)
    play([, kind, n, x, y, z]) {
        const w = this.world;
        if (kind === PIN) return w.pin(n);
        if (kind === UNPIN) return w.unpin(n);
        if (kind === MOVE) return w.move(n, x, y, z);
        return w.gravity(x, y, z);
    }

    // Takes what has come; where a turn was played without commands that have come now, goes back to its slot and plays on.
    receive(now, packets) {
        const from = Math.min(Infinity, ...packets.map(bytes => this.take(bytes)));
        this.lastAgain = from < Infinity ? this.playAgain(from) : 0;
        this.settle();
        this.compare(now);
        if (!this.keep) this.forget();
        return this.lastAgain;
    }

    // Takes a packet, and answers the first turn that was played without commands that it has, or infinity.
    take(bytes) {
        const it = unpack(bytes);
        let from = Infinity;
        if (!it) {
            this.refused++;
            return from;
        }
        this.theyKnow = Math.max(this.theyKnow, Math.min(it.known, this.turn + 1));
        if (it.turn >= this.compared && it.turn < this.known + 64) this.theirs[it.turn] = it.digest;
        it.inputs.forEach((input, k) => {
            const turn = it.first + k;
            if (turn !== this.known) return;
            this.inputs[1 - this.id][turn] = input;
            this.known++;
            this.note(1 - this.id, input);
            if (turn * STEPS < this.tick && input.length) from = Math.min(from, turn);
        });
        return from;
    }

    // Goes back to where a turn begins, plays on to where it was, and answers how many turns that were.
    playAgain(from) {
        this.spend(this.tick / STEPS - from, () => {
            this.world.restore(from % RING);
            for (let tick = from * STEPS; tick < this.tick; tick++) this.playStep(Math.floor(tick / STEPS), tick % STEPS);
        });
        const turns = Math.ceil(this.tick / STEPS) - from;
        this.again += turns;
        return turns;
    }

    // Compares what the other told of turns with what they came to here.
    compare(now) {
        while (this.compared < this.sure) {
            // A packet tells the digest of one turn; what no packet told yet is skipped once a later one is told, which says as much.
            if (this.theirs[this.compared]) {
                const same = equal(this.theirs[this.compared], this.after[this.compared]);
                if (!same && !this.desync) this.desync = { turn: this.compared, seen: this.turn, now };
                this.last = { turn: this.compared, same };
            } else if (this.theirs.length <= this.compared) break;
            delete this.theirs[this.compared++];
        }
    }

    // What is older than both can ask for again.
    forget() {
        const old = Math.min(this.known, this.theyKnow, this.compared) - 2 * RING;
        for (const list of [this.alone, this.after]) if (old >= 0) delete list[old];
    }

    // Sent as a turn begins, and after 50 milliseconds without: all that the other may not have, so that the next mends a lost packet.
    tell(now) {
        const first = this.theyKnow, inputs = [], sure = this.sure - 1;
        for (let t = first; t < this.inputs[this.id].length; t++) inputs.push(this.inputs[this.id][t] ?? NOTHING);
        this.out.push(pack({ first, inputs, known: this.known, turn: sure, digest: this.after[sure] }));
        this.told = now;
    }
}
