// One side of the page: a worker with a world, its picture, its figures, and the hands that reach into it.
import { $, colours, fail, game, tool } from "./game.js";
import { hex } from "./lakmozet.js";
import { SIDE, METRE, LIMIT, SPHERE, GRAVITY, PIN, UNPIN, MOVE, CUT, TURN } from "./scene.js";
import { View } from "./view.js";

export class Side {
    constructor(id, module) {
        this.id = id;
        this.module = module;
        this.canvas = $(`stage${id}`);
        this.stage = this.canvas.parentElement;
        this.view = new View(this.canvas);
        this.ring = this.stage.querySelector("circle");
        this.stroke = this.stage.querySelector("polyline");
        this.keys = new Set();
        this.cursor = null;
        this.wants = [];
        this.held = null;
        this.marks = [];
        this.hands();
    }

    // A new world, which begins where it is told, or at the scene's opening.
    async open(start) {
        this.worker?.terminate();
        this.worker = new Worker("worker.js", { type: "module" });
        this.last = Promise.resolve();      // what it was asked last
        this.asked = 0;                     // how much of that it hasn't answered
        this.state = null;
        this.wants = [];
        this.held = null;
        this.lonely = false;
        this.pace = null;
        this.tilt = "";
        this.digests = new Map();           // by turn, of the last turns that can't change any more
        this.digestOf = undefined;          // the turn whose digest is shown
        this.view.error.fill(0);
        this.view.liveCount = -1;
        $(`tilt${this.id}`).value = 0;
        this.worker.onmessage = ({ data }) => {
            this.asked--;
            if (data.error) fail(data.error);
            else this.done(data);
        };
        this.worker.onerror = event => fail(event.message);
        const { links } = await this.ask({ what: "open", id: this.id, module: this.module, seed: game.seed, keep: game.seed !== null, start });
        this.links = links;
        this.view.join(links);
        this.take(await this.ask({ what: "frame", now: game.clock, target: 0, packets: [], wants: [], limit: 0 }));
    }

    // Asks the worker, once it has answered what it was asked before.
    ask(message) {
        this.asked++;
        const answer = this.last.then(() => new Promise(done => {
            this.done = done;
            this.worker.postMessage(message);
        }));
        this.last = answer;
        return answer;
    }

    frame(now, target) {
        const { wants, lonely } = this, packets = game.network.arrived(this.id, now);
        const message = { what: "frame", now, target, packets, wants, lonely, limit: game.limit };
        this.wants = [];
        this.lonely = false;
        return this.ask(message);
    }

    take(it) {
        for (const bytes of it.out) game.network.send(this.id, bytes, game.clock);
        this.state = it;
        for (const [turn, digest] of it.digests) {
            this.digests.set(turn, digest);
            this.digests.delete(turn - 64);
        }
        this.live = it.live ?? this.live;
        this.view.torn(this.live, it.count);
        this.view.take(it.places, it.lastAgain > 0 && it.tick > 3);
        if (it.played) this.pace = this.pace === null ? it.busy / it.played : this.pace * 0.95 + 0.05 * it.busy / it.played;
        const tilt = it.gravity.join();
        if (tilt !== this.tilt) {
            this.tilt = tilt;
            const slider = $(`tilt${this.id}`), degrees = Math.atan2(it.gravity[0], -it.gravity[1]) * 180 / Math.PI;
            if (document.activeElement !== slider) slider.value = Math.round(degrees) || 0;
        }
        this.show(it);
    }

    show(it) {
        const put = (name, text) => {
            const e = $(name + this.id);
            if (e.textContent !== text) e.textContent = text;
        };
        put("turn", String(it.turn));
        put("again", String(it.again));
        put("ms", this.pace === null ? "–" : this.pace.toFixed(1));
        put("note", this.note(it));
    }

    // The digest of a turn that both know, or none as yet, and whether the other's is the same.
    showDigest(turn, digest, same) {
        if (this.digestOf === turn) return;
        this.digestOf = turn;
        const pill = $(`digest${this.id}`), digits = document.createElement("code");
        pill.className = "pill " + (digest ? same ? "good" : "bad" : "");
        pill.title = digest ? hex(digest) : "";
        digits.textContent = pill.title.slice(0, 16);
        pill.replaceChildren(digest ? same ? "✓ equal " : "✗ differ " : "waiting", digits);
        $(`which${this.id}`).textContent = digest ? `digest of turn ${turn}` : "digest";
    }

    // What stands in the corner of the picture: that it waits, that it went back, or what to do first.
    note(it) {
        const now = performance.now();
        if (it.waiting) return "waits for the other";
        if (it.lastAgain) {
            this.noted = { text: `went back ${it.lastAgain} turn${it.lastAgain > 1 ? "s" : ""}`, until: now + 400 };
        }
        if (this.noted?.until > now) return this.noted.text;
        if (game.paused) return "touch to go on";
        return game.touched ? "" : "drag a corner";
    }

    draw() {
        const it = this.state, dots = new Map(), hand = (i, id) => dots.set(i, { i, tint: id ? colours.gl.two : colours.gl.one, size: 17 });
        if (!it) return;
        it.held.forEach((isHeld, i) => {
            if (isHeld) dots.set(i, { i, tint: colours.gl.pin, size: 11 });
        });
        it.leads.forEach((lead, id) => {
            const mine = id === this.id && this.held !== null;
            if (lead && it.turn - lead.turn < 3 && !mine) hand(lead.n, id);
        });
        if (this.held !== null) hand(this.held, this.id);
        this.view.draw(colours.gl, [...dots.values()]);
    }

    // ---- hands

    nearest(x, y, reach = 46) {
        if (!this.state) return null;
        let best = null, least = Infinity;
        for (let i = 0; i < SIDE * SIDE; i++) {
            const [px, py, far] = this.view.onCanvas(i);
            const d = Math.hypot(px - x, py - y) - (this.state.held[i] ? 16 : 0);
            if (d < reach && d + far * 30 < least) {
                least = d + far * 30;
                best = { i, far };
            }
        }
        return best;
    }

    grab(x, y) {
        const it = this.nearest(x, y);
        if (!it) return false;
        this.held = it.i;
        this.stays = this.state.held[it.i];     // what was held before isn't freed by letting go
        this.far = it.far;
        this.aim = [x, y];
        this.at = [0, 1, 2].map(k => Math.round(this.view.places[it.i * 3 + k] * METRE));
        this.wants.push([PIN, it.i]);
        return true;
    }

    drop() {
        if (this.held !== null && !this.stays) this.wants.push([UNPIN, this.held]);
        this.held = null;
    }

    // Holds the nearest particle where it is, or frees it.
    pin(x, y) {
        const it = this.nearest(x, y);
        if (it) this.wants.push([this.state.held[it.i] ? UNPIN : PIN, it.i]);
    }

    // Leads the held particle to where the hand points: within reach, above the floor (except beneath the sphere),
    // out of the sphere, and not too fast.
    lead() {
        if (this.held === null) return;
        let to = this.view.inScene(...this.aim, this.far).map(v => Math.max(-LIMIT, Math.min(LIMIT, v * METRE)));
        to[1] = Math.max(1500, to[1]);
        const out = to.map((v, k) => v - SPHERE.at[k]), near = Math.hypot(...out), keep = SPHERE.radius + 1500;
        if (near < keep) to = out.map((v, k) => SPHERE.at[k] + v / (near || 1) * keep);
        const way = to.map((v, k) => v - this.at[k]), long = Math.hypot(...way), part = Math.min(1, 5000 / (long || 1));
        this.at = this.at.map((v, k) => Math.max(-LIMIT, Math.min(LIMIT, Math.round(v + way[k] * part))));
        this.wants.push([MOVE, this.held, ...this.at]);
    }

    // Cuts the live links that a stroke crosses on the picture.
    cut(x0, y0, x1, y1) {
        if (!this.state) return;
        const p = Array.from({ length: SIDE * SIDE }, (_, i) => this.view.onCanvas(i));
        const side = (ax, ay, bx, by, cx, cy) => (bx - ax) * (cy - ay) - (by - ay) * (cx - ax);
        this.links.forEach(([a, b], l) => {
            if (!this.live[l]) return;
            const [ax, ay] = p[a], [bx, by] = p[b];
            const parts = side(x0, y0, x1, y1, ax, ay) * side(x0, y0, x1, y1, bx, by) < 0;
            if (parts && side(ax, ay, bx, by, x0, y0) * side(ax, ay, bx, by, x1, y1) < 0) this.wants.push([CUT, l]);
        });
    }

    hands() {
        const at = event => {
            const box = this.canvas.getBoundingClientRect();
            return [event.clientX - box.left, event.clientY - box.top];
        };
        let last = null, cutting = false;
        this.canvas.addEventListener("pointerdown", event => {
            if (event.button > 2 || last) return;
            game.touched = true;
            game.paused = false;
            const [x, y] = at(event);
            if (tool() === "pin") return this.pin(x, y);
            cutting = tool() === "cut" || event.shiftKey || event.button === 2;
            if (!cutting && !this.grab(x, y)) return;
            this.canvas.setPointerCapture(event.pointerId);
            last = [x, y];
            this.cursor = null;
            if (cutting) this.marks = [[x, y]];
            this.stage.classList.toggle("dragging", !cutting);
        });
        this.canvas.addEventListener("pointermove", event => {
            if (!last) return;
            const [x, y] = at(event);
            if (cutting) {
                this.cut(...last, x, y);
                this.marks.push([x, y]);
            } else this.aim = [x, y];
            last = [x, y];
        });
        const up = () => {
            if (!last) return;
            last = null;
            this.stage.classList.remove("dragging");
            if (cutting) {
                cutting = false;
                setTimeout(() => {
                    this.marks = [];
                }, 250);
            } else this.drop();
        };
        this.canvas.addEventListener("pointerup", up);
        this.canvas.addEventListener("pointercancel", up);
        this.canvas.addEventListener("contextmenu", event => event.preventDefault());
        this.canvas.addEventListener("dblclick", event => {
            const it = tool() === "drag" && this.stays ? this.nearest(...at(event)) : null;
            if (it) this.wants.push([UNPIN, it.i]);
        });
        this.canvas.addEventListener("keydown", event => {
            const key = event.key;
            game.touched ||= key === " ";
            game.paused = false;
            if (key.startsWith("Arrow")) this.keys.add(key);
            else if (key === " " && !event.repeat) {
                if (this.held !== null) this.drop();
                else this.grab(...(this.cursor ??= this.middle()));
            }
            else if (key === "x" || key === "X") {
                const [x, y] = this.cursor ??= this.middle();
                this.cut(x - 22, y + 1.5, x + 22, y - 1.5);
                this.marks = [[x - 22, y], [x + 22, y]];
                setTimeout(() => {
                    this.marks = [];
                }, 250);
            }
            else if (key === "p" || key === "P") this.pin(...(this.cursor ??= this.middle()));
            else if (key === "," || key === ".") this.lean(Number($(`tilt${this.id}`).value) + (key === "," ? -5 : 5));
            else return;
            this.cursor ??= this.middle();
            event.preventDefault();
        });
        this.canvas.addEventListener("keyup", event => this.keys.delete(event.key));
        this.canvas.addEventListener("focus", () => {
            if (this.canvas.matches(":focus-visible")) this.cursor ??= this.middle();
        });
        this.canvas.addEventListener("blur", () => {
            this.keys.clear();
            this.cursor = null;
            if (!last) this.drop();
        });
        $(`tilt${this.id}`).addEventListener("input", event => this.lean(Number(event.target.value)));
    }

    middle() { return [this.view.wide / 2, this.view.tall * 0.42]; }

    lean(degrees) {
        const d = Math.max(-25, Math.min(25, degrees)), a = d * Math.PI / 180;
        $(`tilt${this.id}`).value = d;
        game.paused = false;
        this.wants.push([TURN, 0, Math.round(Math.sin(a) * GRAVITY), -Math.round(Math.cos(a) * GRAVITY), 0]);
    }

    keyboard() {
        if (this.cursor) {
            const fast = 3.2;
            for (const key of this.keys) {
                if (key === "ArrowLeft") this.cursor[0] -= fast;
                if (key === "ArrowRight") this.cursor[0] += fast;
                if (key === "ArrowUp") this.cursor[1] -= fast;
                if (key === "ArrowDown") this.cursor[1] += fast;
            }
            this.cursor = [this.view.wide, this.view.tall].map((most, k) => Math.max(4, Math.min(most - 4, this.cursor[k])));
            if (this.held !== null) this.aim = [...this.cursor];
            this.ring.setAttribute("cx", this.cursor[0]);
            this.ring.setAttribute("cy", this.cursor[1]);
        }
        this.ring.style.visibility = this.cursor ? "visible" : "hidden";
        const points = this.marks.map(m => m.map(v => v.toFixed(1)).join()).join(" ");
        if (points !== this.points) this.stroke.setAttribute("points", this.points = points);
    }
}
