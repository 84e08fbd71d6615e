// Players that need no hands: what they do follows from a seed and the turn alone.
import { SIDE, STEPS, GRAVITY, PIN, UNPIN, MOVE, CUT, TURN, opened } from "./scene.js";
import { random } from "./network.js";

// A player for a seed: leads corners and particles along curves, and cuts rows, by turn alone: of the world it asks
// which links join what, and that never changes.
export function automatic(seed, id) {
    const r = random(seed * 2 + id + 1);
    let held = null, until = 0, centre, size, speed, age = 0;
    return player => {
        const turn = player.turn;
        if (player.tick % STEPS === 0 && turn >= until) {
            if (held !== null && held >= 2 && held !== SIDE - 1) player.want(UNPIN, held);
            if (turn < 12 || r.below(4) === 0) {
                held = null;
                until = turn + 8 + r.below(12);
            }
            else {
                held = r.below(2) ? id * (SIDE - 1) : SIDE * (8 + r.below(24)) + r.below(SIDE);
                const [x] = opened(held), corner = held === 0 || held === SIDE - 1;
                centre = corner ? [x, 138000, 4000] : [x * 0.8, 70000 + r.below(40000), 90000 + r.below(40000)];
                size = [18000 + r.below(20000), 8000 + r.below(14000), 10000 + r.below(16000)];
                speed = 0.02 + r.unit() * 0.03;
                age = 0;
                until = turn + 20 + r.below(30);
                player.want(PIN, held);
            }
            if (turn > 40 && r.below(3) === 0) {
                const row = 3 + r.below(26), column = r.below(24), wide = 2 + r.below(7);
                for (let c = column; c < column + wide && c < SIDE - 2; c++) {
                    const i = row * SIDE + c;
                    for (const [a, b] of [[i, i + SIDE], [i, i + SIDE + 1], [i + 1, i + SIDE], [i, i + 2 * SIDE], [i - SIDE, i + SIDE]]) {
                        const l = player.world.linkBetween(a, b);
                        if (l !== undefined) player.want(CUT, l);
                    }
                }
            }
            if (r.below(6) === 0) {
                const a = (r.unit() - 0.5) * 0.7;
                player.want(TURN, 0, Math.round(Math.sin(a) * GRAVITY), -Math.round(Math.cos(a) * GRAVITY), 0);
            }
        }
        if (held !== null) {
            age++;
            const soft = Math.min(1, age / 40), a = age * speed * 2, at = [Math.sin(a), Math.sin(a * 1.3), Math.sin(a * 0.7)];
            player.want(MOVE, held, ...at.map((s, k) => Math.round(centre[k] + soft * size[k] * s)));
        }
    };
}
