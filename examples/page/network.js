// The made-up network between the two players, and the numbers that it draws.

// A small generator of numbers, so that a run with a seed is the same each time.
export function random(seed) {
    let s = seed >>> 0 || 1;
    const word = () => {
        s ^= s << 13;
        s ^= s >>> 17;
        s ^= s << 5;
        return (s >>>= 0);
    };
    for (let k = 0; k < 8; k++) word();
    return { word, below: n => word() % n, unit: () => word() / 4294967296 };
}

// The made-up network: packets come late, in any order, or not at all.
export class Network {
    constructor(seed) {
        this.random = random(seed);
        this.delay = 100;
        this.jitter = 20;
        this.loss = 5;
        this.flying = [];
        this.sent = 0;
        this.lost = 0;
        this.bytes = 0;
    }
    send(from, bytes, now) {
        const lost = this.random.unit() * 100 < this.loss, late = Math.max(0, this.delay + (this.random.unit() * 2 - 1) * this.jitter);
        this.flying.push({ from, bytes, sent: now, due: now + late, lost });
        this.sent++;
        this.bytes += bytes.length;
        if (lost) this.lost++;
    }
    arrived(to, now) {
        const here = this.flying.filter(it => it.from !== to && it.due <= now);
        if (here.length) this.flying = this.flying.filter(it => it.from === to || it.due > now);
        return here.filter(it => !it.lost).sort((a, b) => a.due - b.due).map(it => it.bytes);
    }
}
