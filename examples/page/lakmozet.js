// The library lakmozet.wasm as a small class: one instance, one world. See include/lakmozet.h for what each call promises.
const PLACES = 24, SUMS = 64, LINK = 32;

export const DONE = 0;
// How many bytes a digest has.
export const HASH = 32;

export class World {
    // Each world has an instance, and so a memory, of its own.
    static async open(module, toml, slots) {
        const { exports } = await WebAssembly.instantiate(module, {});
        return new World(exports, toml, slots);
    }

    constructor(lak, toml, slots) {
        this.lak = lak;
        const text = new TextEncoder().encode(toml);
        this.handle = this.take(16);            // a handle is all zeros at first, and lak_take gives zeros
        this.left = this.take(24);
        this.place = this.take(PLACES);
        this.sumsAt = this.take(SUMS);
        this.countsAt = this.take(32);
        this.count = this.take(8);
        this.nameAt = this.take(HASH);
        this.hashAt = this.take(HASH);
        const scene = this.take(text.length), fault = this.take(16);
        new Uint8Array(lak.memory.buffer, scene, text.length).set(text);
        const status = lak.lak_open(this.handle, scene, text.length, slots, fault);
        if (status !== DONE) throw new Error(`lak_open answers ${status}`);
        lak.lak_scene_name(this.handle, this.nameAt);
        lak.lak_give(scene, text.length);
        lak.lak_give(fault, 16);
        lak.lak_counts(this.handle, this.countsAt);
        const counts = new DataView(lak.memory.buffer, this.countsAt, 32);
        this.particles = counts.getUint32(8, true);
        this.links = this.readLinks(counts.getUint32(12, true));
        lak.lak_state_size(this.handle, this.count);
        this.stateSize = new DataView(lak.memory.buffer).getUint32(this.count, true);
        this.makeRoom();
    }

    take(size) { return this.lak.lak_take(size) >>> 0; }

    // Takes the rest of the memory for what is read and written. No call on an open handle takes memory, so the memory can't grow
    // from here on, and its views stay good.
    makeRoom() {
        const { particles, stateSize } = this, links = this.links.length;
        this.placesAt = this.take(PLACES * particles);
        this.heldAt = this.take(particles);
        this.liveAt = this.take(links);
        this.cutsAt = this.take(4 * links);
        this.stateAt = this.take(stateSize + 1);    // (with a byte too many is no state)
        const memory = this.lak.memory.buffer;
        this.toWrite = new BigInt64Array(memory, this.place, 3);
        this.low = new Int32Array(memory, this.placesAt, particles * 6);
        this.heldBytes = new Uint8Array(memory, this.heldAt, particles);
        this.liveBytes = new Uint8Array(memory, this.liveAt, links);
        this.toCut = new Uint32Array(memory, this.cutsAt, links);
        this.counted = new Uint32Array(memory, this.count, 2);
        this.sumBytes = new Uint8Array(memory, this.sumsAt, SUMS);
        this.hashBytes = new Uint8Array(memory, this.hashAt, HASH);
        this.stateBytes = new Uint8Array(memory, this.stateAt, stateSize + 1);
    }

    // All links in the order of their numbers: the numbers of both ends, and what it is, 0 stretch, 1 shear, 2 bend, 3 the scene's own.
    readLinks(many) {
        const { lak } = this, at = this.take(LINK * many);
        lak.lak_links(this.handle, at, many, this.count);
        const view = new DataView(lak.memory.buffer, at, LINK * many), links = [];
        for (let l = 0; l < LINK * many; l += LINK) links.push([view.getUint32(l + 16, true), view.getUint32(l + 20, true), view.getUint8(l + 26)]);
        lak.lak_give(at, LINK * many);
        return links;
    }
    // The number of the link that joins two particles, or nothing.
    linkBetween(a, b) {
        return this.lak.lak_link_between(this.handle, a, b, this.count) === DONE ? this.counted[0] : undefined;
    }

    step(n) { return this.lak.lak_step(this.handle, BigInt(n), this.left); }
    pin(i) { return this.lak.lak_pin(this.handle, BigInt(i)); }
    unpin(i) { return this.lak.lak_unpin(this.handle, BigInt(i)); }
    // Lets links go, no more than there are, and answers how many of these cuts were refused.
    cutMany(links) {
        this.toCut.set(links);
        this.lak.lak_cut_many(this.handle, this.cutsAt, links.length, this.count);
        return this.counted[0];
    }
    // A struct that is passed by value goes by its address.
    move(i, x, y, z) {
        this.vector(x, y, z);
        return this.lak.lak_move(this.handle, BigInt(i), this.place);
    }
    gravity(x, y, z) {
        this.vector(x, y, z);
        return this.lak.lak_gravity(this.handle, this.place);
    }
    vector(x, y, z) {
        this.toWrite[0] = BigInt(x);
        this.toWrite[1] = BigInt(y);
        this.toWrite[2] = BigInt(z);
    }

    save(slot) { return this.lak.lak_save(this.handle, slot); }
    restore(slot) { return this.lak.lak_restore(this.handle, slot); }

    // The places as 32-bit words: x of particle i is word 6i, y 6i + 2, z 6i + 4. They are within 2^29, so the low words tell all.
    places() {
        this.lak.lak_places(this.handle, this.placesAt, this.particles, this.count);
        return this.low;
    }
    // A 1 for each held particle, and a 0 for each other.
    held() {
        this.lak.lak_held(this.handle, this.heldAt, this.particles, this.count);
        return this.heldBytes;
    }
    live() {
        this.lak.lak_live(this.handle, this.liveAt, this.links.length, this.count);
        return this.liveBytes;
    }
    liveCount() {
        this.lak.lak_sums(this.handle, this.sumsAt);
        return new DataView(this.lak.memory.buffer).getUint32(this.sumsAt + 8, true);
    }
    gravityNow() {
        this.lak.lak_gravity_now(this.handle, this.place);
        return [...this.toWrite].map(Number);
    }
    // The 64 bytes of sums, as a copy.
    sums() {
        this.lak.lak_sums(this.handle, this.sumsAt);
        return this.sumBytes.slice();
    }

    // The 32 bytes that two machines compare, as a copy: the SHA-256 of the state of the world in a slot.
    digestOf(slot) {
        this.lak.lak_digest_slot(this.handle, slot, this.nameAt, this.hashAt);
        return this.hashBytes.slice();
    }
    // All of the world that commands change, as a copy.
    state() {
        this.lak.lak_state_write(this.handle, this.nameAt, this.stateAt, this.stateSize, this.count);
        return this.stateBytes.slice(0, this.stateSize);
    }
    // Goes over to the world that a state tells, and answers nothing; or answers how many bytes stand before what can't be.
    readState(bytes) {
        const length = Math.min(bytes.length, this.stateBytes.length);
        this.stateBytes.set(bytes.subarray(0, length));
        const answer = this.lak.lak_state_read(this.handle, this.nameAt, this.stateAt, length, this.count);
        return answer === DONE ? undefined : this.counted[0];
    }
    close() { this.lak.lak_close(this.handle); }
}

export const equal = (a, b) => a.length === b.length && a.every((byte, at) => byte === b[at]);

// The digits of bytes.
export const hex = bytes => Array.from(bytes, byte => byte.toString(16).padStart(2, "0")).join("");

// Sums as words: steps, live links, contacts, three sums of places, three of places before.
export function spell(sums) {
    const view = new DataView(sums.buffer, sums.byteOffset, SUMS);
    const words = [view.getBigUint64(0, true), view.getUint32(8, true), view.getUint32(12, true)];
    for (let at = 16; at < SUMS; at += 8) words.push(view.getBigInt64(at, true));
    return words.join(" ");
}
