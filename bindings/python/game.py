#!/usr/bin/env python3
"""The short game of all bindings (../README.md says what happens in it), from Python: game.py LIBRARY < ../../examples/embed/drop.txt"""
from __future__ import annotations

import hashlib
import sys
from typing import Callable, NamedTuple

import lakmozet

SLOTS, DROPPED, NOW = 10, 8, 9  # a slot for each of the last eight turns, one for the world after the drop, and one to go on from
TURNS, LATE, JOINS = 40, 5, 20
HANDS = (0, 19)
ROW, WIDE = 20, 3  # how many particles a row of the cloth has, and how many threads a stroke cuts
GRAVITY = (0, -120, 0)


class Input(NamedTuple):
    """What a player does in a turn: moves its hand, and now and then cuts a stroke, the threads below WIDE neighbours in a row."""

    to: tuple[int, int, int]
    cuts: bool
    first: int


def must(is_so: bool, what: str) -> None:
    """Ends the game where something isn't as it must be."""
    if not is_so:
        sys.exit(f"not so: {what}")


def drawn_inputs() -> list[list[Input]]:
    state = 12345

    def draw(below: int) -> int:
        nonlocal state
        state ^= state << 13 & 0xFFFFFFFF
        state ^= state >> 17
        state ^= state << 5 & 0xFFFFFFFF
        return state % below

    return [[Input((124526 * player - 72263 + draw(20001), 1000 * turn + 56000 + draw(8001), -62263), draw(8) == 0, draw(378))
             for player in range(len(HANDS))] for turn in range(TURNS)]


def frame(cloth: lakmozet.Cloth) -> str:
    """A frame as the program prints it."""
    counts = cloth.counts()
    places = "".join(f"{x} {y} {z}\n" for x, y, z in cloth.places().tolist())
    return f"frame {counts.steps} {counts.particles} {counts.live} {counts.contacts}\n{places}"


def drop(library: lakmozet.Library, scene: bytes) -> tuple[lakmozet.Cloth, str]:
    """Lets the cloth fall on the ball, and returns it with what the program prints of that."""
    cloth, printed = library.open(scene, SLOTS), ""
    for _ in range(3):
        cloth.step(30)
        printed += "ok\n" + frame(cloth)
    cloth.save(DROPPED)
    return cloth, printed


def refuse(outcome: lakmozet.Outcome, detail: lakmozet.Fault | lakmozet.MeshFault | int, call: Callable[..., object],
           *given: object) -> None:
    """Sees that a scene or a mesh is refused, and where."""
    try:
        call(*given)
        must(False, "it is refused")
    except lakmozet.Failed as failed:
        must(failed.outcome == outcome and failed.detail == detail, "what is wrong with a scene or a mesh")


def look_at_meshes(library: lakmozet.Library) -> None:
    """Sees that a mesh in memory is cloth, with its links and its triangles, and that one with a bad face is refused."""
    square = lakmozet.Mesh(((0, 0, 0), (6554, 0, 0), (6554, 6554, 0), (0, 6554, 0), (3277, 9831, 0)), ((0, 1, 2, 3), (3, 2, 4)))
    with library.open_mesh(b"thickness = 7000\n", square, lakmozet.MeshSettings(bend=40, bends=True)) as cloth:
        must(cloth.places().tolist() == [list(place) for place in square.vertices], "the vertices are particles")
        kinds = [it.kind for it in cloth.links()]
        must(kinds == [0, 0, 0, 0, 0, 0, 1, 1, 2, 2] and cloth.links()[-1].stiffness == 40, "the links of a mesh")
        cloth.step()
        must(cloth.contacts() == cloth.counts().contacts, "the contacts are counted")
    must(library.mesh_triangles(square).tolist() == [[0, 1, 2], [0, 2, 3], [3, 2, 4]], "the triangles of a mesh")
    must(lakmozet.cloth_triangles(4, 2, 3) == [(4, 7, 5), (5, 7, 8), (5, 8, 6), (6, 8, 9)], "the triangles of a cloth")
    folded, fault = square._replace(faces=((0, 1, 2), (0, 1, 0))), lakmozet.MeshFault(1, lakmozet.MeshRule.BadFace)
    refuse(lakmozet.Outcome.MESH_REFUSED, fault, library.open_mesh, b"", folded)
    refuse(lakmozet.Outcome.MESH_REFUSED, fault, library.mesh_triangles, folded)
    heavy = lakmozet.MeshFault(0, lakmozet.MeshRule.BadSettings)
    refuse(lakmozet.Outcome.MESH_REFUSED, heavy, library.open_mesh, b"", square, lakmozet.MeshSettings(weight=0))


class Machine:
    """One player's machine: its world, and what it knows of each player's turns."""

    def __init__(self, cloth: lakmozet.Cloth, inputs: list[list[Input]]) -> None:
        self.cloth, self.inputs = cloth, inputs
        self.known, self.played = [0] * len(HANDS), 0

    def begin(self) -> None:
        for hand in HANDS:
            self.cloth.pin(hand)
        self.cloth.gravity(GRAVITY)

    def state_before(self, turn: int) -> bytes:
        """The state of the world before a turn, for a machine that joins."""
        kept = self.cloth.digest_slot(turn % DROPPED), self.cloth.checksum_slot(turn % DROPPED)
        self.cloth.save(NOW)
        self.cloth.restore(turn % DROPPED)
        must(kept == (self.cloth.digest(), self.cloth.checksum()), "what a slot has is what is restored")
        state = self.cloth.state_write()
        self.cloth.restore(NOW)
        return state

    def join(self, state: bytes, turn: int) -> None:
        """Reads a state: bytes that are none are refused, and change nothing."""
        before = self.cloth.digest()
        must(self.refused_at(state[:-1]) == len(state) - 1, "a state is whole")
        must(self.refused_at(state[:8] + bytes([state[8] ^ 1]) + state[9:]) == 8, "a state of another scene is refused")
        must(self.cloth.digest() == before, "what is refused changes nothing")
        self.cloth.state_read(state)
        self.known, self.played = [turn] * len(HANDS), turn

    def refused_at(self, state: bytes) -> int | None:
        try:
            self.cloth.state_read(state)
        except lakmozet.Refused as refused:
            return refused.offset
        return None

    def learn(self, player: int) -> None:
        """Learns a player's next turn: where that was played without it, goes back, and plays on from there."""
        turn = self.known[player]
        self.known[player] += 1
        if turn < self.played:
            self.cloth.restore(turn % DROPPED)
            for again in range(turn, self.played):
                self.play(again)

    def play_next(self) -> None:
        self.play(self.played)
        self.played += 1

    def play(self, turn: int) -> None:
        """Saves the world before a turn, and plays what is known of it: the first player's input first."""
        self.cloth.save(turn % DROPPED)
        for player, it in enumerate(self.inputs[turn]):
            if turn >= self.known[player]:
                continue
            self.cloth.move(HANDS[player], it.to)
            if it.cuts:
                self.cut_stroke(it.first)
        self.cloth.step(3)

    def cut_stroke(self, first: int) -> None:
        """Cuts the threads from a row to the next. One that is gone is refused, on all machines alike."""
        self.cloth.cut_many([self.cloth.link_between(i, i + ROW) for i in range(first, first + WIDE)])

    def let_go(self) -> None:
        for hand in HANDS:
            self.cloth.unpin(hand)
        self.cloth.step()


def play_joined(machine: Machine, now: int) -> None:
    """A turn of a machine that joined: it learns what both players did LATE turns ago."""
    for player in range(len(HANDS)):
        machine.learn(player)
    if now < TURNS:
        machine.play_next()


def play_late(machines: list[Machine], late: Machine) -> None:
    """Plays all turns: each machine knows its own player's at once, and the other's some turns later. One joins them on the way."""
    for now in range(TURNS + LATE):
        for player, machine in enumerate(machines):
            if now >= LATE:
                machine.learn(1 - player)
            if now < TURNS:
                machine.learn(player)
                machine.play_next()
        if now > JOINS:
            play_joined(late, now)
        if now == JOINS:
            late.join(machines[0].state_before(now - LATE + 1), now - LATE + 1)
            while late.played <= now:
                late.play_next()


def play_on_time(machine: Machine) -> None:
    for _ in range(TURNS):
        for player in range(len(HANDS)):
            machine.learn(player)
        machine.play_next()


def look_at_parts(cloth: lakmozet.Cloth) -> None:
    """Sees that the links agree with the count of live ones, that nothing is held, and that gravity is what it was set to."""
    links = cloth.links()
    must(sum(it.live for it in links) == cloth.counts().live, "the live links are counted")
    must(cloth.link_between(links[-1].b, links[-1].a) == len(links) - 1, "a link is found by its ends")
    must(cloth.link_between(0, 0) is None, "no link joins a particle with itself")
    must(sum(cloth.held().tolist()) == 0, "the corners are let go")
    must(cloth.gravity_now() == GRAVITY, "gravity is what it was set to")


def look_at_ledger(cloth: lakmozet.Cloth) -> None:
    """Sees that the momentum is that at opening and the six totals together."""
    momentum, *causes = cloth.ledger()
    must(tuple(map(sum, zip(*causes))) == momentum, "the ledger balances")


def totals(cloth: lakmozet.Cloth) -> str:
    """The sums and the digest as two lines, after the lists were seen to agree with the sums."""
    sums = cloth.sums()
    must(sum(cloth.live().tolist()) == sums.live, "the live links are counted")
    must(len(cloth.gone_since(DROPPED)) == cloth.counts().links - sums.live, "those that went are the others")
    for places, total in ((cloth.places(), sums.at), (cloth.places_before(), sums.before)):
        must([sum(axis) for axis in zip(*places.tolist())] == list(total), "the places have their sums")
    look_at_parts(cloth)
    look_at_ledger(cloth)
    must(hashlib.sha256(cloth.state_write()).digest() == cloth.digest(), "the digest is the SHA-256 of the state")
    return f"sums {sums.steps} {sums.live} {sums.contacts} {' '.join(map(str, sums.at + sums.before))}\ndigest {cloth.digest().hex()}"


def main() -> None:
    library = lakmozet.Library(sys.argv[1])
    must(library.version() == lakmozet.VERSION, "the library has the version of the header")
    scene, script = sys.stdin.buffer.read().split(b"%%\n", 1)
    # the drop
    cloth, printed = drop(library, scene)
    print(printed, end="")
    # the same as a replay of its log
    must(library.replay(library.record(scene, script)) == (printed.encode(), None), "the replay prints the drop")
    refuse(lakmozet.Outcome.SCENE_NOT_TOML, 11, library.open, b"passes = 4\n= 5\n")
    fault = lakmozet.Fault(0, lakmozet.Rule.WrongType, lakmozet.Table.particle, lakmozet.Key.at)
    refuse(lakmozet.Outcome.SCENE_REFUSED, fault, library.open, b"[[particle]]\nat = 5\n")
    look_at_meshes(library)
    # rollback: two players, a machine that joins them, and one that knows all in time
    inputs = drawn_inputs()
    players = [Machine(cloth, inputs), Machine(drop(library, scene)[0], inputs)]
    late, on_time = Machine(library.open(scene, SLOTS), inputs), Machine(drop(library, scene)[0], inputs)
    for machine in (*players, on_time):
        machine.begin()
    play_late(players, late)
    play_on_time(on_time)
    machines = [*players, late, on_time]
    for machine in machines:
        machine.let_go()
    lines = {totals(machine.cloth) for machine in machines}
    must(len(lines) == 1, "the sums and the digests are equal")
    print(*lines)
    for machine in machines:
        machine.cloth.close()


if __name__ == "__main__":
    main()
