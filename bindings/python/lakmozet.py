"""Lakmozet for Python, by ctypes: one module over the C library as a shared one.

    import lakmozet

    library = lakmozet.Library("built/liblakmozet.so")
    with library.open(toml, slots=8) as cloth:
        cloth.step()
        places = cloth.places()     # places[3, 1] is how high particle 3 is

Each method stands for a call of lakmozet.h, which says what it does, its units and its answers; one that reads a list or a state
asks before how long that may be. Those of a Cloth stand in that header's parts, in their order, and what is added there gets its line
in CALLS and its method. A refused command raises Refused, and the world is what it was. Lists of numbers are arrays of NumPy where
NumPy is there, and memoryviews where it isn't, over memory that the library wrote. A cloth also keeps the name of its scene, for
which opening asks, and hands it to the calls on states and digests. It is used by one call at a time, on any thread; a call lets
other threads of Python run meanwhile. Close it; where that is forgotten, its memory is given back with it.
"""
from __future__ import annotations

import ctypes
import enum
from ctypes import POINTER, c_char_p, c_int32, c_int64, c_size_t, c_uint8, c_uint16, c_uint32, c_uint64
from typing import Any, NamedTuple, Sequence

try:
    import numpy
except ImportError:
    numpy = None

# that of the header which this module follows; Library.version tells the library's
VERSION = (0, 1, 0)


class Answer(enum.IntEnum):
    """What a call on a cloth answers."""

    DONE = 0
    NO_PARTICLE = 2
    NO_LINK = 3
    LINK_GONE = 4
    OUT_OF_RANGE = 5
    NOT_HELD = 6
    HELD = 7
    TRACKED = 8
    BAD_COUNT = 9
    STEP_LIMIT = 10
    LEAVES_RANGE = 11
    TOO_MANY_CONTACTS = 12
    CLOSED = 64
    NO_SLOT = 66
    NO_ROOM = 67
    NO_STATE = 68


class Outcome(enum.IntEnum):
    """What opening, recording, replaying and cutting a mesh into triangles answer."""

    DONE = 0
    NO_LOG_ROOM = 35
    TOO_LONG = 36
    SCENE_NOT_TEXT = 38
    SCENE_NOT_TOML = 39
    SCENE_REFUSED = 40
    LOG_REFUSED = 41
    MISMATCH = 42
    SOME_REFUSED = 43
    OUT_OF_MEMORY = 44
    MESH_REFUSED = 46
    IN_USE = 65
    NO_SLOT = 66
    NO_ROOM = 67


Rule = enum.IntEnum("Rule", "UnknownKey MissingKey WrongType OutOfRange TooMany BadIndex SelfLink DoubleLink TooManyAtParticle BadTrack",
                    start=2)
Table = enum.IntEnum("Table", "scene particle cloth rope link plane sphere track", start=0)
# (of a rule that no key breaks it is `-`)
Key = enum.IntEnum("Key", "- gravity passes damping thickness friction pins at velocity weight held origin across down rows columns"
                   " stretch shear bend stretch_tear shear_tear bend_tear spacing count a b rest stiffness tear normal offset centre radius"
                   " particle keys", start=0)
MeshRule = enum.IntEnum("MeshRule", "OutOfRange BadFace BadCount BadSettings TooMany TooManyAtParticle")
Field = enum.IntEnum("Field", "answer step phase element steps live contacts x y z before-x before-y before-z")


class Place(NamedTuple):
    """A place or a vector, in units of 1/65,536 metre."""

    x: int
    y: int
    z: int


class Fault(NamedTuple):
    """The first rule that a scene breaks, and where."""

    position: int
    rule: Rule
    table: Table
    key: Key


class Mesh(NamedTuple):
    """Vertices, as places, and faces: each is three or more different vertices, by number from 0."""

    vertices: Sequence[Sequence[int]]
    faces: Sequence[Sequence[int]]


class MeshSettings(NamedTuple):
    """How a mesh is made cloth: tear lengths, the weight of vertices, and stiffness in 256ths; bend links only where there are bends."""

    stretch_tear: int = 0
    shear_tear: int = 0
    bend_tear: int = 0
    weight: int = 1
    stretch: int = 256
    shear: int = 256
    bend: int = 256
    bends: bool = False


class MeshFault(NamedTuple):
    """The first rule that a mesh or its settings break, and at which vertex or face, from 0."""

    number: int
    rule: MeshRule


class Left(NamedTuple):
    """Where a step was refused."""

    step: int
    element: int
    phase: int


class Sums(NamedTuple):
    """What two machines compare: equal worlds have equal sums."""

    steps: int
    live: int
    contacts: int
    at: Place
    before: Place


class Counts(NamedTuple):
    """How many of everything there are."""

    steps: int
    particles: int
    links: int
    live: int
    contacts: int
    slots: int


class Link(NamedTuple):
    """A link, live or not: its lengths are in units of 1/65,536 metre, and its stiffness in 256ths."""

    rest: int
    tear: int
    a: int
    b: int
    stiffness: int
    kind: int
    live: bool


class Ledger(NamedTuple):
    """The momentum, that at opening, and the totals of what moved it since, one for each cause."""

    momentum: Place
    opening: Place
    gravity: Place
    damping: Place
    link: Place
    contact: Place
    pin: Place
    shape: Place


class Stop(NamedTuple):
    """Where a replay stopped: the offset at which a log goes wrong, or the entry and the field that differ."""

    offset: int
    entry: int
    field: Field | None


class Refused(Exception):
    """A call on a cloth that answered something else than DONE: of a step `left` says where, of bytes that are no state `offset`."""

    def __init__(self, answer: Answer, left: Left | None = None, offset: int | None = None) -> None:
        details = [answer.name] + [str(it) for it in (left, offset) if it is not None]
        super().__init__(", ".join(details))
        self.answer, self.left, self.offset = answer, left, offset


class Failed(Exception):
    """A scene that wasn't opened, a run that wasn't made, or a mesh that wasn't cut into triangles.

    Where a scene or a mesh is refused as it is opened, or a mesh as it is cut, `detail` is its fault, where a text that is opened is
    no TOML the offset at which its reader stopped, and of a refused log its stop. With all others it is None.
    """

    def __init__(self, outcome: Outcome, detail: Fault | MeshFault | Stop | int | None = None) -> None:
        super().__init__(outcome.name if detail is None else f"{outcome.name}, {detail}")
        self.outcome = outcome
        self.detail = detail


# ---- the types and calls as C has them

class _Cloth(ctypes.Structure):
    _fields_ = [("at", ctypes.c_void_p), ("full", c_uint8)]


class _Place(ctypes.Structure):
    _fields_ = [("x", c_int64), ("y", c_int64), ("z", c_int64)]


class _Fault(ctypes.Structure):
    _fields_ = [("offset", c_uint64), ("position", c_uint32), ("rule", c_uint8), ("table", c_uint8), ("key", c_uint8)]


class _MeshSettings(ctypes.Structure):
    _fields_ = [(name, c_int64) for name in MeshSettings._fields[:3]] + [(name, c_uint16) for name in MeshSettings._fields[3:7]] + [
        ("bends", c_uint8)
    ]


class _MeshFault(ctypes.Structure):
    _fields_ = [("number", c_uint64), ("rule", c_uint8)]


class _Left(ctypes.Structure):
    _fields_ = [("step", c_uint64), ("element", c_uint32), ("phase", c_uint8)]


class _Sums(ctypes.Structure):
    _fields_ = [("steps", c_uint64), ("live", c_uint32), ("contacts", c_uint32), ("at", _Place), ("before", _Place)]


class _Counts(ctypes.Structure):
    _fields_ = [("steps", c_uint64)] + [(name, c_uint32) for name in Counts._fields[1:]]


class _Link(ctypes.Structure):
    _fields_ = [("rest", c_int64), ("tear", c_int64), ("a", c_uint32), ("b", c_uint32), ("stiffness", c_uint16),
                ("kind", c_uint8), ("live", c_uint8)]


class _Version(ctypes.Structure):
    _fields_ = [("major", c_uint32), ("minor", c_uint32), ("patch", c_uint32)]


class _Hash(ctypes.Structure):
    _fields_ = [("bytes", c_uint8 * 32)]


class _Wide(ctypes.Structure):
    _fields_ = [("low", c_uint64), ("high", c_int64)]


class _Ledger(ctypes.Structure):
    _fields_ = [(name, _Wide * 3) for name in Ledger._fields]


class _Stop(ctypes.Structure):
    _fields_ = [("offset", c_uint64), ("entry", c_uint64), ("field", c_uint8)]


_HANDLE, _COUNT = POINTER(_Cloth), POINTER(c_uint32)
_LIST = [c_size_t, _COUNT]
_MESH = [POINTER(c_int64), c_size_t, POINTER(c_uint32), c_size_t, POINTER(c_uint32), c_size_t]
CALLS = {
    "lak_version": [POINTER(_Version)],
    "lak_open": [_HANDLE, c_char_p, c_size_t, c_uint32, POINTER(_Fault)],
    "lak_open_mesh": [_HANDLE, c_char_p, c_size_t, *_MESH, _MeshSettings, c_uint32, POINTER(_Fault), POINTER(_MeshFault)],
    "lak_close": [_HANDLE],
    "lak_step": [_HANDLE, c_uint64, POINTER(_Left)],
    "lak_pin": [_HANDLE, c_uint64],
    "lak_unpin": [_HANDLE, c_uint64],
    "lak_move": [_HANDLE, c_uint64, _Place],
    "lak_cut": [_HANDLE, c_uint64],
    "lak_cut_many": [_HANDLE, POINTER(c_uint32), c_size_t, POINTER(c_size_t)],
    "lak_gravity": [_HANDLE, _Place],
    "lak_save": [_HANDLE, c_uint32],
    "lak_restore": [_HANDLE, c_uint32],
    "lak_counts": [_HANDLE, POINTER(_Counts)],
    "lak_sums": [_HANDLE, POINTER(_Sums)],
    "lak_contacts": [_HANDLE, POINTER(c_uint64)],
    "lak_gravity_now": [_HANDLE, POINTER(_Place)],
    "lak_ledger": [_HANDLE, POINTER(_Ledger)],
    "lak_link_between": [_HANDLE, c_uint32, c_uint32, POINTER(c_uint32)],
    "lak_places": [_HANDLE, POINTER(c_int64), *_LIST],
    "lak_places_before": [_HANDLE, POINTER(c_int64), *_LIST],
    "lak_held": [_HANDLE, POINTER(c_uint8), *_LIST],
    "lak_links": [_HANDLE, POINTER(_Link), *_LIST],
    "lak_live": [_HANDLE, POINTER(c_uint8), *_LIST],
    "lak_gone_since": [_HANDLE, c_uint32, POINTER(c_uint32), *_LIST],
    "lak_scene_name": [_HANDLE, POINTER(_Hash)],
    "lak_state_size": [_HANDLE, POINTER(c_size_t)],
    "lak_state_write": [_HANDLE, _Hash, POINTER(c_uint8), c_size_t, POINTER(c_size_t)],
    "lak_state_read": [_HANDLE, _Hash, c_char_p, c_size_t, POINTER(c_uint64)],
    "lak_digest": [_HANDLE, _Hash, POINTER(_Hash)],
    "lak_digest_slot": [_HANDLE, c_uint32, _Hash, POINTER(_Hash)],
    "lak_checksum": [_HANDLE, POINTER(c_uint64)],
    "lak_checksum_slot": [_HANDLE, c_uint32, POINTER(c_uint64)],
    "lak_mesh_triangles": [*_MESH, POINTER(c_uint32), c_size_t, POINTER(c_size_t), POINTER(_MeshFault)],
    "lak_record": [c_char_p, c_size_t, c_char_p, c_size_t, POINTER(c_uint8), c_size_t, POINTER(c_size_t)],
    "lak_replay": [c_char_p, c_size_t, POINTER(c_uint8), c_size_t, POINTER(c_size_t), POINTER(_Stop)],
}


def _tuple(kind: Any, it: ctypes.Structure) -> Any:
    """Returns what a structure has as a named tuple of the same fields, places in it too."""
    fields = (getattr(it, name) for name in kind._fields)
    return kind(*(_tuple(Place, field) if isinstance(field, _Place) else field for field in fields))


def _fault(outcome: Outcome, it: _Fault) -> Fault | int | None:
    if outcome == Outcome.SCENE_NOT_TOML:
        return it.offset
    return Fault(it.position, Rule(it.rule), Table(it.table), Key(it.key)) if outcome == Outcome.SCENE_REFUSED else None


def _mesh_fault(outcome: Outcome, it: _MeshFault) -> MeshFault | None:
    return MeshFault(it.number, MeshRule(it.rule)) if outcome == Outcome.MESH_REFUSED else None


def _numbers(kind: Any, numbers: Sequence[int]) -> Any:
    """Returns memory that has these numbers."""
    # (no call wants a null pointer, which an array of nothing would be)
    return (kind * max(len(numbers), 1))(*map(int, numbers))


def _in_memory(mesh: Mesh) -> tuple[Any, ...]:
    """Returns a mesh as C takes it: its vertices, the sizes of its faces, and all corners, each with its count."""
    axes = [axis for place in mesh.vertices for axis in place]
    sizes = [len(face) for face in mesh.faces]
    corners = [corner for face in mesh.faces for corner in face]
    return (_numbers(c_int64, axes), len(mesh.vertices), _numbers(c_uint32, sizes), len(sizes),
            _numbers(c_uint32, corners), len(corners))


def _array(kind: Any, length: int, columns: int = 1) -> tuple[Any, Any]:
    """Returns memory for a list, and a view of it with that many columns: an array of NumPy, or a memoryview."""
    # (no call wants a null pointer, which an array of nothing would be)
    memory = (kind * max(length * columns, 1))()
    shape = [length, columns] if columns > 1 else [length]
    if numpy is not None:
        return memory, numpy.ctypeslib.as_array(memory)[: length * columns].reshape(shape)
    form = {c_int64: "q", c_uint32: "I", c_uint8: "B"}[kind]
    whole = memoryview(memory).cast("B")[: length * columns * ctypes.sizeof(kind)]
    return memory, whole.cast(form, shape) if length else whole.cast(form)


# ---- what it is used by

class Cloth:
    """A world and its slots, or nothing once it is closed: see Library.open."""

    def __init__(self, calls: ctypes.CDLL) -> None:
        self._calls = calls
        self._handle = _Cloth()
        self._name = _Hash()

    def __enter__(self) -> Cloth:
        return self

    def __exit__(self, *_: object) -> None:
        self.close()

    def _call(self, name: str, *rest: Any) -> None:
        answer = getattr(self._calls, name)(self._handle, *rest)
        if answer != Answer.DONE:
            raise Refused(Answer(answer))

    def _list(self, name: str, kind: Any, length: int, columns: int = 1, *first: Any) -> Any:
        """Reads a list with room for so many, and returns what there is of it."""
        count = c_uint32()
        memory, view = _array(kind, length, columns)
        self._call(name, *first, memory, length, count)
        return view[: count.value]

    # ---- opening and closing

    def close(self) -> None:
        self._calls.lak_close(self._handle)

    __del__ = close

    # ---- commands

    def step(self, n: int = 1) -> None:
        left = _Left()
        answer = self._calls.lak_step(self._handle, n, left)
        if answer != Answer.DONE:
            raise Refused(Answer(answer), _tuple(Left, left))

    def pin(self, particle: int) -> None:
        self._call("lak_pin", particle)

    def unpin(self, particle: int) -> None:
        self._call("lak_unpin", particle)

    def move(self, particle: int, to: tuple[int, int, int]) -> None:
        self._call("lak_move", particle, _Place(*to))

    def cut(self, link: int) -> None:
        self._call("lak_cut", link)

    def cut_many(self, links: Sequence[int]) -> int:
        """Lets links go, one after another, and returns how many of these cuts were refused."""
        refused = c_size_t()
        self._call("lak_cut_many", _numbers(c_uint32, links), len(links), refused)
        return refused.value

    def gravity(self, gravity: tuple[int, int, int]) -> None:
        self._call("lak_gravity", _Place(*gravity))

    # ---- slots

    def save(self, slot: int) -> None:
        self._call("lak_save", slot)

    def restore(self, slot: int) -> None:
        self._call("lak_restore", slot)

    # ---- reading

    def counts(self) -> Counts:
        counts = _Counts()
        self._call("lak_counts", counts)
        return _tuple(Counts, counts)

    def sums(self) -> Sums:
        sums = _Sums()
        self._call("lak_sums", sums)
        return _tuple(Sums, sums)

    def contacts(self) -> int:
        """How many contacts the last step found."""
        contacts = c_uint64()
        self._call("lak_contacts", contacts)
        return contacts.value

    def gravity_now(self) -> Place:
        gravity = _Place()
        self._call("lak_gravity_now", gravity)
        return _tuple(Place, gravity)

    def ledger(self) -> Ledger:
        ledger = _Ledger()
        self._call("lak_ledger", ledger)
        return Ledger(*(Place(*((axis.high << 64) + axis.low for axis in getattr(ledger, name))) for name in Ledger._fields))

    def link_between(self, a: int, b: int) -> int | None:
        """The number of the link that joins two particles, in either order, live or not, or None."""
        link = c_uint32()
        answer = self._calls.lak_link_between(self._handle, a, b, link)
        if answer not in (Answer.DONE, Answer.NO_LINK):
            raise Refused(Answer(answer))
        return link.value if answer == Answer.DONE else None

    def places(self) -> Any:
        """The places of all particles: a row of three 64-bit numbers for each."""
        return self._list("lak_places", c_int64, self.counts().particles, 3)

    def places_before(self) -> Any:
        """Their places one step before, as friction and commands left them, in the same form."""
        return self._list("lak_places_before", c_int64, self.counts().particles, 3)

    def held(self) -> Any:
        """A 1 for each held particle and a 0 for each other."""
        return self._list("lak_held", c_uint8, self.counts().particles)

    def links(self) -> list[Link]:
        """All links, in the order of their numbers. Which are live, `live` tells faster."""
        length, count = self.counts().links, c_uint32()
        memory = (_Link * max(length, 1))()
        self._call("lak_links", memory, length, count)
        links = (_tuple(Link, it) for it in memory[: count.value])
        return [it._replace(live=it.live == 1) for it in links]

    def live(self) -> Any:
        """A 1 for each live link and a 0 for each other."""
        return self._list("lak_live", c_uint8, self.counts().links)

    def gone_since(self, slot: int) -> Any:
        """The numbers of the links that are live in a slot's world and are so no longer."""
        return self._list("lak_gone_since", c_uint32, self.counts().links, 1, slot)

    # ---- the world as bytes

    def scene_name(self) -> bytes:
        """The name of the scene, which states carry."""
        return bytes(self._name.bytes)

    def state_size(self) -> int:
        """How many bytes a state of the scene has."""
        size = c_size_t()
        self._call("lak_state_size", size)
        return size.value

    def state_write(self) -> bytes:
        """The state of the world: for a saved game, or for a machine that joins."""
        size = c_size_t(self.state_size())
        state = (c_uint8 * size.value)()
        self._call("lak_state_write", self._name, state, size.value, size)
        return bytes(state)

    def state_read(self, state: bytes) -> None:
        """Goes over to the world whose state the bytes are. Others raise Refused, with the offset at which they go wrong."""
        offset = c_uint64()
        answer = Answer(self._calls.lak_state_read(self._handle, self._name, state, len(state), offset))
        if answer != Answer.DONE:
            raise Refused(answer, offset=offset.value if answer == Answer.NO_STATE else None)

    def digest(self) -> bytes:
        """The SHA-256 digest of the state, 32 bytes."""
        digest = _Hash()
        self._call("lak_digest", self._name, digest)
        return bytes(digest.bytes)

    def digest_slot(self, slot: int) -> bytes:
        """That of the world in a slot."""
        digest = _Hash()
        self._call("lak_digest_slot", slot, self._name, digest)
        return bytes(digest.bytes)

    def checksum(self) -> int:
        """The checksum of the world, for each turn."""
        checksum = c_uint64()
        self._call("lak_checksum", checksum)
        return checksum.value

    def checksum_slot(self, slot: int) -> int:
        """That of the world in a slot."""
        checksum = c_uint64()
        self._call("lak_checksum_slot", slot, checksum)
        return checksum.value


def cloth_triangles(first: int, rows: int, columns: int) -> list[tuple[int, int, int]]:
    """The triangles of a cloth of the scene whose first particle has that number: two for each cell, turned alike."""
    found = []
    for row in range(rows - 1):
        for here in range(first + row * columns, first + (row + 1) * columns - 1):
            below = here + columns
            found += [(here, below, here + 1), (here + 1, below, below + 1)]
    return found


class Library:
    """The C library as a shared one."""

    def __init__(self, path: str) -> None:
        self._calls = ctypes.CDLL(path)
        for name, types in CALLS.items():
            call = getattr(self._calls, name)
            call.argtypes = types
            call.restype = None if name in ("lak_close", "lak_version") else c_int32

    def version(self) -> tuple[int, int, int]:
        """The version of the library. Lock step demands that all machines have one version."""
        version = _Version()
        self._calls.lak_version(version)
        return version.major, version.minor, version.patch

    def open(self, toml: bytes, slots: int = 0) -> Cloth:
        """Opens the scene of a TOML text, with so many slots, or raises Failed."""
        cloth, fault = Cloth(self._calls), _Fault()
        outcome = Outcome(self._calls.lak_open(cloth._handle, toml, len(toml), slots, fault))
        if outcome != Outcome.DONE:
            raise Failed(outcome, _fault(outcome, fault))
        cloth._call("lak_scene_name", cloth._name)
        return cloth

    def open_mesh(self, toml: bytes, mesh: Mesh, settings: MeshSettings = MeshSettings(), slots: int = 0) -> Cloth:
        """The same with a mesh behind the scene."""
        cloth, fault, mesh_fault = Cloth(self._calls), _Fault(), _MeshFault()
        outcome = Outcome(self._calls.lak_open_mesh(
            cloth._handle, toml, len(toml), *_in_memory(mesh), _MeshSettings(*settings), slots, fault, mesh_fault))
        if outcome != Outcome.DONE:
            raise Failed(outcome, _mesh_fault(outcome, mesh_fault) or _fault(outcome, fault))
        cloth._call("lak_scene_name", cloth._name)
        return cloth

    def mesh_triangles(self, mesh: Mesh) -> Any:
        """The triangles of a mesh: a row of three vertices, by number from 0, for each. Raises Failed."""
        # (a face of n corners is n - 2 triangles)
        room = max(sum(len(face) - 2 for face in mesh.faces), 0)
        memory, view = _array(c_uint32, room, 3)
        count, fault = c_size_t(), _MeshFault()
        outcome = Outcome(self._calls.lak_mesh_triangles(*_in_memory(mesh), memory, room, count, fault))
        if outcome != Outcome.DONE:
            raise Failed(outcome, _mesh_fault(outcome, fault))
        return view

    def record(self, scene: bytes, script: bytes) -> bytes:
        """Runs a script on a scene, and returns the log of the session, or raises Failed."""
        # (a log has 29 bytes beside its scene and its entries, and an entry at most 98)
        room = 29 + len(scene) + 98 * (script.count(b"\n") + 1)
        log, written = (c_uint8 * room)(), c_size_t()
        outcome = Outcome(self._calls.lak_record(scene, len(scene), script, len(script), log, room, written))
        if outcome not in (Outcome.DONE, Outcome.SOME_REFUSED):
            raise Failed(outcome)
        return bytes(log)[: written.value]

    def replay(self, log: bytes, room: int = 1 << 24) -> tuple[bytes, Stop | None]:
        """Replays a log, and returns the text and where an entry differs, if one does, or raises Failed."""
        text, written, stop = (c_uint8 * max(room, 1))(), c_size_t(), _Stop()
        outcome = Outcome(self._calls.lak_replay(log, len(log), text, room, written, stop))
        if outcome not in (Outcome.DONE, Outcome.SOME_REFUSED, Outcome.MISMATCH):
            raise Failed(outcome, Stop(stop.offset, 0, None) if outcome == Outcome.LOG_REFUSED else None)
        differs = Stop(0, stop.entry, Field(stop.field)) if outcome == Outcome.MISMATCH else None
        return ctypes.string_at(text, written.value), differs
