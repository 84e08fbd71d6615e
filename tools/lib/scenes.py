"""The rules of scenes, as docs/FORMATS.md has them, looked at in its order: which is the first that a scene breaks, and where.

This is a second reading of the rules, beside the program's: tools/explain-check compares the two. The tables, their keys, and the
kinds and ranges of these are read from docs/scene.schema.json, which docs/check compares with the tables of docs/FORMATS.md; so a
table whose keys have no rule but these wants nothing here.
"""
import difflib
import json
import os

R = 2**29
SCHEMA = os.path.join(os.path.dirname(os.path.realpath(__file__)), "../../docs/scene.schema.json")
# the rules by their numbers
NAMES = {
    2: "UnknownKey", 3: "MissingKey", 4: "WrongType", 5: "OutOfRange", 6: "TooMany", 7: "BadIndex", 8: "SelfLink", 9: "DoubleLink",
    10: "TooManyAtParticle", 11: "BadTrack",
}  # fmt: skip
MOST_PARTICLES, MOST_AT_PARTICLE, MOST_KEYS, LAST_STEP = 65_536, 32, 1_024, 1_000_000
UNIT = "units of 1/65,536 metre"
STIFFNESS = "parts of 256 of the way to the rest length in a pass"
VELOCITY = f"{UNIT} a step"
# what the numbers of a key are in where it isn't UNIT
UNITS = {
    "gravity": f"{VELOCITY} and step",
    "passes": "passes over all constraints in a step",
    "damping": "parts of 1,024 of each velocity, lost in a step",
    "friction": "parts of 256 of a touching particle's velocity, lost in a step",
    "velocity": VELOCITY,
    "weight": "inverse mass",
    "rows": "particles",
    "columns": "particles",
    "count": "particles",
    "stretch": STIFFNESS,
    "shear": STIFFNESS,
    "bend": STIFFNESS,
    "stiffness": STIFFNESS,
    "normal": "a direction of any length",
    "offset": f"the normal's length times {UNIT}",
}


def word_of(number):
    """Returns a bound as a word where it is that many times R, as those of places, velocities and lengths are."""
    words = {R: "R", 2 * R: "2R", 4 * R: "4R"}
    return ("-" if number < 0 else "") + words[abs(number)] if abs(number) in words else number


def key_of(name, said, required):
    """Returns of a key its kind, least, greatest, whether it must be there, and the unit. A bound that is a word is that many times R."""
    kind = said["type"] if said["type"] != "array" else {3: "vector", None: "integers"}.get(said.get("minItems"), "rows")
    number = said["items"] if kind == "vector" else said
    bounds = number.get("minimum"), number.get("maximum")
    # (a number of a particle is bounded by how many there are)
    if None in bounds or bounds == (0, MOST_PARTICLES - 1):
        return kind, None, None, required, ""
    return kind, word_of(bounds[0]), word_of(bounds[1]), required, UNITS.get(name, UNIT)


def tables():
    """Returns how many entries each table may have, and its keys: both in the order in which they are looked at."""
    with open(SCHEMA, encoding="utf-8") as file:
        schema = json.load(file)
    most = {name: it["maxItems"] for name, it in schema["properties"].items() if "$ref" in it.get("items", {})}
    alone = {name: it for name, it in schema["properties"].items() if name not in most}
    parts = {"scene": {"properties": alone}} | {name: schema["$defs"][name] for name in most}
    keys = {
        table: {name: key_of(name, it, name in part.get("required", [])) for name, it in part["properties"].items()}
        for table, part in parts.items()
    }
    return most, keys


MOST, KEYS = tables()


class Fault(Exception):
    """The first rule that a scene breaks: its number, table, position and key as the program prints them, where, and in words."""

    def __init__(self, rule, table, position, key, at, words):
        super().__init__(words)
        self.rule, self.table, self.position, self.key, self.at, self.words = rule, table, position, key, at, words

    def line(self):
        return f"{self.rule} {NAMES[self.rule]} {self.table} {self.position} {self.key}"


def bound(word, limit):
    """Returns a bound of KEYS as a number."""
    if not isinstance(word, str):
        return word
    times = word.strip("-R")
    return (-1 if word.startswith("-") else 1) * int(times or 1) * limit


def integers(item):
    """Returns the integers of an array that has nothing else, or None."""
    if item.kind != "array" or any(it.kind != "integer" for it in item.value):
        return None
    return [it.value for it in item.value]


def value_of(item, kind):
    """Returns the value of a kind that an item is, or None."""
    if kind in ("integer", "boolean"):
        return item.value if item.kind == kind else None
    if kind == "vector":
        found = integers(item)
        return found if found and len(found) == 3 else None
    if kind == "integers":
        return integers(item)
    rows = [integers(it) for it in item.value] if item.kind == "array" else [None]
    return rows if all(it and len(it) == 4 for it in rows) else None


def numbered(many):
    """Returns how many of something there are, by their numbers, behind the word `there`."""
    return "are none" if not many else "is number 0 alone" if many == 1 else f"are the numbers 0 to {many - 1:,}"


KINDS = {
    "integer": "a whole number",
    "boolean": "true or false",
    "vector": "an array of three whole numbers",
    "integers": "an array of whole numbers",
    "rows": "an array of arrays of four whole numbers",
}


def described(item):
    """Returns what a value is, in words."""
    if item.kind == "array":
        kinds = sorted({it.kind for it in item.value})
        return f"an array of {len(item.value)}" + (f" of the kind {' and '.join(kinds)}" if kinds else "")
    article = "an" if item.kind[0] in "ai" else "a"
    return f"{article} {item.kind}" + (f", {item.value}" if item.kind in ("float", "boolean") else "")


class Scene:
    """Looks at the rules of a scene, in their order, and knows then how many particles and links it has."""

    def __init__(self, root, limit=R):
        self.root, self.limit = root, limit
        self.entries = {}
        self.particles = self.links = 0
        self.pairs, self.degree = set(), {}

    # ---- naming a fault

    def title(self, table, position):
        return "the scene" if table == "scene" else f"{table} {position}"

    def fault(self, rule, table, position, key, at, words):
        return Fault(rule, table, position, key, at, f"{self.title(table, position)}: {words}")

    def place(self, table, position, key="-"):
        """Returns where a key of an entry, or the entry, stands."""
        item = self.root if table == "scene" else self.entries[table][position]
        return item.value[key][0] if item.kind == "table" and key in item.value else item.at

    # ---- kinds and ranges

    def known(self, table, position, item):
        keys = [*KEYS[table], *(MOST if table == "scene" else [])]
        for name in sorted(item.value):
            if name not in keys:
                like = difflib.get_close_matches(name, keys, 1, 0.6)
                hint = f"; did you mean `{like[0]}`?" if like else f"; there are {', '.join(keys)}"
                raise self.fault(2, table, position, "-", item.value[name][0], f"there is no key `{name}`{hint}")

    def key(self, table, position, item, name):
        """Returns the value of a known key, or None where it isn't there."""
        kind, least, greatest, required, unit = KEYS[table][name]
        if name not in item.value:
            if required:
                raise self.fault(3, table, position, name, item.at, f"the key `{name}` is missing, which must be there: {KINDS[kind]}")
            return None
        at, given = item.value[name]
        value = value_of(given, kind)
        if value is None:
            raise self.fault(4, table, position, name, at, f"`{name}` is {described(given)}, and has to be {KINDS[kind]}")
        if least is not None:
            self.in_range(table, position, name, at, value, (bound(least, self.limit), bound(greatest, self.limit), unit))
        return value

    def in_range(self, table, position, name, at, value, ranged):
        least, greatest, unit = ranged
        axes = value if isinstance(value, list) else [value]
        for axis, number in zip("xyz" if len(axes) == 3 else [""], axes):
            if not least <= number <= greatest:
                what = f"the {axis} of `{name}`" if axis else f"`{name}`"
                raise self.fault(5, table, position, name, at, f"{what} is {number:,}, and has to be in {least:,}..={greatest:,} ({unit})")

    # ---- in the order of docs/FORMATS.md

    def check(self):
        self.known("scene", 0, self.root)
        scene = {name: self.key("scene", 0, self.root, name) for name in KEYS["scene"]}
        pins = scene["pins"] or []
        if len(pins) > MOST_PARTICLES:
            words = f"{len(pins):,} pins, and there may be {MOST_PARTICLES:,}"
            raise self.fault(6, "scene", 0, "pins", self.place("scene", 0, "pins"), words)
        values = {table: self.table(table) for table in MOST}
        for position, link in enumerate(values["link"]):
            self.link(position, link)
        for number in pins:
            self.particle(number, "scene", 0, "pins", "pins")
        tracked = set()
        for position, track in enumerate(values["track"]):
            self.particle(track["particle"], "track", position, "particle", "`particle`")
            if track["particle"] in tracked:
                at = self.place("track", position, "particle")
                raise self.fault(11, "track", position, "particle", at, f"an earlier track leads particle {track['particle']}")
            tracked.add(track["particle"])
        return self

    def table(self, table):
        """Returns the values of the keys of each entry of a table."""
        if table not in self.root.value:
            self.entries[table] = []
            return []
        at, item = self.root.value[table]
        if item.kind != "array":
            raise self.fault(4, table, 0, "-", at, f"`{table}` is no array of tables: write [[{table}]] before the keys of each")
        if len(item.value) > MOST[table]:
            raise self.fault(6, table, 0, "-", at, f"{len(item.value):,} entries, and there may be {MOST[table]:,}")
        self.entries[table] = item.value
        return [self.entry(table, position, it) for position, it in enumerate(item.value)]

    def entry(self, table, position, item):
        if item.kind != "table":
            raise self.fault(4, table, position, "-", item.at, f"it is {described(item)}, and has to be a table")
        self.known(table, position, item)
        value = {name: self.key(table, position, item, name) for name in KEYS[table]}
        # (the keys of a track are in the way of no other rule: `particle` is tested for its kind before)
        further = getattr(self, f"further_{table}", None)
        if further:
            further(position, item, value)
        return value

    def inside(self):
        return f"and each axis has to be in {-self.limit:,}..={self.limit:,} ({UNIT})"

    def outside(self, place):
        return any(not -self.limit <= axis <= self.limit for axis in place)

    def further_particle(self, position, item, value):
        before = [at - move for at, move in zip(value["at"], value["velocity"] or [0, 0, 0])]
        if self.outside(before):
            at = item.value["velocity"][0]
            raise self.fault(5, "particle", position, "velocity", at, f"`at` less `velocity` is {before}, {self.inside()}")
        self.particles += 1

    def further_cloth(self, position, item, value):
        rows, columns = value["rows"], value["columns"]
        corners = [(r, c) for r in (0, rows - 1) for c in (0, columns - 1)]
        self.row_of_particles("cloth", position, item, rows * columns, [
            [o + c * a + r * d for o, a, d in zip(value["origin"], value["across"], value["down"])] for r, c in corners
        ])  # fmt: skip
        self.join_cloth(self.particles - rows * columns, rows, columns)

    def further_rope(self, position, item, value):
        count = value["count"]
        ends = [[o + i * s for o, s in zip(value["origin"], value["spacing"])] for i in (0, count - 1)]
        self.row_of_particles("rope", position, item, count, ends)
        base = self.particles - count
        for far in (1, 2):
            for i in range(count - far):
                self.join(base + i, base + i + far)

    def row_of_particles(self, table, position, item, count, outermost):
        for place in outermost:
            if self.outside(place):
                raise self.fault(5, table, position, "-", item.at, f"it reaches to {place}, {self.inside()}")
        if self.particles + count > MOST_PARTICLES:
            words = f"with it there are {self.particles + count:,} particles, and there may be {MOST_PARTICLES:,}"
            raise self.fault(6, table, position, "-", item.at, words)
        self.particles += count

    def further_plane(self, position, item, value):
        if value["normal"] == [0, 0, 0]:
            raise self.fault(5, "plane", position, "normal", item.value["normal"][0], "`normal` is [0, 0, 0], which is no direction")

    def further_sphere(self, position, item, value):
        for sign in (1, -1):
            edge = [axis + sign * value["radius"] for axis in value["centre"]]
            if self.outside(edge):
                words = f"`centre` and `radius` reach to {edge}, {self.inside()}"
                raise self.fault(5, "sphere", position, "radius", item.value["radius"][0], words)

    def further_track(self, position, item, value):
        at, keys = item.value["keys"][0], value["keys"]
        if len(keys) > MOST_KEYS:
            raise self.fault(6, "track", position, "keys", at, f"{len(keys):,} `keys`, and there may be {MOST_KEYS:,}")
        for number, (step, *place) in enumerate(keys):
            if not 0 <= step <= LAST_STEP:
                words = f"the step of key {number} is {step:,}, and has to be in 0..={LAST_STEP:,}"
                raise self.fault(5, "track", position, "keys", at, words)
            if self.outside(place):
                raise self.fault(5, "track", position, "keys", at, f"the place of key {number} is {place}, {self.inside()}")
        if not keys:
            raise self.fault(11, "track", position, "keys", at, "`keys` is empty, and there has to be one")
        for number in range(1, len(keys)):
            if keys[number][0] <= keys[number - 1][0]:
                words = f"the step of key {number} is {keys[number][0]:,}, which isn't above {keys[number - 1][0]:,}, the step of the one before"
                raise self.fault(11, "track", position, "keys", at, words)

    # ---- links

    def join(self, a, b):
        self.pairs.add((min(a, b), max(a, b)))
        self.degree[a], self.degree[b] = self.degree.get(a, 0) + 1, self.degree.get(b, 0) + 1
        self.links += 1

    def join_cloth(self, base, rows, columns):
        for r in range(rows):
            for c in range(columns):
                for down, across in ((0, 1), (1, 0), (1, 1), (1, -1), (0, 2), (2, 0)):
                    if r + down < rows and 0 <= c + across < columns:
                        self.join(base + r * columns + c, base + (r + down) * columns + c + across)

    def particle(self, number, table, position, key, what):
        if not 0 <= number < self.particles:
            words = f"{what} names particle {number:,}, and there {numbered(self.particles)}"
            raise self.fault(7, table, position, key, self.place(table, position, key), words)

    def link(self, position, value):
        at, a, b = self.entries["link"][position].at, value["a"], value["b"]
        if self.links >= MOST["link"]:
            raise self.fault(6, "link", position, "-", at, f"with it there are more than {MOST['link']:,} links")
        self.particle(a, "link", position, "a", "`a`")
        self.particle(b, "link", position, "b", "`b`")
        if a == b:
            raise self.fault(8, "link", position, "-", at, f"it joins particle {a} to itself")
        if (min(a, b), max(a, b)) in self.pairs:
            words = f"particles {a} and {b} are joined already, by an earlier link or by a cloth or rope"
            raise self.fault(9, "link", position, "-", at, words)
        for name, end in (("a", a), ("b", b)):
            if self.degree.get(end, 0) >= MOST_AT_PARTICLE:
                words = f"it is the 33rd link at particle {end}, and there may be {MOST_AT_PARTICLE}"
                raise self.fault(10, "link", position, name, self.place("link", position, name), words)
        self.join(a, b)
