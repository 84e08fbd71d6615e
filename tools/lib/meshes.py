"""Reads meshes of Wavefront OBJ and joins them with links, as docs/FORMATS.md says that the form `obj` does."""
import re

NAMES = {1: "BadNumber", 2: "BadFace", 3: "OutOfRange", 4: "TooMany", 5: "TooManyAtParticle"}
METRE, FARTHEST = 65_536, 2**29
MOST_PARTICLES, MOST_LINKS, MOST_AT_PARTICLE = 65_536, 524_288, 32
DECIMAL = re.compile(rb"([+-]?)(?=\.?[0-9])([0-9]*)(?:\.([0-9]*))?(?:[eE]([+-]?[0-9]{1,2}))?")
CORNER = re.compile(rb"(-?)([0-9]{1,9})")


class BadMesh(Exception):
    """A fault: its number, what the program's line names (a line, a vertex, or 0), and what it is in words."""

    def __init__(self, number, named, words):
        super().__init__(words)
        self.number, self.named, self.words = number, named, words

    def line(self):
        return f"{self.number} {NAMES[self.number]} at {self.named}"


def lines_of(text):
    """Returns the lines of a text, a carriage return at the end of each left out."""
    return [it[:-1] if it.endswith(b"\r") else it for it in text.split(b"\n")]


def words_of(line):
    return [it for it in re.split(rb"[ \t]", line) if it]


def shown(word):
    return word[:40].decode("utf-8", "replace")


def units(word):
    """Returns how many units a decimal of metres is, halves rounded away from zero, or None where it is no decimal."""
    found = DECIMAL.fullmatch(word)
    digits = found and found[2] + (found[3] or b"")
    if not digits or len(digits) > 24:
        return None
    power = int(found[4] or 0) - len(found[3] or b"")
    size = int(digits) * METRE
    rounded = size * 10**power if power >= 0 else (2 * size + 10**-power) // (2 * 10**-power)
    return -rounded if found[1] == b"-" else rounded


def vertex(number, words):
    """Returns the place of a vertex in units."""
    if len(words) < 3:
        raise BadMesh(1, number, f"a vertex has three numbers, and here are {len(words)}")
    place = [units(word) for word in words[:3]]
    for axis, word, value in zip("xyz", words, place):
        if value is None:
            raise BadMesh(1, number, f"the {axis} of the vertex, `{shown(word)}`, is no decimal of at most 24 digits")
    for axis, word, value in zip("xyz", words, place):
        if abs(value) > FARTHEST:
            raise BadMesh(3, number, f"the {axis} of the vertex, {shown(word)} metres, is more than 8,192 metres from the middle")
    return tuple(place)


def corner(number, word, count):
    """Returns the vertex, from 0, that a word of a face names, where so many stand before it."""
    found = CORNER.fullmatch(word.split(b"/")[0])
    if not found or not int(found[2]):
        raise BadMesh(2, number, f"`{shown(word)}` in the face is no number of a vertex, which begin at 1; a comment behind a face is a word of it")
    named = count - int(found[2]) if found[1] else int(found[2]) - 1
    if not 0 <= named < count:
        raise BadMesh(2, number, f"the face names vertex {shown(word)}, and {count} stand before it")
    return named


def face(number, words, count):
    corners = [corner(number, word, count) for word in words]
    if len(corners) < 3:
        raise BadMesh(2, number, f"a face has three corners or more, and here are {len(corners)}")
    for i, one in enumerate(corners):
        if one in corners[:i]:
            raise BadMesh(2, number, f"the face has vertex {one + 1} twice")
    return corners


def read(text):
    """Returns the places of the vertices, in units, and the corners of the faces, from 0; or raises BadMesh."""
    places, faces = [], []
    for number, line in enumerate(lines_of(text), 1):
        kind, *words = words_of(line) or [b""]
        if kind == b"v":
            places.append(vertex(number, words))
        elif kind == b"f":
            faces.append(face(number, words, len(places)))
    return places, faces


# ---- links


def sides(corners):
    """Returns each corner of a face with the next, and the last with the first."""
    return list(zip(corners, corners[1:] + corners[:1]))


def diagonals(corners):
    return [(corners[0], corners[2]), (corners[1], corners[3])] if len(corners) == 4 else []


def facing(faces):
    """Returns the pairs that face each other across an edge: of two faces that share it, each corner that stands beside one end
    of the edge in the one face with the corner beside the same end in the other. Faces of three corners have one such corner, so
    that two of them give one pair, and faces of four give two. An edge that three faces or more share, or one, gives none."""
    shared = {}
    for corners in faces:
        for i, (a, b) in enumerate(sides(corners)):
            # (beside a stands the corner before it, and beside b the one behind it)
            beside = {a: corners[i - 1], b: corners[(i + 2) % len(corners)]}
            shared.setdefault((min(a, b), max(a, b)), []).append(beside)
    pairs = []
    for ends, beside in shared.items():
        if len(beside) == 2:
            pairs += [(beside[0][end], beside[1][end]) for end in ends]
    return pairs


def each_once(lists):
    """Returns the pairs of lists, in order, without those of one vertex and those that an earlier one joins."""
    seen, kept = set(), []
    for kind, pairs in lists:
        for a, b in pairs:
            if a != b and (min(a, b), max(a, b)) not in seen:
                seen.add((min(a, b), max(a, b)))
                kept.append((kind, a, b))
    return kept


def links(faces, with_bend=False):
    """Returns the links of faces, each with its kind and ends, stretch before shear before bend, as docs/FORMATS.md has them."""
    lists = [("stretch", [it for corners in faces for it in sides(corners)]), ("shear", [it for corners in faces for it in diagonals(corners)])]
    return each_once(lists + ([("bend", facing(faces))] if with_bend else []))


def fit(places, found, particles=0, before=0):
    """Looks whether particles and links fit, behind those of a scene; or raises BadMesh."""
    if particles + len(places) > MOST_PARTICLES or before + len(found) > MOST_LINKS:
        many = f"{particles + len(places):,} particles and {before + len(found):,} links"
        raise BadMesh(4, 0, f"with the scene's there are {many}, and there may be {MOST_PARTICLES:,} and {MOST_LINKS:,}")
    degree = [0] * len(places)
    for _, a, b in found:
        for end in (a, b):
            if degree[end] >= MOST_AT_PARTICLE:
                raise BadMesh(5, end + 1, f"vertex {end + 1} has more than {MOST_AT_PARTICLE} links")
        degree[a], degree[b] = degree[a] + 1, degree[b] + 1
