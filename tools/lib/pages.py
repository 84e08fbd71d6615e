"""What can be looked at in the documents without a run: links, names in code font, and numbers that stand in several of them.

Each function returns lines that say what is wrong; none where all is well.
"""
import functools
import os
import re
import subprocess

TOP = os.path.dirname(os.path.dirname(os.path.dirname(os.path.realpath(__file__))))
# the folders of a crate
OF_CRATES = ("src", "specs", "proofs", "must-fail", "more-edits")
FENCED = re.compile(r"^```.*?^```$", re.M | re.S)
SPAN = re.compile(r"`([^`\n]+)`")
LINK = re.compile(r"\[([^\]]*)\]\(([^)\s]+)\)")
WORD = re.compile(r"[A-Za-z_][A-Za-z0-9_]*")
PATH = re.compile(r"^(?:\.\./)*[\w.-]+(?:/[\w.-]+)+$")
NUMBER = re.compile(r"(?<![\w/,.])\d{1,3}(?:,\d{3})+(?![\w,])")
# names of other software, and what a user chooses or a tool makes
ELSEWHERE = set(
    """
    admitted analyze annotate android Assets callgrind_annotate CMAKE_PREFIX_PATH darwin DllImport dll emscripten FixedUpdate godot
    ios msvc niw perf plant Plugins PublicAdditionalLibraries PublicIncludePaths read_fd simd Stdin Stdout taplo ThirdParty tidy Update wine __Internal
    """.split()
)


@functools.cache
def documents():
    """Returns the paths of the documents, the README first."""
    found = [f"{TOP}/README.md", f"{TOP}/CONTRIBUTING.md", f"{TOP}/CHANGELOG.md"]
    for folder in ("docs", "examples", "examples/page", "bindings"):
        found += [f"{TOP}/{folder}/{name}" for name in sorted(os.listdir(f"{TOP}/{folder}")) if name.endswith(".md")]
    return found


@functools.cache
def text_of(path):
    with open(path, encoding="utf-8", errors="replace") as it:
        return it.read()


def title_of(path):
    return os.path.relpath(path, TOP)


def prose_of(path):
    """Returns a document with its fenced blocks as empty lines."""
    return FENCED.sub(lambda it: "\n" * it.group().count("\n"), text_of(path))


def line_of(text, at):
    return text.count("\n", 0, at) + 1


@functools.cache
def sources():
    """Returns the paths of all files that git keeps, or that lie here where there is no git, but documents and pictures."""
    ran = subprocess.run(["git", "-C", TOP, "ls-files"], stdout=subprocess.PIPE, stderr=subprocess.DEVNULL, text=True)
    names = ran.stdout.splitlines()
    if not names:
        walk = [(where, files) for where, _, files in os.walk(TOP) if "/out" not in where and "/.git" not in where]
        names = [os.path.relpath(f"{where}/{name}", TOP) for where, files in walk for name in files]
    return [it for it in names if not it.endswith((".md", ".png", ".webp")) and os.path.isfile(f"{TOP}/{it}")]


@functools.cache
def words_within(folder):
    """Returns the words of all sources within a folder, and of their names."""
    found = set()
    for name in sources():
        if name.startswith(folder) and name not in ("docs/check", "tools/lib/pages.py"):
            found.update(WORD.findall(name), WORD.findall(text_of(f"{TOP}/{name}")))
    return found


# ---- links


@functools.cache
def anchors_of(path):
    """Returns the anchors of a document's headings."""
    headings = re.findall(r"^#+ (.+)$", prose_of(path), re.M)
    return {re.sub(r"[^\w -]", "", re.sub(r"\[([^\]]*)\]\([^)]*\)", r"\1", it)).strip().lower().replace(" ", "-") for it in headings}


def link_leads(path, target):
    """Returns whether a link of a document leads somewhere in the repository."""
    name, _, anchor = target.partition("#")
    to = os.path.normpath(os.path.join(os.path.dirname(path), name)) if name else path
    return os.path.exists(to) and (not anchor or to.endswith(".md") and anchor in anchors_of(to))


def wrong_links():
    """Links that lead nowhere, and those named by a file to which they don't lead. Those into the net aren't followed."""
    for path in documents():
        text = prose_of(path)
        for found in LINK.finditer(text):
            name, target = found.groups()
            place = f"{title_of(path)}:{line_of(text, found.start())}"
            if not target.startswith("https://") and not link_leads(path, target):
                yield f"{place}: the link {target} leads nowhere"
            if re.fullmatch(r"[\w./-]+\.[a-z]+", name) and os.path.basename(name) != os.path.basename(target.partition("#")[0]):
                yield f"{place}: the link {name} leads to {target}"


# ---- names


def stands(path, name):
    """Returns whether a path of a document stands in the repository: from its top, from the document, or within a crate."""
    within = [TOP, os.path.dirname(path), f"{TOP}/crates"]
    if name.split("/")[0] in OF_CRATES:
        within += [f"{TOP}/crates/{it}" for it in os.listdir(f"{TOP}/crates")]
    return any(os.path.exists(f"{folder}/{name}{suffix}") for folder in within for suffix in ("", ".antt", ".rt"))


def is_own_path(name):
    """Returns whether a span is a path of this repository: it begins with one of its folders, or with one of a crate's."""
    first = name.split("/")[0]
    folders = (f"{TOP}/{first}", f"{TOP}/crates/{first}")
    is_path = PATH.match(name) and not re.search(r"\b(?:[A-Z]+|out|target)\b", name)
    return is_path and (first in OF_CRATES or any(os.path.isdir(it) for it in folders))


def is_name(word):
    """Returns whether a word has to stand in the sources: it isn't short, and no placeholder in capitals."""
    return len(word) > 2 and (not word.isupper() or "_" in word) and not word.endswith("_") and word not in ELSEWHERE


def wrong_names():
    """Names in code font that no source has, and paths that aren't there."""
    known = words_within("")
    for path in documents():
        text = prose_of(path)
        for found in SPAN.finditer(text):
            place, span = f"{title_of(path)}:{line_of(text, found.start())}", found.group(1)
            first = span.split()[0]
            if is_own_path(first) and not stands(path, first):
                yield f"{place}: there is no {first}"
            for word in WORD.findall(span):
                if is_name(word) and word not in known:
                    yield f"{place}: no source has `{word}`"


def crates_in(text):
    return [it for it in re.findall(r"`(pbd_\w+|lakmozet_c)`", text) if os.path.isdir(f"{TOP}/crates/{it}")]


def wrong_rows():
    """Rows of PROMISES that begin with crates, whose names these crates don't have; and clauses that their calls don't have."""
    path = f"{TOP}/docs/PROMISES.md"
    text, calls = prose_of(path), "".join(text_of(f"{TOP}/{it}") for it in sources() if re.match(r"crates/\w+/src/", it))
    for number, line in enumerate(text.splitlines(), 1):
        cells = line.split("|")
        crates = crates_in(cells[1]) if len(cells) > 2 else []
        for word in WORD.findall(" ".join(SPAN.findall("|".join(cells[2:])))) if crates else []:
            if is_name(word) and not any(word in words_within(f"crates/{it}/") for it in crates) and not crates_in(f"`{word}`"):
                yield f"{title_of(path)}:{number}: {', '.join(crates)} has no `{word}`"
        for call, clause in re.findall(r"`(?:\w+::)?(\w+)`, clause `(\w+)`", line):
            bodies = re.findall(rf"\bfn {call}\b(.*?)(?=\bfn \w|\Z)", calls, re.S)
            if not any(re.search(rf"\bensures {clause} ", it) for it in bodies):
                yield f"{title_of(path)}:{number}: no call `{call}` has the clause `{clause}`"
        for law in re.findall(r"laws? ((?:`\w+`(?:, )?)+)", line):
            for name in SPAN.findall(law):
                if f"pub fn {name}()" not in calls:
                    yield f"{title_of(path)}:{number}: there is no law `{name}`"


def wrong_tests():
    """Tests and tables of ROWS that aren't in the file of the crate that is named there, or before the table."""
    path = f"{TOP}/docs/ROWS.md"
    above = ""
    for number, line in enumerate(prose_of(path).splitlines(), 1):
        if not line.startswith("|"):
            above = (crates_in(line) or [above])[0]
            continue
        crate, file = above, ""
        for span in SPAN.findall(line.split("|")[2]):
            found = re.fullmatch(r"(?:(\w+\.rt): )?(\w+)", span)
            if not found or crates_in(f"`{span}`"):
                crate = span if found else crate
                continue
            file = found.group(1) or file
            inner = f"{TOP}/crates/{crate}/src/tests/{file}"
            source = inner if os.path.isfile(inner) else f"{TOP}/crates/{crate}/src/{file}"
            if not os.path.isfile(source) or not re.search(rf"\b(?:fn|static|const) {found.group(2)}\b", text_of(source)):
                yield f"{title_of(path)}:{number}: {crate}/src/{file} has no `{found.group(2)}`"


def wrong_modules():
    """Modules of `specs/` that ARCHITECTURE doesn't name, and crates that stand there on others than crates.txt says."""
    path = f"{TOP}/docs/ARCHITECTURE.md"
    lines = text_of(path).splitlines()
    for name in sources():
        found = re.fullmatch(r"crates/(\w+)/specs/(\w+)\.antt", name)
        if found and found.group(2) != "Lib":
            crate, module = found.groups()
            parts = [part for line in lines for part in re.split(r"; (?=`)", line) if f"`{crate}/specs/" in part]
            if not any(f"`{module}`" in part or f"`{crate}/specs/{module}`" in part for part in parts):
                yield f"{title_of(path)}: no row names {crate}/specs/{module}"
    below = dict(re.findall(r"^(\w+)(?: staticlib)?:(.*)$", text_of(f"{TOP}/crates.txt"), re.M))
    for crate, listed in below.items():
        wanted = ", ".join(it.removeprefix("pbd_") for it in listed.split() if it.startswith("pbd_"))
        rows = [line for line in lines if re.match(rf"\| [^|`]*\| `{crate}` \|", line)]
        if len(rows) != 1 or rows[0].split("|")[-2].strip() != wanted:
            yield f"{title_of(path)}: {crate} stands on {wanted or 'nothing'}, as crates.txt says, and not so here"


# ---- numbers

# what stands in several places, each with the pattern that finds it there
SAID = {
    "the version": [
        ("tools/package/Cargo.toml", r'^version = "(.*)"'), ("tools/package/lakmozet-c/Cargo.toml", r'version = "(.*?)", default'),
        ("include/lakmozet.h", r'LAK_VERSION "(.*)"'), ("CHANGELOG.md", r"^## (\d.*)"),
    ],
    "the time of the first proof": [
        ("README.md", r"it took (\d+) minutes on four processors"), ("docs/GATE.md", r"seconds of the clock, (\d+) minutes"),
    ],
    "the most particles": [
        ("docs/FORMATS.md", r"entries: `particle` ([\d,]*\d)"), ("docs/SOLVER.md", r"^\| particles; links; links at one particle \| ([\d,]+);"),
        ("include/lakmozet.h", r"uint32_t particles; /\* at most ([\d,]+)"),
    ],
    "the most links": [
        ("docs/FORMATS.md", r"`link` ([\d,]*\d)"), ("docs/SOLVER.md", r"^\| particles; links; links at one particle \| [\d,]+; ([\d,]+);"),
        ("include/lakmozet.h", r"live ones and others, at most ([\d,]+)"),
    ],
    "the most links at a particle": [
        ("docs/FORMATS.md", r"at most (\d+) are at a particle"), ("docs/SOLVER.md", r"^\| particles; links; links at one particle .*; (\d+) \|$"),
    ],
    "the most contacts": [
        ("docs/SOLVER.md", r"^\| contacts of a step; passes \| ([\d,]+);"), ("docs/SCENES.md", r"more than ([\d,]+) pairs"),
        ("include/lakmozet.h", r"more than ([\d,]+) contacts"),
    ],
    "the most steps of a command": [
        ("docs/SOLVER.md", r"^\| steps of one command; step count \| ([\d,]+);"), ("docs/EMBEDDING.md", r"takes 1 to ([\d,]+) steps"),
        ("include/lakmozet.h", r"no steps, or more than ([\d,]+)"),
    ],
    "the most steps": [
        ("docs/SOLVER.md", r"^\| steps of one command; step count \| [\d,]+; ([\d,]+)"), ("docs/DECISIONS.md", r"step count may reach ([\d,]+);"),
        ("include/lakmozet.h", r"come past step ([\d,]+)"),
    ],
    "the most slots": [("docs/EMBEDDING.md", r"with up to (\d+) slots"), ("docs/GLOSSARY.md", r"up to (\d+) slots"), ("CHANGELOG.md", r"up to (\d+) slots")],
    "gravity at 60 steps a second": [
        ("README.md", r"gravity = \[0, -(\d+), 0\]"), ("docs/SCENES.md", r"^\| 60 \| (\d+) \|"), ("docs/FORMATS.md", r"gravity = \[0, -(\d+), 0\]"),
        ("include/lakmozet.h", r"9\.81 m/s2 is (\d+)"),
    ],
    "units of a metre": [
        ("README.md", r"whole numbers of 1/([\d,]+) metre"), ("docs/SCENES.md", r"^([\d,]+) units are a metre"),
        ("docs/EMBEDDING.md", r"units of 1/([\d,]+) metre"), ("docs/SOLVER.md", r"units of 1/([\d,]+) metre"),
        ("docs/FORMATS.md", r"A metre is ([\d,]+) units"), ("docs/GLOSSARY.md", r"numbers of 1/([\d,]+) metre"),
        ("include/lakmozet.h", r"units of 1/([\d,]+) metre"),
    ],
    "the limit of places": [("docs/FORMATS.md", r"2\^29 = ([\d,]*\d)"), ("include/lakmozet.h", r"within 2\^29 = ([\d,]*\d)")],
    "the most scenes of a host": [
        ("README.md", r"up to (\d+) scenes"), ("docs/FORMATS.md", r"ends the scenes, of which there may be (\d+)"), ("CHANGELOG.md", r"up to (\d+) scenes"),
    ],
    "the marks": [
        ("docs/FORMATS.md", r"There are (\w+) marks"), ("docs/GLOSSARY.md", r"has (\w+) marks"), ("CHANGELOG.md", r"keeps (\w+) whole worlds"),
        ("docs/ARCHITECTURE.md", r"\| (\w+) marked worlds"),
    ],
    "the bonds of a chunk": [
        ("docs/SPEED.md", r"chunks of up to (\d+)"), ("docs/ARCHITECTURE.md", r"chunks of up to (\d+)"),
        ("crates/pbd_num/src/lib.rt", r"CHUNK: usize = (\d+)"),
    ],
    "the toolchain": [("README.md", r"`(rattle-kit-\w+)`"), ("docs/PROMISES.md", r"`(rattle-kit-\w+)`")],
}  # fmt: skip


def wrong_sayings():
    """What stands in several places, and isn't the same in all."""
    for what, places in SAID.items():
        found = [(name, re.search(pattern, text_of(f"{TOP}/{name}"), re.M)) for name, pattern in places]
        yield from (f"{name}: {what} isn't found as it was said" for name, it in found if not it)
        values = {name: it.group(1) for name, it in found if it}
        if len(set(values.values())) > 1:
            yield f"{what}: " + ", ".join(f"{value} in {name}" for name, value in values.items())


def tables_of(text):
    """Returns the tables of a document, each as its rows of cells, the head first."""
    for block in re.findall(r"(?:^\|.*\|\n?)+", text, re.M):
        rows = [[cell.strip() for cell in line.strip().strip("|").split("|")] for line in block.splitlines()]
        yield [row for row in rows if not all(re.fullmatch(r":?-+:?", cell) for cell in row)]


def wrong_cells():
    """Numbers of tables of two documents that have rows and columns of the same names, with another number in one of them."""
    known = {}
    for path in documents():
        for table in tables_of(prose_of(path)):
            for row in table[1:]:
                for column, cell in zip(table[0][1:], row[1:]):
                    key = table[0][0], row[0], column
                    if re.search(r"\d", cell) and column and row[0]:
                        place, other = known.setdefault(key, (title_of(path), cell))
                        if place != title_of(path) and other != cell:
                            yield f"{title_of(path)}: {cell} for {column} of {row[0]}, and {other} in {place}"


def wrong_numbers():
    """Numbers of the README that no other document has."""
    path = documents()[0]
    others = set(NUMBER.findall(" ".join(prose_of(it) for it in documents()[1:])))
    yield from (f"{title_of(path)}: {it} stands in no other document" for it in NUMBER.findall(prose_of(path)) if it not in others)


def all_wrong():
    """Returns a line for each thing that is wrong."""
    looks = [wrong_links, wrong_names, wrong_rows, wrong_tests, wrong_modules, wrong_sayings, wrong_cells, wrong_numbers]
    return [line for look in looks for line in look()]
