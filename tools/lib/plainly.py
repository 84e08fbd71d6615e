"""Takes the contracts off sources, so that they are plain Rust: what tools/plain and tools/export have in common.

Lines keep their numbers: what is taken off leaves its line ends.
"""
import bisect
import re
import sys

OPEN, CLOSE = "([{", ")]}"
# comments, strings, characters, and the lifetimes that look like them
SKIPPED = re.compile(r"//[^\n]*|/\*.*?\*/|\"(?:\\.|[^\"\\])*\"|b?'(?:\\(?:x..|u\{[^}]*\}|.)|[^'\\])'|'\w+", re.S)
CLAUSE = re.compile(r"(?:requires|ensures)\*?(?:\s+\w+)?\s*(?=\{)")
GHOST = re.compile(r"ghost\b")
GHOST_FIELD = re.compile(r"(?:pub(?:\([^)]*\))?\s+)?ghost\s+\w+\s*:\s*\{")
TACTIC = re.compile(r"#!?\[tactic\b")
PROVE = re.compile(r"prove!\(")
VEC_IN = re.compile(r"vec!\[in\b")
WORD = re.compile(r"\w+")
# doc comments at the end of a block, whose item was a ghost
LEFT_ALONE = re.compile(r"(?:^[ \t]*///[^\n]*\n)+(?=\s*\})", re.M)


def closing(text, at):
    """Returns the end of the bracket that opens at a place."""
    depth = 0
    while True:
        skipped = SKIPPED.match(text, at)
        if skipped:
            at = skipped.end()
            continue
        if text[at] in OPEN:
            depth += 1
        elif text[at] in CLOSE:
            depth -= 1
            if depth == 0:
                return at + 1
        at += 1


def end_of_clause(text, at):
    """Returns the end of the contract's braces that open at a place: nothing in them is a string or a comment."""
    depth = 0
    while True:
        depth += {"{": 1, "}": -1}.get(text[at], 0)
        at += 1
        if depth == 0:
            return at


def end_of_ghost(text, at):
    """Returns the end of a ghost item, which a semicolon outside all braces ends."""
    depth, start = 0, at
    while True:
        depth += {"{": 1, "}": -1}.get(text[at], 0)
        at += 1
        if depth == 0 and text[at - 1] == ";":
            return at
        if depth < 0:
            sys.exit(f"no semicolon ends this ghost: {text[start:at]}")


def lines_of(text):
    """Returns nothing but the line ends of a text."""
    return "\n" * text.count("\n")


def vec_in(text, at, kit):
    """Returns a call in the place of `vec![in alloc; item; count]`, and the end of that."""
    end = closing(text, text.index("[", at))
    alloc, item, count = text[text.index("[", at) + 3 : end - 1].split(";")
    return f"{kit}::filled({alloc.strip()}, {item.strip()}, {count.strip()})", end


def without_ghost_fields(text):
    """Returns a source without the ghost fields of its structs, each of which a comma ends."""
    out, at = [], 0
    while found := GHOST_FIELD.search(text, at):
        end = end_of_clause(text, found.end() - 1)
        line_start = text.rfind("\n", 0, found.start()) + 1
        is_field = not text[line_start : found.start()].strip() and text[end : end + 1] == ","
        out.append(text[at : found.start()])
        if is_field:
            end += 1
            out.append(lines_of(text[found.start() : end]))
        else:
            out.append(text[found.start() : end])
        at = end
    return "".join(out) + text[at:]


def end_of_taken(text, at, is_fresh):
    """Returns the end of the clause, ghost item, tactic or claim that begins at a place, if one does."""
    if is_fresh and (clause := CLAUSE.match(text, at)):
        return end_of_clause(text, clause.end())
    if is_fresh and GHOST.match(text, at):
        return end_of_ghost(text, at)
    if TACTIC.match(text, at):
        return closing(text, text.index("[", at))
    if is_fresh and PROVE.match(text, at):
        end = closing(text, text.index("(", at))
        return end + 1 if text[end : end + 1] == ";" else None
    return None


def without_contracts(text, kit):
    """Returns a source without its clauses, ghosts, tactics and claims. `kit` is the path of what stands in for the library."""
    text = without_ghost_fields(text)
    out, at = [], 0
    while at < len(text):
        skipped = SKIPPED.match(text, at)
        if skipped:
            out.append(skipped.group())
            at = skipped.end()
            continue
        is_fresh = at == 0 or not (text[at - 1].isalnum() or text[at - 1] in "_.")
        if end := end_of_taken(text, at, is_fresh):
            out.append(lines_of(text[at:end]))
            at = end
        elif is_fresh and VEC_IN.match(text, at):
            call, at = vec_in(text, at, kit)
            out.append(call)
        else:
            word = WORD.match(text, at)
            end = word.end() if word else at + 1
            out.append(text[at:end])
            at = end
    return LEFT_ALONE.sub(lambda it: it.group().replace("///", "//"), "".join(out))


def in_code(pattern, put, text, flags=0):
    """Returns a text in which what a pattern finds is replaced, but for what begins in a comment or a string."""
    spans = [it.span() for it in SKIPPED.finditer(text)]
    starts = [it[0] for it in spans]

    def replaced(found):
        before = bisect.bisect_right(starts, found.start()) - 1
        if before >= 0 and found.start() < spans[before][1]:
            return found.group()
        return put(found) if callable(put) else found.expand(put)

    return re.sub(pattern, replaced, text, flags=flags)


def derives(found):
    """Returns a list of derived traits without Drop."""
    kept = [it.strip() for it in found.group(1).split(",") if it.strip() != "Drop"]
    return f"#[derive({', '.join(kept)})]" if kept else ""


def in_rust(text, kit):
    """Returns a source without contracts with the traits and allocating calls that stand in for those of the sources."""
    text = in_code(r"#\[derive\(([^)]*)\)\]", derives, text)
    text = in_code(r"\bDrop\b", "Sized", text)
    # (a method of a trait that no impl may have anew; Rust has no word for that yet)
    text = in_code(r"\bfinal (?=fn\b)", "", text)
    text = in_code(r"(?<![\w:])(Vec|Box|String)\b(?=[<:])", rf"{kit}::\1", text)
    text = in_code(r"\.collect\((?=[^)])", ".collect_in(", text)
    return in_code(r"\.to_vec\((?=[^)])", ".copied_in(", text)


def tidied(text):
    """Returns a source without spaces at the ends of lines."""
    return re.sub(r"[ \t]+(?=\n)", "", text)


def stands_on(top):
    """Returns the crates of a repository in order, each with what it stands on."""
    found = {}
    for line in (top / "crates.txt").read_text().splitlines():
        if ":" in line and not line.startswith("#"):
            head, tail = line.split(":", 1)
            found[head.split()[0]] = tail.split()
    return found


def needed(names, top):
    """Returns crates and all crates of the repository that they stand on, in order, and the libraries that these name."""
    below = stands_on(top)
    for name in names:
        if name not in below:
            sys.exit(f"no crate `{name}` in {top / 'crates.txt'}")
    wanted, libraries, left = set(), set(), list(names)
    while left:
        name = left.pop()
        if name not in below:
            libraries.add(name)
        elif name not in wanted:
            wanted.add(name)
            left += below[name]
    return [it for it in below if it in wanted], libraries
