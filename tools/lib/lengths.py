"""Writes what contracts say of lengths as assertions, at the head of each function that loops.

A contract tells that each index of a loop is within its list, and the compiler of plain Rust doesn't know it: it tests each one.
Told once, before the loop, that the lists are as long as the contract requires, it leaves those tests out. What is taken over
are the bounds of a clause `requires`, or of a record of the specifications that it names, whose sides are lengths of lists in the
arguments, counts in `usize`, and numbers below 2^31, which each `usize` has room for; all else stays a proof's. Lines keep their
numbers.
"""
import re

import plainly

FUNCTION = re.compile(r"\bfn \w+")
IMPL = re.compile(r"^impl\b[^{;]*?(?:\bfor )?(\w+)(?:<[^{]*>)? \{$", re.M)
LOOP = re.compile(r"\bfor [^;{}]+ in ")
STRUCT = re.compile(r"^pub(?:\([^)]*\))? struct (\w+)[^\n{;]*\{\n((?:[^}]*\n)?)\}", re.M)
FIELD = re.compile(r"^    (?:pub(?:\([^)]*\))? )?(\w+): ([^\n]+),$", re.M)
MODEL = re.compile(r"^impl\b[^{;]*\bModel for (\w+)", re.M)
RECORD = re.compile(r"^pub record (\w+)((?: \([^()\n]*\))*) : Type 0 where\n((?:  [^\n]*\n)+)", re.M)
RECORD_FIELD = re.compile(r"^  pub \w+ : ([^\n]+)$", re.M)
CLAUSE = re.compile(r"requires(?:\s+\w+)?\s*(?=\{)")
BOUND = re.compile(r"(length )?([\w.]+) (≤|<|≡) (length )?([\w.]+)")
WORDS = re.compile(r"\([^()]*\)|\S+")
MOST = 2**31
IN_RUST = {"≤": "<=", "<": "<", "≡": "=="}
LIST = re.compile(r"&?(?:'\w+ )?(?:mut )?\[|Vec<")
# what a path of a contract says besides the fields
MOMENTS = {"now", "old", "entry"}


class Known:
    """The structs of the sources, but for those of which contracts see something else, and the records of the specifications."""

    def __init__(self, top):
        sources = [it.read_text() for it in sorted((top / "crates").glob("*/src/*.rt"))]
        modelled = {name for text in sources for name in MODEL.findall(text)}
        found = [it for text in sources for it in STRUCT.findall(text)]
        names = [name for name, _ in found]
        self.structs = {name: dict(FIELD.findall(fields)) for name, fields in found if name not in modelled and names.count(name) == 1}
        self.records = {}
        for specs in sorted((top / "crates").glob("*/specs/*.antt")):
            for name, parameters, fields in RECORD.findall(specs.read_text()):
                given = [it for group in re.findall(r"\(([^:()]*):", parameters) for it in group.split()]
                self.records[name] = given, RECORD_FIELD.findall(fields)


def kind_of(path, arguments, known):
    """Returns the code of a path of a contract, and its type, where all on the way are fields."""
    root, *fields = [it for it in path.split(".") if it not in MOMENTS]
    kind = arguments.get(root)
    for field in fields:
        name = re.match(r"&?(?:'\w+ )?(?:mut )?(\w+)", kind or "")
        kind = known.structs.get(name.group(1), {}).get(field) if name else None
    return ".".join([root, *fields]), kind or ""


def side(is_length, path, arguments, known):
    """Returns the code of one side of a bound, if it has one."""
    if path.isdigit() and not is_length:
        return path if int(path) < MOST else None
    code, kind = kind_of(path, arguments, known)
    if is_length:
        return f"{code}.len()" if LIST.match(kind) else None
    return code if kind == "usize" else None


def bounds_of(text, arguments, known):
    """Returns the bounds that a clause, or a field of a record, says in code."""
    text = " ".join(text.split())
    if found := BOUND.fullmatch(text):
        left = side(*found.group(1, 2), arguments, known)
        right = side(*found.group(4, 5), arguments, known)
        return [f"{left} {IN_RUST[found.group(3)]} {right}"] if left and right and left != right else []
    name, *given = WORDS.findall(text)
    names, fields = known.records.get(name, ([], []))
    if len(names) != len(given):
        return []
    put = {it: value.strip("()") for it, value in zip(names, given)}
    filled = (re.sub(r"(?<![\w.])(\w+)", lambda it: put.get(it.group(1), it.group(1)), field) for field in fields)
    return [bound for field in filled for bound in bounds_of(field, arguments, known)]


def arguments_of(text, owner):
    """Returns the arguments of a function, each with its type."""
    found = dict(re.findall(r"(?:mut )?(\w+): ([^,()]+(?:\([^()]*\))?[^,()]*)", text[1:-1]))
    return {it: kind.strip() for it, kind in found.items()} | {"self": owner}


def head_of(text, at):
    """Returns the clauses `requires` of the function whose arguments end at a place, and where its body begins, if it has one."""
    clauses = []
    while at < len(text) and text[at] not in "{;":
        if clause := plainly.CLAUSE.match(text, at):
            end = plainly.end_of_clause(text, clause.end())
            if CLAUSE.match(text, at):
                clauses.append(text[clause.end() + 1 : end - 1])
            at = end
        elif skipped := plainly.SKIPPED.match(text, at):
            at = skipped.end()
        elif word := plainly.WORD.match(text, at):
            at = word.end()
        else:
            at = plainly.closing(text, at) if text[at] in "([" else at + 1
    return clauses, at if text[at : at + 1] == "{" else None


def with_lengths(text, known):
    """Returns a source, with its contracts, in which the bounds of functions that loop are asserted."""
    owners = [(it.start(), it.group(1)) for it in IMPL.finditer(text)]
    put = []

    def look(found):
        at = text.index("(", found.end())
        end = plainly.closing(text, at)
        clauses, body = head_of(text, end)
        if body is None or not LOOP.search(text[body : plainly.closing(text, body)]):
            return found.group()
        owner = next((name for start, name in reversed(owners) if start < at), "")
        arguments = arguments_of(text[at:end], owner)
        bounds = dict.fromkeys(bound for clause in clauses for bound in bounds_of(clause, arguments, known))
        put.append((body + 1, "".join(f" assert!({it});" for it in bounds)))
        return found.group()

    plainly.in_code(FUNCTION, look, text)
    for at, asserted in reversed(put):
        text = text[:at] + asserted + text[at:]
    return text
