"""What include/lakmozet.h has, and what the bindings have of it: calls, numbers of answers, and names."""
import ast
import pathlib
import re

TOP = pathlib.Path(__file__).resolve().parent.parent.parent
# the lists of names in the header, and what they are called in the bindings, with the number of their first
NAMES = {"rule": ("Rule", 2), "mesh_rule": ("MeshRule", 1), "table": ("Table", 0), "key": ("Key", 0), "field": ("Field", 1)}


def header():
    return (TOP / "include/lakmozet.h").read_text()


def calls(text):
    """Returns the functions that the library shows."""
    return set(re.findall(r"^(?:int32_t|void) (lak_\w+)\(", text, re.M))


def answers(text):
    """Returns the numbers of the answers, by their names."""
    return {name: int(number) for name, number in re.findall(r"^ +LAK_([A-Z_]+) = (\d+)", text, re.M)}


def plain(name):
    """Returns a name without what languages write differently."""
    return re.sub(r"[-_]", "", name).lower()


def names(text, what):
    """Returns the names that the header has of something, by their numbers; one that is no word is `-`."""
    found = re.search(r"lak_%s_name\(.*?\{\n.*?\{(.*?)\};" % what, text, re.S).group(1)
    return {NAMES[what][1] + i: name for i, name in enumerate(re.findall(r'"([^"]*)"', found))}


# ---- the bindings: calls, and the members of an enumeration by their numbers


def python_calls(text):
    return set(re.findall(r'^    "(lak_\w+)":', text, re.M))


def python_members(text, name):
    """Returns the members of an enumeration, which is a class or a call of IntEnum."""
    for node in ast.parse(text).body:
        if isinstance(node, ast.ClassDef) and node.name == name:
            return {it.value.value: it.targets[0].id for it in node.body if isinstance(it, ast.Assign)}
        if isinstance(node, ast.Assign) and node.targets[0].id == name:
            first = next((it.value.value for it in node.value.keywords if it.arg == "start"), 1)
            return {first + i: it for i, it in enumerate(node.value.args[1].value.split())}
    return {}


def sharp_calls(text):
    return set(re.findall(r"\bextern \w+ (lak_\w+)\(", text))


def sharp_members(text, name):
    """Returns the members of an enumeration, each with its number, or the one behind that of the last."""
    found, number = {}, -1
    body = re.search(r"public enum %s\b.*?\{(.*?)\}" % name, text, re.S)
    for member, given in re.findall(r"(\w+)(?: = (\d+))?", body.group(1) if body else ""):
        number = int(given) if given else number + 1
        found[number] = member
    return found


def plus_calls(text):
    return set(re.findall(r"\b(lak_\w+)\b", text))


def wrong_members(text, members):
    """Returns what is wrong with a binding's enumerations."""
    found = []
    by_number = {number: plain(name) for name, number in answers(text).items()}
    for kind in ("Answer", "Outcome"):
        for number, name in members(kind).items():
            if by_number.get(number) != plain(name):
                found.append(f"{kind} {name} isn't {number}")
    for what, (kind, _) in NAMES.items():
        # (a number of no name is `-` in the header)
        own = {number: plain(name) for number, name in members(kind).items() if plain(name) not in ("", f"no{what}")}
        if own != {number: plain(name) for number, name in names(text, what).items() if plain(name)}:
            found.append(f"{kind} has other names than lak_{what}_name")
    return found


def compare():
    """Returns what is wrong in the bindings, versions too, and which calls and answers they lack, as lines."""
    text, wrong, lacking = header(), [], []
    of = {it: (TOP / f"bindings/{it}").read_text() for it in ("cpp/lakmozet.hpp", "csharp/Lakmozet.cs", "python/lakmozet.py")}
    cpp, sharp, python = of.values()
    for place, own in zip(of, (plus_calls(cpp), sharp_calls(sharp), python_calls(python))):
        lacking += [f"{name} in {place}" for name in sorted(calls(text) - own)]
    version = tuple(re.search(r'LAK_VERSION "(\d+)\.(\d+)\.(\d+)"', text).groups())
    if re.search(r"Major = (\d+), Minor = (\d+), Patch = (\d+)", sharp).groups() != version:
        wrong.append("csharp/Lakmozet.cs: another version")
    if re.search(r"^VERSION = \((\d+), (\d+), (\d+)\)$", python, re.M).groups() != version:
        wrong.append("python/lakmozet.py: another version")
    for place, members in (("csharp/Lakmozet.cs", lambda it: sharp_members(sharp, it)),
                           ("python/lakmozet.py", lambda it: python_members(python, it))):  # fmt: skip
        wrong += [f"{place}: {it}" for it in wrong_members(text, members)]
        own = {**members("Answer"), **members("Outcome")}
        # (no call answers the first)
        lacking += [f"{name} in {place}" for name, number in answers(text).items() if number not in own and name != "BAD_COMMAND"]
    return wrong, lacking
