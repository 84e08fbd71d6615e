"""The JSON Schema of scenes: which scenes it takes, and whether it says what docs/FORMATS.md says."""
import json
import pathlib
import re

import scenes

TOP = pathlib.Path(__file__).resolve().parent.parent.parent
ROW = re.compile(r"^\| (`[^|]+`) \| ([^|]*?) *\| ([^|]*?) *\| ([^|]*?) *\|$", re.M)
SPAN = re.compile(r"(-?[\d,^R]+)\.\.=(-?(?:\d+\^\d+|\d*R|\d+(?:,\d{3})*))")
TYPES = {"object": dict, "array": list, "integer": int, "boolean": bool}
# what `faults` looks at, and what says nothing of a value
KNOWN = {"type", "properties", "additionalProperties", "required", "items", "prefixItems", "minItems", "maxItems", "minimum", "maximum", "$ref"}
SILENT = {"$schema", "$defs", "title", "description", "default"}


def read():
    with open(scenes.SCHEMA, encoding="utf-8") as file:
        return json.load(file)


# ---- what a schema takes


def faults(value, schema, root, path="scene"):
    """Returns where a value isn't as a schema says, by the words that the schema of scenes uses; an integer is none with a point."""
    if "$ref" in schema:
        return faults(value, root["$defs"][schema["$ref"].removeprefix("#/$defs/")], root, path)
    if schema.keys() - KNOWN - SILENT:
        raise ValueError(f"words of a schema that aren't looked at: {schema.keys() - KNOWN - SILENT}")
    if type(value) is not TYPES[schema["type"]]:
        return [f"{path}: no {schema['type']}"]
    if isinstance(value, dict):
        return faults_of_table(value, schema, root, path)
    if isinstance(value, list):
        return faults_of_array(value, schema, root, path)
    if not schema.get("minimum", value) <= value <= schema.get("maximum", value):
        return [f"{path}: out of range"]
    return []


def faults_of_table(value, schema, root, path):
    known = schema["properties"]
    found = [f"{path}: no {name}" for name in schema.get("required", []) if name not in value]
    if not schema["additionalProperties"]:
        found += [f"{path}: an unknown {name}" for name in value if name not in known]
    for name in value.keys() & known.keys():
        found += faults(value[name], known[name], root, f"{path}.{name}")
    return found


def faults_of_array(value, schema, root, path):
    found = []
    if not schema.get("minItems", 0) <= len(value) <= schema.get("maxItems", len(value)):
        found.append(f"{path}: {len(value)} entries")
    first = schema.get("prefixItems", [])
    for i, it in enumerate(value):
        found += faults(it, first[i] if i < len(first) else schema["items"], root, f"{path}[{i}]")
    return found


# ---- what docs/FORMATS.md says


def number(word):
    """Returns a bound of a table of docs/FORMATS.md, where R is 2^29."""
    word = word.replace(",", "")
    sign, word = (-1, word[1:]) if word.startswith("-") else (1, word)
    if word.endswith("R"):
        return sign * int(word[:-1] or 1) * scenes.R
    base, _, power = word.partition("^")
    return sign * (int(base) ** int(power) if power else int(base))


def span(text):
    """Returns the bounds that a table of docs/FORMATS.md gives for a key."""
    found = SPAN.search(text)
    if found:
        return number(found[1]), number(found[2])
    return (-scenes.R, scenes.R) if text.startswith("inside") else None


def said(text):
    """Returns what docs/FORMATS.md says of each key: its kind, bounds, whether it must be there, and what it is where it isn't."""
    found = {}
    for section in re.split(r"^#{2,3} (?=\w)", text[text.index("## Scene\n"):text.index("### What a scene becomes")], flags=re.M)[1:]:
        table = section.split("\n")[0].lower()
        for names, value, ranged, left_out in ROW.findall(section):
            kind = next(it for start, it in KINDS.items() if value.startswith(start))
            default = json.loads(left_out) if re.match(r"[\[\d]", left_out) else False if kind == "boolean" else None
            for name in re.findall(r"`(\w+)`", names):
                # (a row of keys has one bound for steps and one for places)
                found[table, name] = kind, None if kind == "rows" else span(ranged), left_out == "must be there", default
    return found


KINDS = {"vector": "vector", "integer": "integer", "true or false": "boolean", "array of integers": "integers", "1 to 1,024 arrays": "rows"}


def schema_says(schema):
    """Returns the same of the schema, as tools/explain reads it, and what a key is where it isn't there."""
    found = {}
    for table, keys in scenes.KEYS.items():
        part = schema if table == "scene" else schema["$defs"][table]
        for name, (kind, least, greatest, required, _) in keys.items():
            bounds = None if least is None else (scenes.bound(least, scenes.R), scenes.bound(greatest, scenes.R))
            found[table, name] = kind, bounds, required, part["properties"][name].get("default")
    return found


def differences():
    """Returns where the schema, and with it tools/explain, says something else than docs/FORMATS.md."""
    text, schema, found = (TOP / "docs/FORMATS.md").read_text(), read(), []
    said_there, in_schema = said(text), schema_says(schema)
    for key in sorted(said_there.keys() | in_schema.keys()):
        if said_there.get(key) != in_schema.get(key):
            found.append(f"{' '.join(key)}: docs/FORMATS.md has {said_there.get(key)}, and docs/scene.schema.json {in_schema.get(key)}")
    if not found and list(said_there) != list(in_schema):
        found.append("docs/FORMATS.md has keys in another order than docs/scene.schema.json")
    numbers = dict(re.findall(r"`(\w+)` ([\d,]+)", text[text.index("The arrays of tables,"):text.index("### particle")]))
    most = {name: number(it) for name, it in numbers.items()}
    if list(most.items()) != list(scenes.MOST.items()):
        found.append(f"docs/FORMATS.md has at most {most} entries of tables, and docs/scene.schema.json {scenes.MOST}")
    rows, keys = text[text.index("| `keys` |"):].split("\n")[0], schema["$defs"]["track"]["properties"]["keys"]
    step = keys["items"]["prefixItems"][0]
    if "1 to 1,024 arrays" not in rows or (keys["minItems"], keys["maxItems"]) != (1, 1_024) or span(rows) != (step["minimum"], step["maximum"]):
        found.append("docs/FORMATS.md has other keys of tracks than docs/scene.schema.json")
    return found
