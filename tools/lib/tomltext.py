"""Reads TOML 1.1 with the place of each key and value, or says where a text stops being TOML.

The standard library's `tomllib` reads TOML 1.0, and tells no places; what the program takes is 1.1: an inline table may go over
several lines, strings know `\\e` and `\\xHH`, and a time may lack its seconds. A number of 64 bits is the largest, keys have at
most 80 parts, and arrays and inline tables are at most 80 deep. tools/explain-check compares it with the program.
"""
import datetime
import math
import re

DEEPEST = 80
BARE = re.compile(r"[A-Za-z0-9_-]+")
SPACE = re.compile(r"[ \t]*")
# what stands between values: white space, line ends and comments
BLANK = re.compile(r"(?:[ \t]|\r?\n|#[^\x00-\x08\x0a-\x1f\x7f]*(?=\r?\n|\Z))*")
# a comment up to what no comment may have
BROKEN_COMMENT = re.compile(r"#[^\x00-\x08\x0a-\x1f\x7f]*")
WORD = re.compile(r"[A-Za-z0-9_+.:-]+(?: (?=[0-9])[A-Za-z0-9_+.:-]+)?")
DECIMAL = re.compile(r"[+-]?(?:0|[1-9][0-9]*)")
FLOAT = re.compile(r"[+-]?(?:(?:0|[1-9][0-9]*)(?:\.[0-9]+)?(?:[eE][+-]?[0-9]+)?|inf|nan)")
PREFIXED = {"0x": (16, "0123456789abcdefABCDEF"), "0o": (8, "01234567"), "0b": (2, "01")}
TIME = r"(?P<hour>\d\d):(?P<minute>\d\d)(?::(?P<second>\d\d)(?:\.\d+)?)?"
OFFSET = r"(?:[Zz]|[+-](?P<hours>\d\d):(?P<minutes>\d\d))"
DATE = r"(?P<year>\d{4})-(?P<month>\d\d)-(?P<day>\d\d)"
DATETIME = re.compile(rf"(?:{TIME}|{DATE}(?:[Tt ]{TIME.replace('P<', 'P<day_')}{OFFSET}?)?)", re.A)
ESCAPES = {"b": "\b", "e": "\x1b", "f": "\f", "n": "\n", "r": "\r", "t": "\t", '"': '"', "\\": "\\"}
HEX = {"x": 2, "u": 4, "U": 8}


class NotToml(Exception):
    """Says what is wrong, and how many characters stand before it. In the words LINE@N stands for the line of character N."""

    def __init__(self, at, what):
        super().__init__(what)
        self.at, self.what = at, what


class Item:
    """A value: its kind, what it is, and where it begins. The members of a table have the place of their key beside them."""

    def __init__(self, kind, value, at, origin="value"):
        self.kind, self.value, self.at = kind, value, at
        # what made a table: a value, a header, a header that goes through it, a dotted key; or headers of an array
        self.origin = origin


def fits(year, month, day):
    """Returns whether this is a day of the calendar, which here has a year 0."""
    try:
        # (a year 0 has the days of 400, as 2000 has)
        datetime.date(year or 2000, month, day)
    except ValueError:
        return False
    return True


def is_datetime(word):
    found = DATETIME.fullmatch(word)
    if not found:
        return False
    part = {name: int(value) for name, value in found.groupdict().items() if value is not None}
    most = {"hour": 23, "minute": 59, "second": 60, "hours": 23, "minutes": 59}
    in_range = all(number <= most.get(name.removeprefix("day_"), number) for name, number in part.items())
    return in_range and ("year" not in part or fits(part["year"], part["month"], part["day"]))


def scalar(word, at):
    """Returns the value that a word without quotes is."""
    if word in ("true", "false"):
        return Item("boolean", word == "true", at)
    if re.match(r"[0-9]+[-:]", word):
        if is_datetime(word):
            return Item("date-time", word, at)
        raise NotToml(at, f"`{word}` is no date or time")
    return number(word, at)


def number(word, at):
    radix, digits = PREFIXED.get(word[:2], (10, "0123456789"))
    around = "0123456789abcdefABCDEF" if radix == 16 else "0123456789"
    for i, sign in enumerate(word):
        if sign == "_" and not (0 < i < len(word) - 1 and word[i - 1] in around and word[i + 1] in around):
            raise NotToml(at + i, f"a `_` in `{word}` stands between no two digits")
    plain = word.replace("_", "")
    if radix != 10:
        if not plain[2:] or plain[2:].strip(digits):
            raise NotToml(at, f"`{word}` is no value: a text wants quotes, a number has digits")
        if int(plain[2:], radix) >= 2**63:
            raise NotToml(at, f"`{word}` is beyond 64 bits")
        return Item("integer", int(plain[2:], radix), at)
    if DECIMAL.fullmatch(plain):
        # (the length first, since a text may have millions of digits)
        if len(plain) > 20 or not -(2**63) <= int(plain) < 2**63:
            raise NotToml(at, f"`{short(word)}` is beyond 64 bits")
        return Item("integer", int(plain), at)
    if FLOAT.fullmatch(plain):
        value = float(plain)
        if math.isinf(value) and "inf" not in plain:
            raise NotToml(at, f"`{short(word)}` is beyond the largest float")
        return Item("float", value, at)
    if re.fullmatch(r"[+-]?0[0-9]+", plain):
        raise NotToml(at, f"`{short(word)}` begins with a 0, which no number does")
    raise NotToml(at, f"`{short(word)}` is no value: a text wants quotes, a number has digits")


def short(word):
    return word if len(word) <= 40 else word[:37] + ".."


class Reader:
    """Reads one text from its front."""

    def __init__(self, text):
        self.text, self.at = text, 1 if text.startswith("\ufeff") else 0

    def peek(self, count=1):
        return self.text[self.at:self.at + count]

    def here(self):
        """Returns what comes next, in words."""
        sign = self.peek()
        if not sign:
            return "the end of the text"
        if sign == "\n" or self.peek(2) == "\r\n":
            return "the end of the line"
        return f"`{sign}`" if sign.isprintable() else f"the control character U+{ord(sign):04X}"

    def skip(self, pattern):
        found = pattern.match(self.text, self.at)
        self.at = found.end() if found else self.at
        return found[0] if found else ""

    def blank(self):
        """Goes past white space, line ends and comments."""
        self.skip(BLANK)
        if self.peek() == "#":
            self.skip(BROKEN_COMMENT)
            raise NotToml(self.at, f"{self.here()} in a comment")

    # ---- keys

    def key(self):
        """Returns the parts of a key, each with its place, and goes past the white space behind it."""
        parts, start = [], self.at
        while len(parts) < DEEPEST:
            parts.append(self.simple_key())
            self.skip(SPACE)
            if self.peek() != ".":
                return parts
            self.at += 1
            self.skip(SPACE)
        raise NotToml(start, f"a key of more than {DEEPEST} parts")

    def simple_key(self):
        at = self.at
        if self.peek() and self.peek() in "\"'":
            self.at += 1
            return self.string(self.text[at], False), at
        bare = self.skip(BARE)
        if not bare:
            raise NotToml(at, f"a key is expected, and here is {self.here()}")
        return bare, at

    def key_and_equals(self):
        key = self.key()
        if self.peek() != "=":
            raise NotToml(self.at, f"`=` is expected behind the key `{key[-1][0]}`, and here is {self.here()}")
        self.at += 1
        self.skip(SPACE)
        return key

    # ---- values

    def item(self, depth):
        at, sign = self.at, self.peek()
        if sign and sign in "[{":
            if not depth:
                raise NotToml(at, f"arrays and tables are more than {DEEPEST} deep")
            self.at += 1
            return self.array(at, depth - 1) if sign == "[" else self.inline_table(at, depth - 1)
        if sign and sign in "\"'":
            many = self.peek(3) == 3 * sign
            self.at += 3 if many else 1
            if many:
                self.skip(re.compile(r"\r?\n"))
            return Item("string", self.string(sign, many), at)
        word = self.skip(WORD)
        if not word:
            raise NotToml(at, f"a value is expected, and here is {self.here()}")
        return scalar(word, at)

    def behind(self, closing, what, start):
        """Goes past a comma, or says that there is neither that nor the closing sign of what began at `start`."""
        self.blank()
        if self.peek() == ",":
            self.at += 1
        elif self.peek() != closing:
            raise NotToml(self.at, f"`,` or `{closing}` is expected in the {what} that begins in line LINE@{start}, and here is {self.here()}")

    def array(self, at, depth):
        items = []
        self.blank()
        while self.peek() != "]":
            items.append(self.item(depth))
            self.behind("]", "array", at)
            self.blank()
        self.at += 1
        return Item("array", items, at)

    def inline_table(self, at, depth):
        table = Item("table", {}, at)
        self.blank()
        while self.peek() != "}":
            key = self.key_and_equals()
            put(table, key, self.item(depth))
            self.behind("}", "inline table", at)
            self.blank()
        self.at += 1
        return table

    def string(self, quote, many):
        """Returns a string whose opening quotes were read."""
        start, made = self.at, []
        while True:
            sign = self.peek()
            if sign == quote:
                count = len(self.skip(re.compile(quote + "+"))) if many else 0
                if many and count > 5:
                    raise NotToml(self.at - count, "more than five quotes end a string")
                if not many or count >= 3:
                    self.at += 0 if many else 1
                    return "".join(made) + quote * max(count - 3, 0)
                made.append(quote * count)
            elif sign == "\\" and quote == '"':
                self.at += 1
                made.append(self.escape(many))
            elif many and (sign == "\n" or self.peek(2) == "\r\n"):
                made.append(self.skip(re.compile(r"\r?\n")))
            elif not sign or ord(sign) < 32 and sign != "\t" or sign == "\x7f":
                raise NotToml(self.at, f"a string isn't closed before {self.here()}, which it can't have")
            else:
                made.append(sign)
                self.at += 1

    def escape(self, many):
        if many and self.skip(re.compile(r"[ \t]*\r?\n(?:[ \t]|\r?\n)*")):
            return ""
        sign = self.peek()
        if sign in ESCAPES and sign:
            self.at += 1
            return ESCAPES[sign]
        digits = self.text[self.at + 1:self.at + 1 + HEX.get(sign, 0)]
        if len(digits) == HEX.get(sign) and not digits.strip("0123456789abcdefABCDEF"):
            code = int(digits, 16)
            if code < 0xD800 or 0xE000 <= code <= 0x10FFFF:
                self.at += 1 + len(digits)
                return chr(code)
        raise NotToml(self.at - 1, f"`\\{sign}` with what follows is no escape; a backslash is `\\\\`")

    # ---- lines

    def document(self):
        root = Item("table", {}, 0)
        section = []
        while True:
            self.blank()
            if not self.peek():
                return root
            if self.peek(2) == "[[":
                section = self.header("]]")
                define(root, section, Item("table", {}, section[0][1], "header"), True)
            elif self.peek() == "[":
                section = self.header("]")
                define(root, section, Item("table", {}, section[0][1], "header"), False)
            else:
                key = self.key_and_equals()
                value = self.item(DEEPEST)
                self.end_of_line()
                put(along_header(root, section), key, value)

    def header(self, closing):
        self.at += len(closing)
        self.skip(SPACE)
        key = self.key()
        if self.peek(len(closing)) != closing:
            raise NotToml(self.at, f"`{closing}` is expected behind the name of a table, and here is {self.here()}")
        self.at += len(closing)
        self.end_of_line()
        return key

    def end_of_line(self):
        self.skip(SPACE)
        if self.peek() and self.peek() not in "#\r\n":
            raise NotToml(self.at, f"the end of the line is expected, and here is {self.here()}")


# ---- what keys and headers define


def twice(part, before):
    return NotToml(part[1], f"`{part[0]}` is there twice, the first time in line LINE@{before}")


def along_header(table, path):
    """Returns the table to which a header's path leads, through the last element of each array of tables."""
    for name, at in path:
        if name not in table.value:
            table.value[name] = at, Item("table", {}, at, "through")
        inner = table.value[name][1]
        if inner.origin == "array":
            inner = inner.value[-1]
        elif inner.origin == "value":
            raise NotToml(at, f"`{name}` is no table that a header may add to, but a value, in line LINE@{inner.at}")
        table = inner
    return table


def along_dots(table, path):
    """Returns the table to which the dots of a key lead, through tables that no header defined."""
    for name, at in path:
        if name not in table.value:
            table.value[name] = at, Item("table", {}, at, "dots")
        before, inner = table.value[name]
        if inner.origin == "value":
            raise NotToml(at, f"`{name}` is no table that a key may add to, but a value, in line LINE@{inner.at}")
        if inner.origin in ("array", "header"):
            raise twice((name, at), before)
        inner.origin = "dots"
        table = inner
    return table


def put(table, key, value):
    """Adds a pair to a table."""
    table = along_dots(table, key[:-1])
    name, at = key[-1]
    if name in table.value:
        raise twice(key[-1], table.value[name][0])
    table.value[name] = at, value


def define(root, section, made, is_array):
    table = along_header(root, section[:-1])
    name, at = section[-1]
    before, there = table.value.get(name, (at, None))
    if there is None:
        table.value[name] = at, Item("array", [made], at, "array") if is_array else made
    elif is_array and there.origin == "array":
        there.value.append(made)
    elif not is_array and there.origin == "through":
        there.origin, there.at = "header", made.at
    else:
        raise twice(section[-1], before)


def read(text):
    """Returns the table that a text is, or raises NotToml."""
    return Reader(text).document()


def plain(item):
    """Returns a value as Python's own, without places."""
    if item.kind == "table":
        return {name: plain(it) for name, (_, it) in item.value.items()}
    if item.kind == "array":
        return [plain(it) for it in item.value]
    return item.value
