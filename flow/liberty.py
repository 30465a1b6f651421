"""A reader of Liberty libraries: the text becomes groups and attributes, each with its line.

    library = liberty.read("cells.lib")
    for cell in library.groups_of("cell"):
        print(cell.arguments[0], cell.text("area", "0"), cell.line)

A group has simple attributes (`area : 5;`), complex ones (`index_1 ("1, 2");`) and groups (`pin (A) { .. }`). The
reader knows no attribute by name: what they mean, and whether a value is a number, is for the caller to say. Functions
beside it tell the units of a library, and whether the function of a pin is an inversion.

- A value is a string, or the text up to `;`, `}` or the end of its line. It is not empty. Arguments are strings and
  words between commas or blanks. Quotes are taken off.
- A backslash before the end of a line (blanks may stand between) continues the line, in strings too. A string that is
  not continued ends on its line. A backslash in a string hides the quote after it.
- Comments are `/* .. */`, and `//` to the end of the line where it begins a line or follows `;`, `,`, `{`, `}` or `)`.
- `;` after an attribute or a group is optional. A group may lack its brackets, as in `timing { .. }`.
- The file is one group `library`. A group `cell` inside another group of the library is a fault: a `}` is missing.

Files that others include are not read: `include_file` is an attribute like others.
"""
from __future__ import annotations

import re
from dataclasses import dataclass
from fractions import Fraction

import common
from common import Fault

CONTINUED = r"\\[ \t]*\r?\n"
BLANK = rf"\s*(?:{CONTINUED}\s*)*"
BLANK_OF_LINE = rf"[^\S\n]*(?:{CONTINUED}[^\S\n]*)*"
STRING = r'"[^"\\]*(?:\\.[^"\\]*)*"'
OPEN_STRING = r'"[^"\\\n]*(?:\\(?:[ \t]*\r?\n|.)[^"\\\n]*)*("?)'
PLAIN = rf'[^;{{}}"\\\n]*(?:\\(?:[ \t]*\r?\n|[^\n])[^;{{}}"\\\n]*)*'

LEXEME = re.compile(rf"(?P<string>{OPEN_STRING})|(?P<comment>/\*.*?(?:\*/|\Z))|(?P<note>//[^\n]*)|\\.", re.DOTALL)
STATEMENT = re.compile(rf"{BLANK}(?:([A-Za-z_]\w*){BLANK}([:({{])|([;}}])|\Z)", re.DOTALL | re.ASCII)
VALUE = re.compile(rf"{BLANK_OF_LINE}(?:({STRING})|({PLAIN})){BLANK_OF_LINE}(?=[;}}\n]|\Z)", re.DOTALL | re.ASCII)
ARGUMENTS = re.compile(rf'([^()"{{}};]*(?:{STRING}[^()"{{}};]*)*)\)(?:{BLANK}({{))?', re.DOTALL | re.ASCII)
ARGUMENT = re.compile(rf'({STRING})|((?:[^\s,"\\]|\\(?![ \t]*\r?\n).)+)|(,)', re.DOTALL | re.ASCII)
JOIN = re.compile(CONTINUED)
BEFORE_NOTE = ";,{})"
TIME_UNITS = {"1ps": 1, "10ps": 10, "100ps": 100, "1ns": 1000}
LOAD_UNITS = {"ff": 1, "pf": 1000}


@dataclass
class Attribute:
    """An attribute with its values: one of a simple one, the arguments of a complex one."""

    __slots__ = ("name", "values", "line", "simple")
    name: str
    values: list[str]
    line: int
    simple: bool


@dataclass
class Group:
    """A group: its attributes by name, all of a name in their order, and its groups."""

    __slots__ = ("kind", "arguments", "line", "file", "attributes", "groups")
    kind: str
    arguments: list[str]
    line: int
    file: str
    attributes: dict[str, list[Attribute]]
    groups: list[Group]

    def simple(self, name) -> Attribute | None:
        """The first simple attribute of a name."""
        return next((found for found in self.attributes.get(name, ()) if found.simple), None)

    def text(self, name, default=None):
        """The value of the first simple attribute of a name, without quotes."""
        found = self.simple(name)
        return default if found is None else found.values[0]

    def attribute(self, name) -> Attribute | None:
        """The first attribute of a name, simple or complex."""
        found = self.attributes.get(name)
        return found[0] if found else None

    def groups_of(self, kind) -> list[Group]:
        """The groups of one kind directly inside, in their order."""
        return [group for group in self.groups if group.kind == kind]

    def title(self):
        """The group as the text has it, for messages."""
        return f"{self.kind} ({', '.join(self.arguments)})"


def read(path) -> Group:
    """The library of a file."""
    return parse(common.read_text(path), path)


def parse(text, file) -> Group:
    """The library of a text."""
    return _Parser(_without_comments(text, file), file).library()


def time_unit_ps(library) -> Fraction:
    """The unit of times in ps."""
    found = library.simple("time_unit")
    if found is None:
        raise Fault("the library has no 'time_unit'", library.file, library.line)
    unit = TIME_UNITS.get(found.values[0].strip().lower())
    if unit is None:
        raise Fault(f"the time_unit '{found.values[0]}' is none of {', '.join(TIME_UNITS)}", library.file, found.line)
    return Fraction(unit)


def load_unit_ff(library) -> Fraction:
    """The unit of capacitances in fF."""
    name = "capacitive_load_unit"
    found = next((one for one in library.attributes.get(name, ()) if not one.simple), None)
    if found is None:
        raise Fault(f"the library has no '{name}'", library.file, library.line)
    size, unit = found.values if len(found.values) == 2 else ("", "")
    factor = LOAD_UNITS.get(unit.strip().lower())
    if factor is None or not re.fullmatch(r"[0-9]{1,9}(\.[0-9]{0,9})?", size.strip()) or Fraction(size) == 0:
        text = ", ".join(found.values)
        raise Fault(f"the {name} ({text}) is no number and 'ff' or 'pf'", library.file, found.line)
    return Fraction(size) * factor


def inversion(function, name) -> bool | None:
    """Whether a function is a pin's complement (True) or the pin itself (False); None where it is neither."""
    inverts, text = False, function.strip()
    while text != name:
        if text.startswith("!"):
            inverts, text = not inverts, text[1:].strip()
        elif text.endswith("'"):
            inverts, text = not inverts, text[:-1].strip()
        elif text.startswith("(") and text.endswith(")"):
            text = text[1:-1].strip()
        else:
            return None
    return inverts


def _without_comments(text, file):
    """The text with blanks for comments, whose newlines stay. All strings have an end in it."""

    def line_of(position):
        return text.count("\n", 0, position) + 1

    def begins_note(position):
        before = text[text.rfind("\n", 0, position) + 1 : position].rstrip(" \t\r\\")
        return not before or before[-1] in BEFORE_NOTE

    def replaced(match):
        if match.lastgroup == "string" or match.lastgroup is None:
            if match["string"] is not None and not match[2]:
                raise Fault("a string has no end on its line", file, line_of(match.start()))
            return match[0]
        if match.lastgroup == "note":
            return "" if begins_note(match.start()) else match[0]
        if len(match[0]) < 4 or not match[0].endswith("*/"):
            raise Fault("a comment has no end", file, line_of(match.start()))
        return "\n" * match[0].count("\n") or " "

    return LEXEME.sub(replaced, text[1:] if text.startswith("\ufeff") else text)


def _unquoted(string):
    """The content of a string, with a blank for each end of a line that is continued."""
    content = string[1:-1]
    return JOIN.sub(" ", content) if "\\" in content else content


class _Parser:
    """Reads a text without comments, statement by statement. Groups that have no end yet are on a stack."""

    def __init__(self, text, file):
        self.text, self.file = text, file
        self.position = 0
        self.line, self.counted = 1, 0
        self.open: list[Group] = []
        self.result: Group | None = None

    def library(self):
        """The library, after the whole text is read."""
        while True:
            match = STATEMENT.match(self.text, self.position)
            if match is None:
                raise self.fault_here()
            self.position = match.end()
            name, mark, other = match.groups()
            if name is not None:
                self.statement(name, mark, self.line_of(match.start(1)))
            elif other == "}":
                self.close(match.start(3))
            elif other is None:
                return self.at_end()

    def line_of(self, position):
        """The line of a position. Positions do not decrease from call to call."""
        self.line += self.text.count("\n", self.counted, position)
        self.counted = position
        return self.line

    def statement(self, name, mark, line):
        """Reads what follows a name and its mark."""
        if self.result is not None:
            raise Fault(f"'{name}' stands after the '}}' of the library", self.file, line)
        if mark == ":":
            self.put(Attribute(name, [self.value(name, line)], line, True))
            return
        arguments, opens = ([], True) if mark == "{" else self.arguments(name, line)
        if opens:
            self.begin(Group(name, arguments, line, self.file, {}, []))
        else:
            self.put(Attribute(name, arguments, line, False))

    def value(self, name, line):
        match = VALUE.match(self.text, self.position)
        if match is None:
            raise Fault(f"neither ';' nor the end of the line is after the value of '{name}'", self.file, line)
        self.position = match.end()
        if match[1] is not None:
            return _unquoted(match[1])
        value = JOIN.sub(" ", match[2]).strip() if "\\" in match[2] else match[2].strip()
        if not value:
            raise Fault(f"'{name}' has no value", self.file, line)
        return value

    def arguments(self, name, line):
        """The arguments in brackets, and whether a group begins after them."""
        match = ARGUMENTS.match(self.text, self.position)
        if match is None:
            raise Fault(f"the arguments of '{name}' have no ')'", self.file, line)
        self.position = match.end()
        values, wanted = [], False
        for string, word, comma in ARGUMENT.findall(match[1]):
            if comma and (wanted or not values):
                raise Fault(f"an argument of '{name}' is empty", self.file, line)
            if not comma:
                values.append(_unquoted(string) if string else word)
            wanted = bool(comma)
        if wanted:
            raise Fault(f"an argument of '{name}' is empty", self.file, line)
        return values, match[2] is not None

    def put(self, attribute):
        if not self.open:
            raise Fault(f"'{attribute.name}' is outside of a library", self.file, attribute.line)
        self.open[-1].attributes.setdefault(attribute.name, []).append(attribute)

    def begin(self, group):
        if not self.open and group.kind != "library":
            raise Fault(f"the group '{group.title()}' is outside of a library", self.file, group.line)
        if group.kind == "cell" and len(self.open) != 1:
            above = self.open[-1]
            reason = f"'{group.title()}' begins inside of '{above.title()}' of line {above.line}: a '}}' is missing"
            raise Fault(reason, self.file, group.line)
        if self.open:
            self.open[-1].groups.append(group)
        self.open.append(group)

    def close(self, position):
        if not self.open:
            raise Fault("a '}' closes no group", self.file, self.line_of(position))
        group = self.open.pop()
        if not self.open:
            self.result = group

    def at_end(self):
        if self.open:
            group, line = self.open[-1], self.line_of(len(self.text.rstrip()))
            raise Fault(f"the text ends, and '{group.title()}' of line {group.line} has no '}}'", self.file, line)
        if self.result is None:
            raise Fault("the text has no library", self.file, self.line_of(len(self.text)))
        return self.result

    def fault_here(self):
        """The fault where no statement begins."""
        start = re.compile(BLANK).match(self.text, self.position).end()
        found = re.match(r"\S{1,20}", self.text[start : start + 20])
        line = self.line_of(start)
        return Fault(f"'{found[0] if found else ''}' begins no attribute and no group", self.file, line)
