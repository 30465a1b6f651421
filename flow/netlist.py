"""Reads what flow/eco.py needs of a netlist: `read(path) -> Module`, the instances of one flat module and their nets.

The grammar is that of docs/FORMATS.md (Syntax of a netlist): pins by name, one module, no parameters. All else is a
`common.Fault` with the file and the line. Connections are kept as texts; ranges and directions are not checked.
"""
from __future__ import annotations

import bisect
import re
from dataclasses import dataclass, field
from typing import NamedTuple

import common

SKIPPED = r"(?:[ \t\r\n\f\v]+|//[^\n]*|/\*.*?\*/|\(\*.*?\*\))*"  # blanks, comments and attributes
TOKEN = re.compile(
    SKIPPED + r"(?:(?P<name>[A-Za-z_][A-Za-z0-9_$]*)"
    r"|(?P<escaped>\\[!-~]+)"
    r"|(?P<number>[0-9]*'s?[bodhBODH][0-9a-fxz?_]+|[0-9]+)"
    r"|(?P<sign>[()\[\]{},;:.=#])"
    r"|(?P<directive>`[^\n]*)"
    r"|(?P<end>\Z))",
    re.DOTALL,
)
SIMPLE = re.compile("[A-Za-z_][A-Za-z0-9_$]*")
DECLARATIONS = {"input", "output", "inout", "wire", "tri", "supply0", "supply1", "assign"}
RESERVED = DECLARATIONS | {"module", "endmodule", "parameter", "defparam"}
ITEM_WORDS = {"input", "output", "inout", "wire"}  # these may follow the first word of a heading or a declaration


class NetName(NamedTuple):
    """A net: an identifier, without the backslash of an escaped one, and the number of a bit of a vector."""

    identifier: str
    bit: int | None = None

    def __str__(self):
        """The canonical name, as in reports and SPEF files."""
        return self.identifier if self.bit is None else f"{self.identifier}[{self.bit}]"


@dataclass
class Instance:
    """An instance: its pins are on a net, on nothing (None), or on several nets or a constant (a text)."""

    name: str
    cell: str
    line: int
    pins: dict[str, NetName | str | None] = field(default_factory=dict)


class Item(NamedTuple):
    """The heading of the module, a declaration or an assignment, with its words."""

    words: tuple[str, ...]
    line: int


@dataclass
class Module:
    file: str
    instances: dict[str, Instance] = field(default_factory=dict)
    items: list[Item] = field(default_factory=list)


def read(path) -> Module:
    return Parser(common.read_text(path), path).module()


class Parser:
    def __init__(self, text, file):
        self.file = file
        self.ends = [match.start() for match in re.finditer("\n", text)]
        self.tokens = list(self.split(text))
        self.at = 0

    def fault(self, reason, place):
        return common.Fault(reason, self.file, self.line(place))

    def line(self, place):
        return bisect.bisect_left(self.ends, place) + 1

    def split(self, text):
        """The tokens: kind, text and place. An escaped name is without its backslash, and of a kind of its own."""
        place = 0
        while True:
            match = TOKEN.match(text, place)
            if not match:
                place = re.compile(SKIPPED, re.DOTALL).match(text, place).end()
                raise self.fault(f"'{text[place]}' begins no token", place)
            kind = match.lastgroup
            word, start, place = match.group(kind), match.start(kind), match.end()
            if kind == "escaped":
                word = word[1:]
            elif kind == "directive":
                if text[text.rfind("\n", 0, start) + 1 : start].strip():
                    raise self.fault("a directive is not alone on its line", start)
                continue
            if kind == "end":
                yield kind, word, len(text.rstrip())
                return
            yield kind, word, start

    def peek(self):
        return self.tokens[self.at][1] if self.tokens[self.at][0] != "escaped" else ""

    def stray(self):
        _, word, place = self.tokens[self.at]
        return self.fault(f"'{word}' is not expected here" if word else "the text ends too early", place)

    def take(self, word):
        if self.peek() != word:
            raise self.stray()
        self.at += 1

    def name(self):
        kind, word, _ = self.tokens[self.at]
        if kind != "escaped" and (kind != "name" or word in RESERVED):
            raise self.stray()
        self.at += 1
        return word

    def here(self):
        return self.line(self.tokens[self.at][2])

    def module(self):
        module = Module(self.file)
        if self.peek() != "module":
            raise self.stray()
        module.items.append(self.item())
        while self.peek() != "endmodule":
            if self.peek() in DECLARATIONS:
                module.items.append(self.item())
            else:
                self.instances(module)
        self.at += 1
        if self.tokens[self.at][0] != "end":
            raise self.fault("there is text after the module", self.tokens[self.at][2])
        return module

    def item(self):
        """The words up to the next semicolon. An escaped name is told from a word of the language by its backslash."""
        line, words = self.here(), []
        while self.peek() != ";":
            kind, word, _ = self.tokens[self.at]
            late = kind == "name" and words and word in RESERVED - ITEM_WORDS
            if kind == "end" or (kind == "sign" and word in "#.") or late:
                raise self.stray()
            words.append(f"\\{word}" if kind == "escaped" and not SIMPLE.fullmatch(word) else word)
            self.at += 1
        self.at += 1
        return Item(tuple(words), line)

    def instances(self, module):
        cell = self.name()
        while True:
            line, place = self.here(), self.tokens[self.at][2]
            instance = Instance(self.name(), cell, line)
            if instance.name in module.instances:
                raise self.fault(f"a second instance '{instance.name}'", place)
            module.instances[instance.name] = instance
            self.pins(instance)
            if self.peek() != ",":
                break
            self.at += 1
        self.take(";")

    def pins(self, instance):
        self.take("(")
        while self.peek() != ")":
            if instance.pins:
                self.take(",")
            if self.peek() != ".":
                raise self.fault("a connection without the name of its pin", self.tokens[self.at][2])
            self.at += 1
            place, pin = self.tokens[self.at][2], self.name()
            if pin in instance.pins:
                raise self.fault(f"a second pin '{pin}'", place)
            instance.pins[pin] = self.connection()
        self.at += 1

    def connection(self):
        """What is in the brackets: a net, nothing, or another expression as a text."""
        self.take("(")
        first = self.at
        while self.peek() != ")":
            kind, word, _ = self.tokens[self.at]
            if kind == "end" or (kind == "sign" and word not in "[]{},:") or (kind == "name" and word in RESERVED):
                raise self.stray()
            self.at += 1
        tokens = self.tokens[first : self.at]
        self.at += 1
        return net_of(tokens)


def net_of(tokens):
    kinds, words = [kind for kind, _, _ in tokens], [word for _, word, _ in tokens]
    if not tokens:
        return None
    named = kinds[0] in ("name", "escaped")
    if named and len(tokens) == 1:
        return NetName(words[0])
    if named and kinds[1:] == ["sign", "number", "sign"] and words[1] == "[" and words[3] == "]" and words[2].isdigit():
        return NetName(words[0], int(words[2]))
    return " ".join(words)
