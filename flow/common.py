"""What the scripts of this folder share: faults with a file and a line, numbers in whole units, files and tables.

Resistances are whole mΩ, capacitances whole aF, times whole zs (1 ps = 10^9 zs) and areas thousandths, as in vginsert
itself: a resistance times a capacitance is a time, without rounding.
"""
from __future__ import annotations

import argparse
import os
import re
import sys

ZS_PER_PS, AF_PER_FF, MOHM_PER_OHM = 10**9, 10**3, 10**3
ZS_PLACES, AF_PLACES, MOHM_PLACES, AREA_PLACES = 9, 3, 3, 3  # of a number in ps, fF, ohms or units of area
GREATEST = 10**15  # the greatest number that vginsert reads, in whole units
GREATEST_SIGNED = 10**23  # the greatest size of one that may be negative
NUMBER = re.compile(r"([+-]?)(?=\.?[0-9])([0-9]*)(?:\.([0-9]*))?(?:[eE]([+-]?[0-9]+))?", re.ASCII)


# ---- faults


class Fault(Exception):
    """What is wrong with an input: the reason, and the file and the line where they are known."""

    def __init__(self, reason, file=None, line=None):
        super().__init__(reason)
        self.reason, self.file, self.line = reason, file, line

    def __str__(self):
        place = "" if self.file is None else f"{self.file}: " if self.line is None else f"{self.file}:{self.line}: "
        return place + self.reason


class NumberFault(Fault):
    """A text that is not the number that it has to be. `kind` is a word of docs/FORMATS.md (Numbers)."""

    def __init__(self, kind, reason, file, line):
        super().__init__(reason, file, line)
        self.kind = kind  # Form, Negative or TooLarge


def run(main):
    """Runs the main function of a script. A fault is printed on standard error, and the status is then 1."""
    try:
        main()
        sys.stdout.flush()
    except Fault as fault:
        print(f"{os.path.basename(sys.argv[0])}: {fault}", file=sys.stderr)
        sys.exit(1)
    except BrokenPipeError:
        os.dup2(os.open(os.devnull, os.O_WRONLY), 1)
        sys.exit(1)


def parser(text):
    """A parser of options without abbreviations. The text, that of the head of a script, is what `--help` prints."""
    return argparse.ArgumentParser(
        description=text, formatter_class=argparse.RawDescriptionHelpFormatter, allow_abbrev=False
    )


# ---- numbers


def whole(text, places, file=None, line=None):
    """The number that a text writes, times 10 to the power of `places`, to the nearest whole one, halves away from 0.

    It is exact. A number that is negative or over 10^15 is a fault, as for vginsert.
    """
    negative, size = _read_number(text, places, file, line)
    if negative:
        raise NumberFault("Negative", f"the number {text} is negative", file, line)
    if size > GREATEST:
        raise NumberFault("TooLarge", f"the number {text} is too large", file, line)
    return size


def signed(text, places, file=None, line=None):
    """As `whole`, of a number that may be negative, up to 10^23 in size."""
    negative, size = _read_number(text, places, file, line)
    if size > GREATEST_SIGNED:
        raise NumberFault("TooLarge", f"the number {text} is too large", file, line)
    return -size if negative else size


def _read_number(text, places, file, line):
    """Whether a number is below 0, and its size in whole units."""
    match = NUMBER.fullmatch(text)
    if match is None:
        raise NumberFault("Form", f"'{text}' is not a number", file, line)
    sign, head, fraction, exponent = match.groups(default="")
    digits = (head + fraction).lstrip("0")
    return sign == "-" and digits != "", _rounded(digits, _exponent(exponent) - len(fraction) + places)


def _exponent(text):
    """An exponent. One of more than 15 digits is cut: no digits of a file make up for it."""
    size = int(text.lstrip("+-").lstrip("0")[:15] or "0")
    return -size if text.startswith("-") else size


def _rounded(digits, shift):
    """Digits that begin with no 0, as a number, times 10 to the power of `shift`, rounded; no more than 10^30."""
    count = len(digits) + shift  # how many digits are before the point
    if not digits or count < 0:
        return 0
    if count > 30:
        return 10**30
    padded = digits.ljust(count + 1, "0")
    return int(padded[:count] or "0") + (padded[count] >= "5")


def rounded_off(number, places):
    """A whole number without its last digits, so many as `places` says: to the nearest, halves away from 0."""
    size = (abs(number) * 2 // 10**places + 1) // 2
    return -size if number < 0 else size


def decimal_text(number, places):
    """A whole number as text, which is read as `number` at so many places: 1234 at 3 places is 1.234."""
    sign, digits = "-" if number < 0 else "", str(abs(number)).rjust(places + 1, "0")
    head, fraction = (digits[:-places], digits[-places:].rstrip("0")) if places else (digits, "")
    return sign + head + ("." + fraction if fraction else "")


# ---- files and tables


def read_text(path):
    """The text of a file. Bytes that are no UTF-8 come through as they are."""
    try:
        with open(path, encoding="utf-8", errors="surrogateescape", newline="") as file:
            return file.read()
    except OSError as error:
        raise Fault(error.strerror, path) from error


def write_text(path, text):
    """Writes a file: whole, by way of a draft beside it. What is no regular file, as a pipe, is written in place."""
    target = os.path.realpath(path)
    in_place = path.startswith(("/dev/", "/proc/")) or (os.path.exists(target) and not os.path.isfile(target))
    draft = path if in_place else f"{target}.draft"
    try:
        with open(draft, "w", encoding="utf-8", errors="surrogateescape", newline="") as file:
            file.write(text)
        if not in_place:
            os.replace(draft, target)
    except OSError as error:
        raise Fault(error.strerror, path) from error


def put_text(text, path=None):
    """Writes a text to a file, or to standard output where no file is given."""
    if path is not None:
        write_text(path, text)
        return
    sys.stdout.reconfigure(encoding="utf-8", errors="surrogateescape")
    print(text, end="")


def aligned(rows, left):
    """Rows of texts as lines with aligned columns; `left` says of each column whether it is aligned at the left."""
    widths = [max(map(len, column)) for column in zip(*rows)]
    for row in rows:
        cells = (cell.ljust(width) if at_left else cell.rjust(width) for cell, width, at_left in zip(row, widths, left))
        yield "  ".join(cells).rstrip()
