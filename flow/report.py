#!/usr/bin/env python3
"""Prints a report of vginsert for people and for other programs, or two reports side by side.

    report.py REPORT [--format table|csv|json] [--sort file|slack|name] [--worst N] [--late] [--mode MODE] [-o FILE]
    report.py BEFORE AFTER [--changed] [the same options]

REPORT is what a mode printed: `time`, `sta`, `best`, `repair`, `width`, `frontier`, `total`, `wire` or `segment`. There
is one row for each net; of `frontier` and `total` one for each point, of `wire` one for each sink. Two reports may be
of different modes, as `time` before and `best` after. Their nets are joined by name: a net is new where only AFTER has
it, as the nets of new cells in mode `sta`, and gone where only BEFORE has it. There a frontier counts with its last
point, and mode `total` with the picks of its last point, which is the one that it writes.

`--worst N` keeps the N rows of the least slack, `--late` those with a negative slack; of two reports the slack after
counts for both, and that before where there is none after. `--changed` keeps those of two reports in which slack, cells
or state differ. `--sort file` keeps the order of the report, which is the
default; with `--worst` the default is `slack`. Rows without a slack come last. What is below the rows is always about
the whole report: the worst slack and its net, how many nets are late (negative slack) and the sum of their slacks, how
many are refused, have no placement (none) or have a sink of the wrong polarity, and the cells and their area. In mode
`sta` a net has the slack of the worst path through it, so one late path makes many nets late.

Tables have times in ps with 3 decimals, rounded to the nearest, halves away from 0. CSV and JSON have exact values, in
ps, fF and the library's unit of area: a column or key has its unit in its name. A JSON number has all its digits (1 zs
is 10^-9 ps); a program that reads numbers as floats sees the nearest one. CSV has the rows alone, JSON the whole report
(`summary`, or `before`, `after` and `change`) and the cells of each net (`placement`) as well.

`--mode MODE` says what the last report has to be: without it a report of `repair` that has lost its last line reads as
one of `best`. A line of no known form, a report that is cut off, and lines that contradict each other are errors with
file and line.
"""
from __future__ import annotations

import csv
import decimal
import io
import json

import common
import reports

# The columns by mode: (key, title, kind). A kind is `text`, `count`, or two numbers of decimal places: of the whole
# number that is kept, and in a table.
TEXT, COUNT = "text", "count"
PS, AREA, FF = (common.ZS_PLACES, 3), (common.AREA_PLACES, 3), (common.AF_PLACES, 3)
PLACEMENT = [("area", "area", AREA), ("cells", "cells", COUNT)]
NET, SLACK = ("net", "net", TEXT), ("slack_ps", "slack (ps)", PS)
STATE = [("state", "state", TEXT), ("reason", "reason", TEXT)]
COLUMNS = {
    "time": [NET, SLACK, ("polarity", "polarity", TEXT), ("wrong_at", "wrong at", TEXT), *STATE],
    "sta": [NET, SLACK, *STATE],
    "width": [NET, SLACK, *PLACEMENT, ("wide", "wide", COUNT), *STATE],
    "frontier": [NET, ("point", "point", COUNT), *PLACEMENT, SLACK, *STATE],
    "total": [("point", "point", COUNT), *PLACEMENT, SLACK, ("net", "worst net", TEXT), *STATE],
    "wire": [
        NET,
        ("capacitance_ff", "capacitance (fF)", FF),
        ("sink", "sink", TEXT),
        ("delay_ps", "delay (ps)", PS),
        *STATE,
    ],
    "segment": [NET, ("parts", "parts", COUNT), ("nodes", "nodes", COUNT), *STATE],
}
OTHER = [NET, SLACK, *PLACEMENT, *STATE]
COMPARISON = [
    NET,
    ("slack_before_ps", "before (ps)", PS),
    ("slack_after_ps", "after (ps)", PS),
    ("change_ps", "change (ps)", PS),
    ("area_before", "area before", AREA),
    ("area_after", "area", AREA),
    ("cells_before", "cells before", COUNT),
    ("cells_after", "cells", COUNT),
    ("state_before", "state before", TEXT),
    ("state_after", "state after", TEXT),
]
FACTS = [
    ("mode", "mode", TEXT),
    ("nets", "nets", COUNT),
    ("worst_slack_ps", "worst slack (ps)", PS),
    ("worst_net", "worst net", TEXT),
    ("end", "endpoint of the worst path", TEXT),
    ("late_nets", "late nets", COUNT),
    ("total_negative_slack_ps", "total negative slack (ps)", PS),
    ("met", "nets that meet the target", COUNT),
    ("short", "nets short of the target", COUNT),
    ("refused", "refused", COUNT),
    ("none", "none", COUNT),
    ("wrong_polarity", "wrong polarity", COUNT),
    ("cells", "cells", COUNT),
    ("area", "area", AREA),
    ("design_refused", "design refused", TEXT),
]
COMPARED = "worst_slack_ps late_nets total_negative_slack_ps refused none wrong_polarity cells area".split()


# ---- rows, as dictionaries: times in zs, areas in thousandths, capacitances in aF


def state(net):
    return "refused" if net.refused else "none" if net.none else "ok"


def net_row(net):
    row = {"net": net.name, "slack_ps": net.slack, "state": state(net), "reason": net.refused}
    row.update(polarity=net.polarity, wrong_at=net.wrong_at, parts=net.parts, nodes=net.nodes)
    if net.cost is not None:
        row.update(area=net.cost, cells=len(net.cells), wide=len(net.widths), placement=net.cells, widths=net.widths)
    return row


def point_row(name, number, point):
    row = {"net": name, "point": number, "area": point.cost, "slack_ps": point.slack, "state": "ok"}
    return {**row, "cells": len(point.cells), "placement": point.cells}


def frontier_rows(report):
    for net in report.nets:
        yield from [point_row(net.name, number, point) for number, point in enumerate(net.points, 1)] or [net_row(net)]


def total_rows(report):
    for number, point in enumerate(report.points, 1):
        worst = next(pick for pick in point.picks if pick.slack == point.slack)
        cells = sum(len(pick.cells) for pick in point.picks)
        row = {"point": number, "area": point.cost, "cells": cells, "slack_ps": point.slack, "net": worst.name}
        yield {**row, "state": "ok", "picks": point.picks}
    yield from map(net_row, report.nets)


def wire_rows(report):
    for net in report.nets:
        rows = [{"sink": node, "delay_ps": delay} for node, delay in net.sinks] or [{}]
        yield from ({**net_row(net), "capacitance_ff": net.capacitance, **row} for row in rows)


def rows_of(report):
    special = {"frontier": frontier_rows, "total": total_rows, "wire": wire_rows}.get(report.mode)
    return list(special(report) if special else map(net_row, report.nets))


def compared_rows(before, after):
    """A row for each net of two reports: in the order of the first, then those that only the second has."""
    old = {net.name: net for net in before.outcome()}
    new = {net.name: net for net in after.outcome()}
    names = [*old, *(name for name in new if name not in old)]
    return [compared_row(name, old.get(name), new.get(name)) for name in names]


def compared_row(name, old, new):
    row = {"net": name, "state_before": full_state(old, "new"), "state_after": full_state(new, "gone")}
    for net, side in [(old, "before"), (new, "after")]:
        if net and net.slack is not None:
            row[f"slack_{side}_ps"] = net.slack
        if net and net.cost is not None:
            row.update({f"area_{side}": net.cost, f"cells_{side}": len(net.cells)})
    if "slack_before_ps" in row and "slack_after_ps" in row:
        row["change_ps"] = row["slack_after_ps"] - row["slack_before_ps"]
    row["slack_ps"] = row.get("slack_after_ps", row.get("slack_before_ps"))
    return row


def full_state(net, absent):
    """A state with its reason: `new` and `gone` say that the other report alone has the net."""
    if net is None:
        return absent
    if net.wrong_at:
        return f"wrong polarity at {net.wrong_at}"
    return f"refused {net.refused}" if net.refused else state(net)


# ---- what is said of a whole report


def facts(report):
    nets = report.outcome()
    timed = [net for net in nets if net.slack is not None]
    placed = [net for net in nets if net.cost is not None]
    late = [net.slack for net in timed if net.slack < 0]
    worst = min(timed, key=lambda net: net.slack, default=None)
    found = {"mode": report.mode, "nets": len(nets)}
    if timed:
        found.update(worst_slack_ps=worst.slack, worst_net=worst.name)
        found.update(late_nets=len(late), total_negative_slack_ps=sum(late))
    if report.summary:
        found.update(met=report.summary.met, short=report.summary.short)
    found.update(refused=sum(net.refused is not None for net in nets), none=sum(net.none for net in nets))
    if report.mode == "time":
        found["wrong_polarity"] = sum(net.polarity == "wrong" for net in nets)
    if placed:
        found.update(cells=sum(len(net.cells) for net in placed), area=sum(net.cost for net in placed))
    if report.design:
        found.update(end=report.design.end, design_refused=report.design.refused)
    return found


def change(before, after):
    """The change of each number that both have."""
    return {key: after[key] - before[key] for key in COMPARED if key in before and key in after}


# ---- which rows, in which order


def chosen(rows, options):
    rows = [row for row in rows if not options.late or (row.get("slack_ps") is not None and row["slack_ps"] < 0)]
    rows = [row for row in rows if not options.changed or differs(row)]
    if options.worst is not None:
        timed = [row for row in rows if row.get("slack_ps") is not None]
        kept = {id(row) for row in sorted(timed, key=by_slack)[: options.worst]}
        rows = [row for row in rows if id(row) in kept]
    order = options.sort or ("file" if options.worst is None else "slack")
    return rows if order == "file" else sorted(rows, key=by_slack if order == "slack" else by_name)


def differs(row):
    """Whether the two sides of a row differ. A side without cells is as one with none."""
    cells = row.get("cells_before", 0) != row.get("cells_after", 0)
    return cells or row["state_before"] != row["state_after"] or row.get("change_ps", 0) != 0


def by_slack(row):
    slack = row.get("slack_ps")
    return (slack is None, slack or 0)


def by_name(row):
    return row.get("net", "")


# ---- the three formats


def exact(value, kind):
    """A value without loss: a text, a whole number, or a Decimal."""
    if value is None or not isinstance(kind, tuple):
        return value
    return decimal.Decimal(common.decimal_text(value, kind[0]))


def shown(value, kind):
    """A value in a table: a number with its 3 decimals, rounded to the nearest, halves away from 0."""
    if value is None or not isinstance(kind, tuple):
        return "" if value is None else str(value)
    places, kept = kind
    size = abs(common.rounded_off(value, places - kept))
    return f"{'-' if value < 0 else ''}{size // 10**kept}.{size % 10**kept:0{kept}}"


def grid(titles, rows, left):
    """Lines of aligned cells below their titles and a rule; `left` says which columns are aligned at the left."""
    rule = ["-" * max(map(len, column)) for column in zip(titles, *rows)]
    return common.aligned([titles, rule, *rows], left)


def table(rows, columns):
    """The rows as a table. Columns in which no row has a value are left out, as is a state that is `ok` in all rows."""
    used = [column for column in columns if any(row.get(column[0]) not in (None, "ok", "right") for row in rows)]
    lines = [[shown(row.get(key), kind) for key, _, kind in used] for row in rows]
    yield from grid([title for _, title, _ in used], lines, [kind == TEXT for _, _, kind in used])


def facts_table(sides):
    """What is said of a report, or of two and the change, one fact a line."""
    used = [fact for fact in FACTS if any(side.get(fact[0]) is not None for side in sides)]
    titles = ["whole report", ""] if len(sides) == 1 else ["whole report", "before", "after", "change"]
    lines = [[title, *(shown(side.get(key), kind) for side in sides)] for key, title, kind in used]
    yield from grid(titles, lines, [True] + [False] * len(sides))


def table_text(rows, columns, sides):
    if not rows:
        return "\n".join(["no row", "", *facts_table(sides)]) + "\n"
    return "\n".join([*table(rows, columns), "", *facts_table(sides)]) + "\n"


def csv_text(rows, columns):
    """The rows with all columns of the kind of report, so that the header does not depend on the values."""
    text = io.StringIO()
    writer = csv.writer(text, lineterminator="\n")
    writer.writerow([key for key, _, _ in columns])
    for row in rows:
        writer.writerow([plain(exact(row.get(key), kind)) for key, _, kind in columns])
    return text.getvalue()


def plain(value):
    """A value as text: a number with all its digits and without an exponent."""
    return "" if value is None else f"{value:f}" if isinstance(value, decimal.Decimal) else str(value)


def exact_row(row, columns):
    """A row for JSON: its values without loss, and the cells, widths and picks that it has."""
    found = {key: exact(row[key], kind) for key, _, kind in columns if row.get(key) is not None}
    if "placement" in row:
        found["placement"] = [{"node": node, "cell": cell} for node, cell in row["placement"]]
    if row.get("widths"):
        found["widths"] = [{"node": node, "width": width} for node, width in row["widths"]]
    if "picks" in row:
        found["picks"] = [exact_row(point_row(pick.name, None, pick), OTHER) for pick in row["picks"]]
    return found


def json_text(value, indent=""):
    """JSON in which a Decimal is written with all its digits. The elements of a list are one to a line."""
    if isinstance(value, decimal.Decimal):
        return plain(value)
    if isinstance(value, dict):
        items = (f"{json.dumps(key)}: {json_text(item, indent)}" for key, item in value.items())
        return "{" + ", ".join(items) + "}"
    if isinstance(value, list) and value:
        inner = indent + "  "
        return f"[\n{inner}" + f",\n{inner}".join(json_text(item, inner) for item in value) + f"\n{indent}]"
    return json.dumps(value)


def json_report(rows, columns, sides):
    names = ["summary"] if len(sides) == 1 else ["before", "after", "change"]
    summary = {name: exact_row(side, FACTS) for name, side in zip(names, sides)}
    return json_text({**summary, "rows": [exact_row(row, columns) for row in rows]}) + "\n"


def text_of(before, after, options):
    """The text that is printed of one report or of two."""
    if after is None:
        rows, columns, sides = rows_of(before), COLUMNS.get(before.mode, OTHER), [facts(before)]
    else:
        rows, columns = compared_rows(before, after), COMPARISON
        sides = [facts(before), facts(after)]
        sides.append(change(*sides))
    rows = chosen(rows, options)
    if options.format == "table":
        return table_text(rows, columns, sides)
    return csv_text(rows, columns) if options.format == "csv" else json_report(rows, columns, sides)


def positive(text):
    number = int(text)
    if number < 1:
        raise ValueError
    return number


def arguments(words):
    parser = common.parser(__doc__)
    parser.add_argument("report", metavar="REPORT", help="what a mode printed")
    parser.add_argument("after", metavar="AFTER", nargs="?", help="another report, to compare with")
    parser.add_argument("--format", choices=["table", "csv", "json"], default="table")
    parser.add_argument("--sort", choices=["file", "slack", "name"], help="the order of the rows")
    parser.add_argument("--worst", metavar="N", type=positive, help="keep the N rows of the least slack")
    parser.add_argument("--late", action="store_true", help="keep the rows with a negative slack")
    parser.add_argument("--changed", action="store_true", help="keep the rows in which two reports differ")
    parser.add_argument("--mode", choices=sorted(reports.MODES), help="the mode that the last report has to be of")
    parser.add_argument("-o", "--output", metavar="FILE", help="write to this file instead of standard output")
    options = parser.parse_args(words)
    if options.changed and options.after is None:
        parser.error("--changed needs two reports")
    return options


def main(words=None):
    options = arguments(words)
    before = reports.read(options.report, None if options.after else options.mode)
    after = reports.read(options.after, options.mode) if options.after else None
    for report in filter(None, [before, after]):
        if options.after and report.mode in ("wire", "segment"):
            raise common.Fault(f"a report of mode {report.mode} has no slacks to compare", report.file)
    text = text_of(before, after, options)
    common.put_text(text, options.output)


if __name__ == "__main__":
    common.run(main)
