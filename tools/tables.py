"""Tables of names, counts, times, ratios and parts, for the tools beside this file: as text for people, and as CSV and
JSON for programs."""

import argparse
import csv
import decimal
import io
import json
import re

from tool import Fault, within

FORMATS = ("text", "csv", "json")
UNITS = {"us": 1, "ms": 1_000, "s": 1_000_000}
MOMENT, GREATEST_MOMENT = re.compile(r"([0-9]+(?:\.[0-9]+)?)(us|ms|s)?"), 10**15


def digits(value):
    """A number with three significant digits, and all digits before the point."""
    size = abs(value)
    return f"{value:.0f}" if size >= 99.95 else f"{value:.1f}" if size >= 9.995 else f"{value:.2f}"


def human(time):
    """Microseconds with the unit that fits."""
    size = abs(time)
    if size >= 999_500:
        return digits(time / 1_000_000) + "s"
    return digits(time / 1_000) + "ms" if size >= 999.5 else f"{time:.0f}us"


def in_unit(time, unit):
    """Microseconds as a number of a unit, exactly."""
    return round(time) if unit == "us" else round(time) / UNITS[unit]


def moment(word):
    """A moment in microseconds, with its unit or without."""
    found = MOMENT.fullmatch(word)
    time = round(decimal.Decimal(found[1]) * UNITS[found[2] or "us"]) if found else GREATEST_MOMENT + 1
    if time > GREATEST_MOMENT:
        raise argparse.ArgumentTypeError(f"{word!r} is not a moment, as 2.5s, 2500ms or 2500000")
    return time


class Column:
    """A column: its values in text, and in CSV and JSON. A value that is not known is None. A `key` is the name in CSV
    and JSON, where that is another."""

    is_name = False

    def __init__(self, name, key=None):
        self.name, self.own_key = name, key or name.replace("-", "_")

    def shown(self, value, units):
        return str(value)

    def plain(self, value, units):
        return value

    def key(self, units):
        """The name of the column in CSV and JSON, with its unit."""
        return self.own_key


class Name(Column):
    is_name = True


class Time(Column):
    """Microseconds."""

    def shown(self, value, units):
        return str(in_unit(value, units)) if units else human(value)

    def plain(self, value, units):
        return in_unit(value, units or "us")

    def key(self, units):
        return f"{self.own_key}_{units or 'us'}"


class Ratio(Column):
    def shown(self, value, units):
        return digits(value)

    def plain(self, value, units):
        return round(value, 3)


class Part(Column):
    """A part of 1, in text by a hundred."""

    def shown(self, value, units):
        return f"{100 * value:.1f}%"

    def plain(self, value, units):
        return round(value, 5)


class Table:
    """Rows of values, one for each column."""

    def __init__(self, name, columns, rows):
        self.name, self.columns, self.rows = name, columns, [list(row) for row in rows]

    def text(self, units):
        """The columns of names to the left, the others to the right."""
        cells = [[column.name for column in self.columns]]
        for row in self.rows:
            cells.append(["-" if it is None else column.shown(it, units) for column, it in zip(self.columns, row)])
        widths = [max(map(len, column)) for column in zip(*cells)]
        return "".join("  ".join(map(aligned, self.columns, row, widths)).rstrip() + "\n" for row in cells)

    def keys(self, units):
        return [column.key(units) for column in self.columns]

    def plain(self, units):
        for row in self.rows:
            yield [None if it is None else column.plain(it, units) for column, it in zip(self.columns, row)]

    def csv(self, units):
        text = io.StringIO()
        writer = csv.writer(text, lineterminator="\n")
        writer.writerow(self.keys(units))
        writer.writerows(self.plain(units))
        return text.getvalue()


def aligned(column, cell, width):
    return cell.ljust(width) if column.is_name else cell.rjust(width)


def add_words(words, tables=(), default=None):
    """The options for the tables that are written, and for their format."""
    if tables:
        words.add_argument(
            "--tables",
            type=lambda it: it.split(","),
            default=[default],
            metavar="NAME,..",
            help=f"which are written, of {', '.join(tables)}; or all (default: {default})",
        )
    words.add_argument(
        "--most", type=within(1, 10**6), metavar="N", help="write the first N rows of a table (default: all)"
    )
    words.add_argument("--format", choices=FORMATS, default="text", help="how tables are written (default: text)")
    words.add_argument(
        "--units",
        choices=UNITS,
        help="that of all times (default: in text the one that fits each, in CSV and JSON microseconds)",
    )


def chosen(parser, given, tables):
    """The names of the tables that are asked for."""
    names = list(tables) if given.tables == ["all"] else given.tables
    for name in names:
        if name not in tables:
            parser.error(f"argument --tables: {name!r} is none of {', '.join(tables)}")
    if given.format == "csv" and len(names) > 1:
        parser.error("CSV has one table: name it by --tables")
    return names


def written(tables, given):
    """The text of tables in the format that is asked for."""
    for table in tables:
        table.rows = table.rows[: given.most]
    if given.format == "text":
        return "\n".join(table.text(given.units) for table in tables)
    if given.format == "csv":
        return "".join(table.csv(given.units) for table in tables)
    told = {it.name: [dict(zip(it.keys(given.units), row)) for row in it.plain(given.units)] for it in tables}
    return json.dumps(told, indent=2) + "\n"


def expect_names(asked, names, what, where):
    """Refuses names that are asked for and are not there."""
    for name in asked:
        if name not in names:
            raise Fault(f"{where}: there is no {what} {name}")
