# SPDX-FileCopyrightText: 2026 The PPVM Authors
# SPDX-License-Identifier: Apache-2.0
"""Tables for IPython and Jupyter: each is cut where it is long, and says how much more there is."""
import html
from collections.abc import Iterable, Iterator, Sequence
from itertools import islice
from typing import Any, NamedTuple

# How many rows of a table are shown.
SHOWN = 20

Row = Sequence[str]


class Table(NamedTuple):
    """The names of the columns, the rows, of which only those that are shown are made, and how many there
    are."""

    header: Row
    rows: Iterable[Row]
    length: int

    def shown(self) -> tuple[list[Row], str]:
        """The rows that are shown, and how many more there are, in words."""
        more = self.length - SHOWN
        return list(islice(self.rows, SHOWN)), f".. and {more} more" if more > 0 else ""


class Shown:
    """What shows itself as tables: _shown_tables gives them, and repr is the title."""

    def _shown_tables(self) -> Iterable[Table]:
        raise NotImplementedError

    def _repr_html_(self) -> str:
        return "\n".join([f"<p>{html.escape(repr(self))}</p>", *map(_html, self._shown_tables())])

    def _repr_pretty_(self, printer: Any, cycle: bool) -> None:
        printer.text(repr(self))
        for table in self._shown_tables():
            for line in _text(table):
                printer.break_()
                printer.text(line)

    def __init_subclass__(cls) -> None:
        # IPython takes a class' own __repr__ before what it inherits.
        super().__init_subclass__()
        setattr(cls, "_repr_pretty_", Shown._repr_pretty_)


def _html(table: Table) -> str:
    rows, more = table.shown()
    lines = ["<table>", f"<tr>{_cells('th', table.header)}</tr>"]
    lines += [f"<tr>{_cells('td', row)}</tr>" for row in rows]
    if more:
        lines.append(f'<tr><td colspan="{len(table.header)}">{more}</td></tr>')
    return "\n".join([*lines, "</table>"])


def _cells(tag: str, cells: Row) -> str:
    return "".join(f'<{tag} style="text-align: left">{html.escape(cell)}</{tag}>' for cell in cells)


def _text(table: Table) -> Iterator[str]:
    rows, more = table.shown()
    every = [table.header, *rows]
    widths = [max(map(len, column)) for column in zip(*every)]
    for row in every:
        yield "  " + "  ".join(f"{cell:{width}}" for cell, width in zip(row, widths)).rstrip()
    if more:
        yield "  " + more
