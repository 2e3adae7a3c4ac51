"""Tables of text, with their columns aligned."""

from typing import NamedTuple


class Column(NamedTuple):
    heading: str
    right: bool = False  # numbers stand at the right


def lines_of(columns, rows):
    """The heading and the rows as lines."""
    rows = [tuple(column.heading for column in columns), *rows]
    widths = [max(map(len, cells)) for cells in zip(*rows)]
    for row in rows:
        yield "  ".join(cell.rjust(width) if column.right
                        else cell.ljust(width) for cell, width, column
                        in zip(row, widths, columns)).rstrip()
