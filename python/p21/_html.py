"""Tables for a notebook."""

import html
from typing import Iterable, Optional, Sequence


def row(cells: Sequence[object], tag: str) -> str:
    """A row of a table."""
    texts = ("" if cell is None else html.escape(str(cell)) for cell in cells)
    style = ' style="text-align: left; vertical-align: top; white-space: pre-wrap"'
    return "<tr>" + "".join(f"<{tag}{style}>{text}</{tag}>" for text in texts) + "</tr>"


def table(head: Optional[Sequence[object]], rows: Iterable[Sequence[object]]) -> str:
    """A table, with a row of titles where there are any."""
    first = row(head, "th") if head else ""
    return f"<table>{first}{''.join(row(cells, 'td') for cells in rows)}</table>"
