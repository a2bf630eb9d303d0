"""Tables of a desk: plain rows, a DataFrame where pandas is installed, and HTML. Beside the proved core; nothing here is proved."""
import html
import importlib
from typing import Any, Dict, List, Sequence

BESIDE = "Beside the proved core: the prices are the engine's, with its bounds; what is worked out from them is not proved."


class Table(List[Dict[str, Any]]):
    """Rows as dicts of one set of columns, in the columns' order. Nothing in a column of prices per 100 is shown with their decimals."""

    def __init__(self, columns: Sequence[str], rows: Sequence[Sequence[Any]], prices: Sequence[str] = ()) -> None:
        super().__init__(dict(zip(columns, row)) for row in rows)
        self.columns, self.prices = list(columns), prices

    def _cells(self, row: Dict[str, Any]) -> List[str]:
        return [text(value, name in self.prices) for name, value in row.items()]

    def __str__(self) -> str:
        lines = [self.columns, *map(self._cells, self)]
        widths = [max(len(line[place]) for line in lines) for place in range(len(self.columns))]
        return "\n".join("  ".join(cell.rjust(width) for cell, width in zip(line, widths)).rstrip() for line in lines)

    def _repr_html_(self) -> str:
        heads = "".join(f"<th>{html.escape(name)}</th>" for name in self.columns)
        lines = ("".join(f"<td>{html.escape(cell)}</td>" for cell in self._cells(row)) for row in self)
        return f"<table><thead><tr>{heads}</tr></thead><tbody>{''.join(f'<tr>{line}</tr>' for line in lines)}</tbody></table>"


def text(value: Any, is_price: bool = False) -> str:
    """A cell: nothing for None, and a number in plain digits, of which a price has seven decimals."""
    if value is None:
        return ""
    if is_price:
        return f"{value:.7f}"
    return f"{value:f}" if hasattr(value, "as_tuple") else str(value)


class Tabled:
    """What has rows: they may be had as plain rows, as a DataFrame and as HTML."""

    def rows(self) -> Table:
        """The rows, each a dict."""
        raise NotImplementedError

    def table(self) -> Any:
        """A pandas DataFrame where pandas is installed, the plain rows where not."""
        return framed(self.rows())

    def _repr_html_(self) -> str:
        picture = self._repr_svg_() if hasattr(self, "_repr_svg_") else ""
        return f"<div><pre>{html.escape(str(self))}</pre>{picture}{self.rows()._repr_html_()}<p><small>{html.escape(BESIDE)}</small></p></div>"


def framed(rows: Table) -> Any:
    """The rows as a DataFrame, or as they are without pandas."""
    try:
        pandas = importlib.import_module("pandas")
    except ImportError:
        return rows
    return pandas.DataFrame(list(rows), columns=rows.columns)
