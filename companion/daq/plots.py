"""Draws a result with matplotlib: how the intervals of each item narrow, or where those of groups and rows lie."""
from __future__ import annotations

from fractions import Fraction
from typing import Any, Optional, Sequence

from .bars import is_sure
from .result import Result, Row, key_text
from .values import is_number


def plot(result: Result, axes: Optional[Sequence[Any]] = None) -> list[Any]:
    """One axes for each item that has numbers or days, which is given or made; items share no scale."""
    whole = bool(result.block.ranking or result.query.groups)
    by_item: dict[str, list[Row]] = {}
    for row in filter(_is_drawable, result.rows if whole else result.history()):
        by_item.setdefault(row.item, []).append(row)
    if not by_item:
        raise ValueError("there is no number and no day to draw")
    if axes is None:
        from matplotlib import pyplot

        axes = pyplot.subplots(len(by_item), squeeze=False, figsize=(7, 3 * len(by_item)), layout="constrained")[1][:, 0]
    for area, (item, rows) in zip(axes, by_item.items()):
        (_draw_last if whole else _draw_rounds)(area, rows)
        area.set_title(item, fontsize="medium")
    return [*axes]


def _is_drawable(row: Row) -> bool:
    return row.low is not None and not isinstance(row.low, str)


def _end(value: Any) -> Any:
    """An end as matplotlib takes it: numbers as floats, days as they are."""
    return float(Fraction(value)) if is_number(value) else value


def _draw_rounds(area: Any, rows: Sequence[Row]) -> None:
    """A band between the ends, with lines that show where it is thinner than a dot."""
    planes, lows, highs = [row.round for row in rows], [_end(row.low) for row in rows], [_end(row.high) for row in rows]
    area.fill_between(planes, lows, highs, step="post", alpha=0.5)
    for ends in (lows, highs):
        area.step(planes, ends, where="post", color="C0", linewidth=1.5)
    area.set_xlabel("planes read")


def _draw_last(area: Any, rows: Sequence[Row]) -> None:
    """A line for each group or row: lighter where it may turn out not to belong, with a mark at its ends, which may be one."""
    for place, row in enumerate(rows):
        area.plot([_end(row.low), _end(row.high)], [place, place], "|-", color="C0", linewidth=4, alpha=1 if is_sure(row) else 0.4)
    area.set_yticks(range(len(rows)))
    area.set_yticklabels([" ".join(map(key_text, row.keys)) for row in rows])
    area.invert_yaxis()
