"""Reports as HTML for notebooks."""
from __future__ import annotations

from collections.abc import Iterable, Sequence
from html import escape

WIDTH, HEIGHT, MOST_POINTS = 160, 24, 160


def html_of(rows: Iterable[tuple[str, str, list[int] | None]]) -> str:
    """A table of names and answers; an array has a line drawn beside it."""
    body = ''.join(f'<tr><th style="text-align:left">{escape(name)}</th><td style="text-align:left">{escape(words)}'
                   f'{line_of(values) if values else ""}</td></tr>' for name, words, values in rows)
    return f'<table><tbody>{body}</tbody></table>'


def line_of(values: Sequence[int]) -> str:
    """The values as a line, in a small picture of SVG."""
    shown = thinned(values)
    low, high = min(shown), max(shown)
    step = (WIDTH - 2) / max(len(shown) - 1, 1)
    span = max(high - low, 1)
    points = ' '.join(f'{1 + place * step:.1f},{1 + (HEIGHT - 2) * (high - value) / span:.1f}' for place, value in enumerate(shown))
    return (f' <svg width="{WIDTH}" height="{HEIGHT}" role="img" aria-label="from {low} to {high}">'
            f'<polyline points="{points}" fill="none" stroke="currentColor"/></svg>')


def thinned(values: Sequence[int]) -> Sequence[int]:
    """At most MOST_POINTS values: of each of several parts of equal length the least and the greatest one, in their order."""
    if len(values) <= MOST_POINTS:
        return values
    parts = MOST_POINTS // 2
    found: list[int] = []
    for part in range(parts):
        piece = values[part * len(values) // parts:(part + 1) * len(values) // parts]
        least, greatest = min(piece), max(piece)
        found += [least, greatest] if piece.index(least) <= piece.index(greatest) else [greatest, least]
    return found
