"""Colours, amounts and the marks of an SVG.

The colours are those of Okabe and Ito, which the colour-blind can tell apart; parts of a bar differ in lightness besides.
"""
from __future__ import annotations

from xml.sax.saxutils import escape

WIDTH = 1200
MARGIN = 32
INNER = WIDTH - 2 * MARGIN

INK, QUIET, FAINT = '#1a1a1a', '#555555', '#d9d9d9'
OWN = '#E69F00'
SHADES = ['#005a8c', '#0072B2', '#3d93c7', '#7ab4da', '#aed1e9']
REST = '#dfedf6'
LINE = '#000000'
YES, NO = '#00785a', '#b34700'
YES_BACK, NO_BACK = '#e3f4ee', '#fcebdf'
LEFT, OVER = '#CC79A7', '#D55E00'

STYLE = f"""
text {{ font-family: 'DejaVu Sans', Verdana, 'Segoe UI', Helvetica, sans-serif; fill: {INK}; }}
.name {{ font-family: 'DejaVu Sans Mono', Menlo, Consolas, monospace; }}
.quiet, .quiet tspan {{ fill: {QUIET}; }}
.bold {{ font-weight: bold; }}
.end {{ text-anchor: end; }}
.middle {{ text-anchor: middle; }}
.price {{ stroke: {LINE}; stroke-width: 1.4; stroke-dasharray: 5 3; fill: none; }}
.rule {{ stroke: {FAINT}; stroke-width: 1; fill: none; }}
"""

POWERS = {0: '', 3: 'thousand ', 6: 'million ', 9: '10⁹ ', 12: '10¹² ', 15: '10¹⁵ ', 18: '10¹⁸ '}


class Units:
    """Writes amounts of stake, all in one unit that fits the price of a seat."""

    def __init__(self, price: int, name: str, decimals: int):
        digits = len(str(max(price, 1))) - 1 - decimals
        self.power = max(0, min(18, digits - digits % 3))
        self.decimals, self.places = decimals, max(0, 3 - (digits - self.power))
        self.places = min(self.places, decimals + self.power)
        self.scale = 10 ** (decimals + self.power)
        self.single, self.name = name, POWERS[self.power] + name

    def plain(self, amount: int) -> str:
        """An amount with as many decimals as all others."""
        steps = (amount * 10 ** self.places * 2 + self.scale) // (2 * self.scale)
        whole, rest = divmod(steps, 10 ** self.places)
        return f'{whole:,}' + (f'.{rest:0{self.places}d}' if self.places else '')

    def fine(self, amount: int) -> str:
        """An amount of a voter, which may be small: with at least two digits that tell."""
        tells = amount * 10 ** self.places >= 10 * self.scale
        return self.plain(amount) if tells or amount == 0 or self.scale == 1 else f'{amount / self.scale:.2g}'

    def exact(self, amount: int) -> str:
        """An amount with every unit of stake."""
        whole, rest = divmod(amount, 10 ** self.decimals)
        return f'{whole:,}' + (f'.{rest:0{self.decimals}d}' if self.decimals else '')

    def exact_named(self, amount: int) -> str:
        """An amount with every unit of stake, and the name of the unit."""
        return f'{self.exact(amount)} {self.single}'

    def named(self, amount: int) -> str:
        """An amount with its unit."""
        return f'{self.plain(amount)} {"× " if self.name.startswith("10") else ""}{self.name}'


def percent(part: int, whole: int) -> str:
    """A part of a whole in per cent."""
    return f'{100 * part / whole:,.1f} %' if whole else '-'


# ## Marks

def attributes(**values: object) -> str:
    """Attributes of an element; `kind` is its class, and other underscores are hyphens."""
    return ''.join(f' {"class" if key == "kind" else key.replace("_", "-")}="{escape(str(value), {chr(34): "&quot;"})}"'
                   for key, value in values.items() if value not in (None, ''))


def text(x: float, y: float, size: float, words: str, kind: str = '', tip: str = '') -> str:
    """A line of text, with a word that shows where a pointer rests on it."""
    said = escape(words) + (f'<title>{escape(tip)}</title>' if tip else '')
    return f'<text{attributes(x=round(x, 1), y=round(y, 1), font_size=size, kind=kind)}>{said}</text>'


def amount_text(x: float, y: float, size: float, words: str, unit: str) -> str:
    """A number with its unit in smaller letters behind it."""
    return (f'<text{attributes(x=round(x, 1), y=round(y, 1), font_size=size)}><tspan class="bold">{escape(words)}</tspan>'
            f'<tspan dx="4" font-size="{size * 0.55:g}" class="quiet">{escape(unit)}</tspan></text>')


def box(x: float, y: float, width: float, height: float, fill: str, tip: str = '', **more: object) -> str:
    """A filled box, with a word that shows where a pointer rests on it."""
    shape = attributes(x=round(x, 2), y=round(y, 2), width=round(max(width, 0), 2), height=round(height, 2), fill=fill, **more)
    return f'<rect{shape}><title>{escape(tip)}</title></rect>' if tip else f'<rect{shape}/>'


def path(steps: str, kind: str = '', **more: object) -> str:
    """A path."""
    return f'<path{attributes(d=steps, kind=kind, **more)}/>'


def nice_step(most: float, count: int) -> float:
    """A round step so that about so many of them reach the greatest value."""
    raw, power = max(most, 1e-9) / count, 1.0
    while power > raw:
        power /= 10
    while power * 10 <= raw:
        power *= 10
    return next(factor * power for factor in (1, 2, 2.5, 5, 10) if factor * power >= raw * 0.999)
