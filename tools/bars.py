"""The members of an election by falling support: a row with a bar for each, and a shape of all where they are many."""
from __future__ import annotations

from typing import List, NamedTuple, Tuple

from canvas import Drawn, Page
from marks import INNER, MARGIN, OWN, REST, SHADES, WIDTH, box, nice_step, path, percent, text
from scene import Member

GAP = 26         # between columns
LEGEND = WIDTH - MARGIN - 550  # where the legend of a list begins
LETTER = 0.64    # how wide a digit is, in sizes of its letters
NAME = 13 * 0.61


class Columns(NamedTuple):
    """How the list of members is laid out: columns, height of a row, size of letters, and how many parts a bar shows."""
    number: int
    row: float
    size: float
    parts: int


class Places(NamedTuple):
    """Where the parts of a row stand: the end of the rank, the name, the bar and its width, and the ends of three numbers."""
    rank: float
    name: float
    bar: float
    width: float
    support: float
    part: float
    backers: float

    def moved(self, by: float) -> 'Places':
        """The same in a column that stands so far to the right."""
        return self._replace(**{name: value + by for name, value in self._asdict().items() if name != 'width'})


def columns_for(members: int) -> Columns:
    """A layout in which so many members can be read."""
    if members <= 40:
        return Columns(1, 19, 12, 24)
    if members <= 120:
        return Columns(2, 16, 11, 12)
    return Columns(3, 13, 9.5, 6)


def places(page: Page, width: float, layout: Columns) -> Places:
    """Where the parts of a row of the first column stand, by how long the longest of each is."""
    members = page.scene.members
    letter, air = layout.size * LETTER, layout.size * (1.2 if layout.number < 3 else 0.9)
    ranks = letter * len(str(len(members)))
    supports = letter * len(page.units.plain(members[0].support))
    parts = letter * max(len(part_words(page, members[0], layout)), 7 if layout.number < 3 else 4)
    backers = letter * max(6, *(len(f'{member.backers():,}') for member in members))
    name, end = MARGIN + ranks + air / 2, MARGIN + width
    bar_at = name + NAME * layout.size + air / 2
    part = end - backers - air
    support = part - parts - air
    return Places(MARGIN + ranks, name, bar_at, support - supports - air - bar_at, support, part, end)


def part_words(page: Page, member: Member, layout: Columns) -> str:
    """A support as a part of the price, shorter where there is little room."""
    price = page.scene.price()
    return percent(member.support, price) if layout.number < 3 or not price else f'{100 * member.support / price:,.0f} %'


def bar(page: Page, member: Member, x: float, y: float, width: float, layout: Columns) -> List[str]:
    """The bar of a member: its own part, the greatest backers in falling shades, and all smaller ones together."""
    marks, height, at = [], layout.row - 4, x
    for amount, fill, tip in pieces(page, member, width, layout):
        length = min(page.along(amount, width), x + width - at)
        marks.append(box(at, y, length - (0.7 if length > 2 else 0), height, fill, tip))
        at += length
    end = min(page.along(member.support, width), width)
    marks.append(path(f'M{x} {y:.1f}h{end:.2f}v{height}h{-end:.2f}', fill='none', stroke=SHADES[1], stroke_width=0.5))
    return marks + (broken(x + width - 11, y, height) if member.support > page.most else [])


def pieces(page: Page, member: Member, width: float, layout: Columns) -> List[Tuple[int, str, str]]:
    """The parts of a bar: amount, colour, and what shows where a pointer rests on it."""
    exact = page.units.exact_named
    found = [(member.own, OWN, f'its own stake: {exact(member.own)}')] if member.own else []
    shown = [part for part in member.parts[:layout.parts] if page.along(part[1], width) >= 2]
    for i, (voter, amount) in enumerate(shown):
        shade = SHADES[min(i * len(SHADES) // max(len(shown), 5), len(SHADES) - 1)]
        found.append((amount, shade, f'{page.voter_name(voter)} gives {exact(amount)}'))
    rest = member.parts[len(shown):]
    if rest:
        amount = sum(part[1] for part in rest)
        found.append((amount, REST, f'{len(rest):,} more backers give {exact(amount)}'))
    return found


def broken(x: float, y: float, height: float) -> List[str]:
    """Two slanted gaps in a bar that goes on beyond the scale."""
    return [path(f'M{x + step:.1f} {y + height + 1:.1f}l4 {-height - 2:.1f}', stroke='#ffffff', stroke_width=2.4, fill='none')
            for step in (0, 5)]


def row(page: Page, rank: int, member: Member, at: Places, y: float, layout: Columns) -> List[str]:
    """One member: its rank, its name, its bar, its support, that as a part of the price, and how many back it."""
    size, base = layout.size, y + layout.row - (6 if layout.number < 3 else 4.6)
    tip = f'{page.naming.whole(member.account)}: {page.units.exact_named(member.support)} of {member.backers():,} backers'
    return [text(at.rank, base, size, str(rank), 'quiet end'),
            text(at.name, base, size, page.naming.short(member.account), 'name', tip),
            *bar(page, member, at.bar, y, at.width, layout),
            text(at.support, base, size, page.units.plain(member.support), 'end'),
            text(at.part, base, size, part_words(page, member, layout), 'quiet end'),
            text(at.backers, base, size, f'{member.backers():,}', 'quiet end')]


def member_list(page: Page, y: float) -> Drawn:
    """All members by falling support, in as many columns as they need, with the price of a seat as a line."""
    members, layout = page.scene.members, columns_for(len(page.scene.members))
    width = (INNER - GAP * (layout.number - 1)) / layout.number
    rows, first = -(-len(members) // layout.number), places(page, width, layout)
    marks, top = [], y + 34
    for column in range(layout.number):
        at = first.moved(column * (width + GAP))
        chosen = members[column * rows:(column + 1) * rows]
        marks += column_frame(page, at, top, len(chosen) * layout.row, layout)
        for i, member in enumerate(chosen):
            marks += row(page, column * rows + i + 1, member, at, top + i * layout.row, layout)
        marks.append(price_line(page, at, top, len(chosen) * layout.row))
    return marks, top + rows * layout.row + 26


def column_frame(page: Page, at: Places, y: float, height: float, layout: Columns) -> List[str]:
    """The scale over a column, and what its numbers are."""
    marks, size = [], min(layout.size, 11)
    step = nice_step(page.most / page.units.scale, max(2, int(at.width / 70)))
    value = 0.0
    price = at.bar + page.along(page.scene.price(), at.width)
    word = 'price of a seat' if layout.number <= 2 else 'price'
    while value * page.units.scale <= page.most:
        tick, shown = at.bar + page.along(int(value * page.units.scale), at.width), f'{value:,g}'
        marks.append(path(f'M{tick:.1f} {y - 3}v{height + 3:.1f}', 'rule'))
        if abs(tick - price) > size * (len(word) + len(shown)) * 0.34 + 4 and tick + size * len(shown) * 0.34 < at.bar + at.width + 4:
            marks.append(text(tick, y - 6, size, shown, 'quiet middle'))
        value += step
    marks.append(text(price, y - 6, size, word, 'bold middle'))
    unit = page.units.name
    return marks + [text(at.support, y - 18, size, f'support, {unit}', 'quiet end'),
                    text(at.part, y - 18, size, 'of', 'quiet end'), text(at.part, y - 6, size, 'price', 'quiet end'),
                    text(at.backers, y - 6, size, 'backers', 'quiet end')]


def price_line(page: Page, at: Places, y: float, height: float) -> str:
    """The price of a seat, across the bars of a column."""
    return path(f'M{at.bar + page.along(page.scene.price(), at.width):.1f} {y - 3}v{height + 3:.1f}', 'price')


def legend(page: Page, y: float, x: float) -> List[str]:
    """What the colours of a bar say."""
    marks = [box(x, y - 10, 12, 11, OWN), text(x + 17, y, 11.5, 'its own stake', 'quiet')]
    marks += [box(x + 118 + 13 * i, y - 10, 12, 11, shade) for i, shade in enumerate(SHADES)]
    marks.append(text(x + 188, y, 11.5, 'single backers, the greatest first', 'quiet'))
    marks += [box(x + 408, y - 10, 12, 11, REST, stroke=SHADES[1], stroke_width=0.5),
              text(x + 425, y, 11.5, 'all smaller backers', 'quiet')]
    beyond = page.beyond()
    if not beyond:
        return marks
    word = f'{beyond:,} greater than the scale: the number tells' if beyond > 1 else 'one greater than the scale: the number tells'
    cut = [box(x - 300, y - 10, 26, 11, SHADES[1]), *broken(x - 300 + 8, y - 10, 11), text(x - 268, y, 11.5, word, 'quiet')]
    return cut + marks


# ## The shape of many members

def overview(page: Page, y: float) -> Drawn:
    """One thin column a member, by falling support: how even the supports are, and how much of them is whose."""
    members, height, left = page.scene.members, 150, 70
    width, step = INNER - left, (INNER - left) / len(page.scene.members)
    x, base = MARGIN + left, y + 10 + 150
    layers = [(REST, [member.support for member in members]),
              (SHADES[1], [member.own + sum(amount for _, amount in member.parts[:5]) for member in members]),
              (OWN, [member.own for member in members])]
    marks = []
    for value in axis_values(page, 4):
        at = base - page.along(value, height)
        marks += [path(f'M{x} {at:.1f}h{width}', 'rule'),
                  text(x - 6, at + 4, 11, f'{value / page.units.scale:,g}', 'quiet end')]
    for fill, heights in layers:
        steps = f'M{x} {base}' + ''.join(f'V{base - min(page.along(value, height), height + 6):.1f}h{step:.2f}' for value in heights)
        marks.append(path(f'{steps}V{base}Z', fill=fill))
    if page.beyond():
        marks.append(path(f'M{x} {base - height - 1:.1f}h{page.beyond() * step:.1f}', stroke='#ffffff', stroke_width=2.4, fill='none'))
    at = base - page.along(page.scene.price(), height)
    marks += [path(f'M{x} {at:.1f}h{width}', 'price'), text(x + width, at - 5, 11, 'price of a seat', 'bold end'),
              text(MARGIN, y - 2, 11, f'support, {page.units.name}', 'quiet')]
    every = next(size for size in (50, 100, 200) if len(members) / size <= 12)
    for rank in sorted({1, *range(every, len(members) + 1, every)}):
        marks.append(text(x + (rank - 0.5) * step, base + 15, 11, f'{rank:,}', 'quiet middle'))
    return marks, base + 40


def axis_values(page: Page, count: int) -> List[int]:
    """Round amounts from nothing to the greatest of the scale."""
    step = nice_step(page.most / page.units.scale, count)
    return [int(step * i * page.units.scale) for i in range(int(page.most / page.units.scale / step) + 1)]


def overview_legend(y: float, x: float) -> List[str]:
    """What the colours of the overview say."""
    return [box(x, y - 10, 12, 11, OWN), text(x + 17, y, 11.5, 'own stake', 'quiet'),
            box(x + 96, y - 10, 12, 11, SHADES[1]), text(x + 113, y, 11.5, 'five greatest other backers', 'quiet'),
            box(x + 296, y - 10, 12, 11, REST, stroke=SHADES[1], stroke_width=0.5),
            text(x + 313, y, 11.5, 'all smaller backers', 'quiet')]
