"""Draws an election as one SVG: the verdict, key numbers, members by support, targets outside, and who is left over."""
from __future__ import annotations

import textwrap
from typing import List, NamedTuple, Optional
from xml.sax.saxutils import escape

from accounts import Naming
from bars import LEGEND, legend, member_list, overview, overview_legend
from canvas import Drawn, Page, scale_of
from changes import Changes
from marks import INNER, MARGIN, NO, NO_BACK, STYLE, WIDTH, YES, YES_BACK, Units, amount_text, box, path, percent, text
from panels import changes_panel, panels, voter_panel
from scene import Scene, Sharer
from verdicts import verdict_words


# ## The head

class Headline(NamedTuple):
    """The verdict in words: a headline, what it means, and how far the strongest target outside is from a seat."""
    words: str
    sentence: str


def headline_of(scene: Scene, naming: Naming, units: Units) -> Headline:
    """The verdict in words."""
    words, sentence = verdict_words(scene.bundle, scene.verdict, scene.claim, naming, units.named)
    return Headline(f'{words} (verdict {" ".join(map(str, scene.verdict))})', f'{sentence} {margin_words(scene, naming, units)}'.strip())


def margin_words(scene: Scene, naming: Naming, units: Units) -> str:
    """How far the strongest target outside is from a seat's price."""
    if not scene.outsiders or not scene.members or scene.verdict != (0,):
        return ''
    best = scene.outsiders[0]
    return (f'The strongest target outside, {naming.short(best.account)}, has {units.named(best.left)} left with its nominators; a '
            f'claim to a seat begins at {units.named(scene.price())}.')


def facts_of(scene: Scene, units: Units) -> str:
    """How large the election is."""
    bundle = scene.bundle
    return (f'{bundle.seats:,} seats · {len(bundle.targets):,} targets · {len(bundle.voters):,} voters · {scene.origin} · amounts in '
            f'{units.name}')


def head(page: Page, title: str, y: float) -> Drawn:
    """The title and the verdict in words."""
    is_yes = page.scene.verdict == (0,)
    headline = headline_of(page.scene, page.naming, page.units)
    lines = textwrap.wrap(headline.sentence, 148)
    height = 46 + 19 * len(lines)
    colour = YES if is_yes else NO
    marks = [text(MARGIN, y + 22, 22, title, 'bold'), text(MARGIN, y + 45, 13, facts_of(page.scene, page.units), 'quiet'),
             box(MARGIN, y + 60, INNER, height, YES_BACK if is_yes else NO_BACK, rx=6),
             box(MARGIN, y + 60, 6, height, colour, rx=2), sign(MARGIN + 34, y + 60 + 26, is_yes, colour),
             text(MARGIN + 58, y + 60 + 32, 18, headline.words, 'bold')]
    marks += [text(MARGIN + 58, y + 60 + 54 + 19 * i, 13, line) for i, line in enumerate(lines)]
    return marks, y + 60 + height + 20


def sign(x: float, y: float, is_yes: bool, colour: str) -> str:
    """A tick or a cross, so that the verdict does not hang on a colour."""
    steps = f'M{x - 9} {y}l6 8l12 -15' if is_yes else f'M{x - 8} {y - 8}l16 16m0 -16l-16 16'
    return path(steps, fill='none', stroke=colour, stroke_width=4, stroke_linecap='round', stroke_linejoin='round')


class KeyNumber(NamedTuple):
    """A number that is looked for first: its name, the number with its unit, and a remark."""
    name: str
    value: str
    unit: str
    remark: str


def key_numbers_of(scene: Scene, units: Units) -> List[KeyNumber]:
    """The numbers that are looked for first."""
    price, unheard, total = scene.price(), scene.unheard(), scene.bundle.total()
    found = [KeyNumber('Price of a seat', units.plain(price), units.name, f'of {units.named(total)}')]
    if scene.members:
        least, greatest = scene.members[-1], scene.members[0]
        found += [KeyNumber('Least support', units.plain(least.support), units.name, f'{percent(least.support, price)} of the price'),
                  KeyNumber('Greatest support', units.plain(greatest.support), units.name,
                            f'{percent(greatest.support, price)} of the price'),
                  KeyNumber('Behind members', percent(scene.score[1], total), 'of the stake', units.named(scene.score[1]))]
    if scene.outsiders:
        best = scene.outsiders[0]
        found.append(KeyNumber('Strongest outside', units.plain(best.left), units.name, f'left: {percent(best.left, price)} of the price'))
    stake = sum(voter.stake for voter in unheard)
    return found + [KeyNumber('Nominate no member', f'{len(unheard):,}', 'voters', f'{percent(stake, total)} of the stake')]


def key_numbers(page: Page, y: float) -> Drawn:
    """The numbers that are looked for first, side by side."""
    found = key_numbers_of(page.scene, page.units)
    marks, width = [], INNER / len(found)
    for i, one in enumerate(found):
        x = MARGIN + i * width
        marks += [text(x, y + 12, 12, one.name, 'quiet'), amount_text(x, y + 37, 20, one.value, one.unit),
                  text(x, y + 55, 11.5, one.remark, 'quiet')]
    return marks, y + 86


# ## The whole

def members_part(page: Page, y: float) -> Drawn:
    """The members, and the two lists before or behind them: a long list of members comes last."""
    count = len(page.scene.members)
    if count == 0:
        return panels(page, y)
    title = 'Members by support' if count <= 40 else f'All {count:,} members by support'
    if count <= 40:
        first = [text(MARGIN, y + 14, 15, title, 'bold'), *legend(page, y + 13, LEGEND)]
        bars, y = member_list(page, y + 24)
        lists, y = panels(page, y)
        return first + bars + lists, y
    shape = [text(MARGIN, y + 14, 15, 'Supports at a glance', 'bold'), *overview_legend(y + 13, WIDTH - MARGIN - 430)]
    columns, y = overview(page, y + 36)
    lists, y = panels(page, y)
    second = [text(MARGIN, y + 14, 15, title, 'bold'), *legend(page, y + 13, LEGEND)]
    bars, y = member_list(page, y + 26)
    return shape + columns + lists + second + bars, y


FEET = ['Price of a seat: the whole stake by the seats, rounded down. Support beyond it pays for nothing, and counts as left.',
        "Drawn by tools/picture; the verdict is that of npos. Colours: Okabe and Ito's, which the colour-blind can tell."]


def svg(scene: Scene, naming: Naming, units: Units, title: str, voter: Optional[Sharer] = None,
        changes: Optional[Changes] = None) -> str:
    """The picture, with what became of one voter's nominations where one is given, and with what changed where that is."""
    page = Page(scene, units, naming, scale_of(scene))
    marks, y = head(page, title, 24)
    numbers, y = key_numbers(page, y)
    marks += numbers
    for part in ([lambda at: voter_panel(page, voter, at)] if voter else []) + \
            ([lambda at: changes_panel(page, changes, at)] if changes else []):
        drawn, y = part(y)
        marks += drawn
    body, y = members_part(page, y)
    marks += [*body, *(text(MARGIN, y + 6 + 16 * i, 11, foot, 'quiet') for i, foot in enumerate(FEET))]
    headline = headline_of(scene, naming, units)
    height = round(y + 42)
    size = f'viewBox="0 0 {WIDTH} {height}" width="{WIDTH}" height="{height}"'
    return (f'<svg xmlns="http://www.w3.org/2000/svg" {size} role="img" '
            f'aria-labelledby="title about"><title id="title">{escape(title)}</title>'
            f'<desc id="about">{escape(f"{headline.words}. {headline.sentence}")}</desc><style>{STYLE}</style>'
            f'<rect width="{WIDTH}" height="{height}" fill="#ffffff"/>\n' + '\n'.join(marks) + '\n</svg>\n')
