"""Who is outside and who is left over: lists of targets and of voters, one voter's nominations, and what changed."""
from __future__ import annotations

from typing import List, Sequence, Tuple

from canvas import Drawn, Page
from changes import Changes
from marks import FAINT, INNER, LEFT, MARGIN, OVER, box, path, percent, text
from scene import Sharer

NEAREST_ROWS = 12
SPLIT_ROWS = (5, 5)  # of voters that could have more, and of those that could not
ROW = 19

Ends = List[Tuple[float, str]]


def nearest_panel(page: Page, x: float, y: float, width: float) -> Drawn:
    """The targets outside that are nearest to a seat, with what their nominators have left beside the price."""
    price, rows = page.scene.price(), page.scene.outsiders[:NEAREST_ROWS]
    title = 'Nearest to a seat, outside'
    remark = f'what their nominators have left, {page.units.name}; at the price of a seat one would have a claim'
    if not page.scene.members:
        title, remark = 'Targets by the stake of their nominators', f'nobody is elected by this work; {page.units.name}'
    marks = [text(x, y + 14, 15, title, 'bold'), text(x, y + 32, 11.5, remark, 'quiet')]
    bar_x, bar_width, top = x + 106, width - 106 - 270, y + 58
    most = max([price] + [one.left for one in rows]) * 1.04
    ends = [(x + width - 206, 'left'), (x + width - 144, 'of price'), (x + width - 76, 'short of it'), (x + width, 'nominators')]
    marks += [text(end, top - 6, 11, word, 'quiet end') for end, word in ends]
    for i, one in enumerate(rows):
        at, left = top + i * ROW, f'{page.units.exact_named(one.left)} left of {page.units.exact_named(one.stake)}'
        tip = f'{page.naming.whole(one.account)}: {left}'
        missing = page.units.fine(price - one.left) if one.left < price else '-'
        marks += [text(x, at + 13, 12, page.naming.short(one.account), 'name', tip),
                  box(bar_x, at + 1, one.left / most * bar_width, ROW - 4, OVER if one.left >= price else LEFT, tip)]
        marks += cells(ends, [page.units.fine(one.left), percent(one.left, price), missing, f'{one.nominators:,}'], at)
    at = bar_x + price / most * bar_width
    marks += [path(f'M{at:.1f} {top - 3}v{len(rows) * ROW + 3}', 'price'), text(at, top - 6, 11, 'price', 'bold middle')]
    if not rows:
        marks.append(text(x, top + 13, 12, 'All targets are members.', 'quiet'))
    return marks, top + max(1, len(rows)) * ROW


def cells(ends: Ends, values: Sequence[str], y: float) -> List[str]:
    """The numbers of a row, each before its end; the amounts are dark."""
    return [text(end, y + 13, 12, value, 'end' if word in ('stake', 'left') else 'quiet end') for (end, word), value in zip(ends, values)]


def least_panel(page: Page, x: float, y: float, width: float) -> Drawn:
    """The voters that have the most stake left, which pays for no seat: those that could have more, and those that could not."""
    short = [one for one in page.scene.voters if one.members < one.votes]
    served = [one for one in page.scene.voters if one.members == one.votes]
    ends = [(x + 190, 'stake'), (x + 270, 'nominees'), (x + 345, 'members'), (x + 425, 'left'), (x + width, 'of stake')]
    marks = [text(x, y + 14, 15, 'Least represented voters', 'bold'),
             text(x, y + 32, 11.5, f'how much of their stake pays for no seat, {page.units.name}, the most first', 'quiet')]
    marks += [text(end, y + 52, 11, word, 'quiet end') for end, word in ends]
    at = y + 58
    lists = [(short, SPLIT_ROWS[0], 'of those with a nominee outside', 'Nobody has a nominee outside.'),
             (served, SPLIT_ROWS[1], 'of those whose nominees are all elected: no committee gives them more',
              'Nobody has all nominees elected.')]
    for voters, count, title, nobody in lists:
        marks.append(text(x, at + 13, 11.5, f'{len(voters):,} {title}' if voters else nobody, 'bold'))
        at += ROW
        for one in voters[:count]:
            marks.append(text(x, at + 13, 12, page.naming.short(one.account), 'name', page.naming.whole(one.account)))
            marks += cells(ends, [page.units.fine(one.stake), f'{one.votes}', f'{one.members}', page.units.fine(one.left),
                                  percent(one.left, one.stake)], at)
            at += ROW
    return marks, at


def panels(page: Page, y: float) -> Drawn:
    """The two lists side by side."""
    width = (INNER - 40) / 2
    outside, first = nearest_panel(page, MARGIN, y, width)
    least, second = least_panel(page, MARGIN + width + 40, y, width)
    return outside + least, max(first, second) + 30


# ## One voter

def voter_panel(page: Page, voter: Sharer, y: float) -> Drawn:
    """What became of one voter's nominations: what it gives to each, and how each of them stands."""
    units = page.units
    spent = sum(page.scene.edges.get((voter.position, target), 0) for target in page.scene.bundle.voters[voter.position].votes)
    marks = [text(MARGIN + 14, y + 26, 15, f'Voter {page.naming.short(voter.account)}', 'bold'),
             text(MARGIN + 14, y + 45, 12, f'stake {units.fine(voter.stake)} {units.name} · {voter.members} of {voter.votes} nominees '
                  f'are members · gives {units.fine(spent)} {units.name} · {units.fine(voter.left)} {units.name} pays for no seat '
                  f'({percent(voter.left, voter.stake)})', 'quiet')]
    lines, rows = nominee_lines(page, voter), -(-voter.votes // 2)
    for i, (account, standing, amount) in enumerate(lines):
        x, at = MARGIN + 14 + i // rows * INNER / 2, y + 68 + i % rows * ROW
        marks += [text(x, at, 12, page.naming.short(account), 'name', page.naming.whole(account)), text(x + 104, at, 12, standing),
                  text(x + INNER / 2 - 44, at, 12, amount, 'end')]
    height = 68 + rows * ROW
    frame = box(MARGIN, y, INNER, height, '#f6f6f6', rx=6, stroke=FAINT)
    return [frame, *marks], y + height + 24


def nominee_lines(page: Page, voter: Sharer) -> List[Tuple[bytes, str, str]]:
    """Account, standing and amount of each nominee of a voter: members by falling amounts, then the others."""
    units, price = page.units, page.scene.price()
    ranks = {member.position: (rank, member) for rank, member in enumerate(page.scene.members, 1)}
    outside = {one.position: one for one in page.scene.outsiders}
    given = {target: page.scene.edges.get((voter.position, target), 0)
             for target in page.scene.bundle.voters[voter.position].votes}
    lines = []
    for target in sorted(given, key=lambda target: (target not in ranks, -given[target], target)):
        account = page.scene.bundle.targets[target]
        if target in ranks:
            rank, member = ranks[target]
            lines.append((account, f'member {rank} of {len(ranks)}, support {units.plain(member.support)} '
                          f'({percent(member.support, price)} of the price)', f'gets {units.fine(given[target])}'))
        else:
            left = outside[target].left
            lines.append((account, f'outside, {units.plain(left)} left ({percent(left, price)} of the price)', '-'))
    return lines


# ## What changed

CHANGED_NAMES = 8


def changes_panel(page: Page, changes: Changes, y: float) -> Drawn:
    """What changed against the election before: the key numbers, and who came and who went."""
    facts = change_facts(page, changes)
    came, went = came_lines(page, changes), went_lines(page, changes)
    marks = [text(MARGIN + 14, y + 26, 15, 'Against the election before', 'bold')]
    marks += [text(MARGIN + 14, y + 48 + i * 18, 12, fact, 'quiet') for i, fact in enumerate(facts)]
    top = y + 48 + len(facts) * 18 + 10
    half = INNER / 2
    for x, title, lines in ((MARGIN + 14, f'{len(changes.came):,} came', came), (MARGIN + 14 + half, f'{len(changes.went):,} went', went)):
        marks.append(text(x, top, 12, title, 'bold'))
        for i, (name, words) in enumerate(lines):
            marks += [text(x, top + 19 + i * ROW, 12, name, 'name'), text(x + 104, top + 19 + i * ROW, 12, words)]
    height = top - y + 8 + max(len(came), len(went), 1) * ROW
    return [box(MARGIN, y, INNER, height, '#f6f6f6', rx=6, stroke=FAINT), *marks], y + height + 24


def change_facts(page: Page, changes: Changes) -> List[str]:
    """The key numbers of both elections."""
    named, scene = page.units.named, page.scene
    price = (f'price of a seat {named(changes.price)} before, {named(scene.price())} now · least support {named(changes.score[0])} '
             f'before, {named(scene.score[0])} now')
    total = (f'{changes.seats:,} seats before, {scene.bundle.seats:,} now · {changes.voters:,} voters before, '
             f'{len(scene.bundle.voters):,} now · stake {named(changes.total)} before, {named(scene.bundle.total())} now')
    stayed = f'{changes.stayed:,} members stayed'
    if changes.greatest is not None:
        account, old, new = changes.greatest
        stayed += (f'; of them the support of {page.naming.short(account)} changed most, from {named(old)} to {named(new)}')
    return [price, total, stayed]


def came_lines(page: Page, changes: Changes) -> List[Tuple[str, str]]:
    """Who is a member now and was none."""
    lines = [(page.naming.short(one.account), f'{page.units.named(one.support)}, {"outside" if one.was_target else "no target"} before')
             for one in changes.came[:CHANGED_NAMES]]
    return lines + more(len(changes.came))


def went_lines(page: Page, changes: Changes) -> List[Tuple[str, str]]:
    """Who was a member and is none now."""
    lines = []
    for one in changes.went[:CHANGED_NAMES]:
        now = 'no target now' if one.left is None else f'its nominators have {page.units.named(one.left)} left now'
        lines.append((page.naming.short(one.account), f'{page.units.named(one.support)} before, {now}'))
    return lines + more(len(changes.went))


def more(count: int) -> List[Tuple[str, str]]:
    """A line on those for whom there is no room."""
    return [(f'{count - CHANGED_NAMES:,} more', '')] if count > CHANGED_NAMES else []
