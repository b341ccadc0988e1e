"""A page that holds the picture, and tables of all members, targets outside and voters with their whole accounts.

On a narrow screen the picture stays away, and what it says stands in a head of its own and in bars beside the rows.
"""
from __future__ import annotations

from html import escape
from typing import List, NamedTuple, Optional, Sequence

from accounts import Naming
from canvas import Page, scale_of
from changes import Changes
from drawing import FEET, facts_of, headline_of, key_numbers_of
from marks import LEFT, NO, NO_BACK, QUIET, SHADES, YES, YES_BACK, Units, percent
from panels import nominee_lines
from scene import Scene, Sharer

MOST_ROWS = 1000  # of a table

STYLE = f"""
body {{ font-family: 'DejaVu Sans', Verdana, sans-serif; margin: 1rem auto; max-width: 1240px; padding: 0 8px; color: #1a1a1a;
  background: #fff; }}
figure {{ margin: 0; }}
svg {{ max-width: 100%; height: auto; }}
table {{ border-collapse: collapse; font-size: 13px; margin: 0 0 2rem; }}
caption {{ text-align: left; font-weight: bold; font-size: 15px; padding: .5rem 0; overflow-wrap: anywhere; }}
th, td {{ padding: 2px 10px; text-align: right; border-bottom: 1px solid #e5e5e5; }}
td:nth-child(2), th:nth-child(2) {{ text-align: left; font-family: 'DejaVu Sans Mono', monospace; }}
td:nth-child(2) b {{ display: block; font-family: 'DejaVu Sans', Verdana, sans-serif; }}
h2 {{ font-size: 15px; }}
pre {{ font-size: 12px; white-space: pre-wrap; overflow-wrap: anywhere; }}
header {{ display: none; }}
i.bar {{ display: none; }}
@media (max-width: 760px) {{
  figure {{ display: none; }}
  header {{ display: block; font-size: 15px; line-height: 1.45; }}
  header h1 {{ font-size: 20px; margin: .4rem 0; }}
  header .verdict {{ padding: 8px 12px; border-left: 6px solid; border-radius: 4px; }}
  header .yes {{ background: {YES_BACK}; border-color: {YES}; }}
  header .no {{ background: {NO_BACK}; border-color: {NO}; }}
  header dl {{ display: grid; grid-template-columns: 1fr 1fr; gap: 10px 14px; margin: 14px 0; }}
  header dt {{ color: {QUIET}; font-size: 13px; }}
  header dd {{ margin: 0; font-size: 17px; font-weight: bold; }}
  header dd small {{ display: block; font-size: 12px; font-weight: normal; color: {QUIET}; }}
  table, tbody, tr, td, caption {{ display: block; }}
  thead {{ display: none; }}
  tr {{ padding: 8px 0; border-bottom: 1px solid #ccc; content-visibility: auto; contain-intrinsic-size: auto 130px; }}
  td {{ border: 0; padding: 1px 0; display: flex; justify-content: space-between; gap: 10px; font-size: 14px; }}
  td::before {{ color: {QUIET}; white-space: nowrap; }}
  td:nth-child(2) {{ display: block; overflow-wrap: anywhere; font-size: 13px; }}
  i.bar {{ display: block; height: 8px; margin: 3px 0; min-width: 1px; }}
}}
"""

Row = Sequence[object]


class Account(NamedTuple):
    """An account in a row, with its name, and a bar behind it that narrow screens show."""
    name: str
    text: str
    part: float = 0
    colour: str = ''

    def markup(self) -> str:
        """How it stands in a cell."""
        name = f'<b>{escape(self.name)}</b>' if self.name else ''
        bar = f'<i class="bar" style="width:{min(self.part, 1):.1%};background:{self.colour}"></i>' if self.colour else ''
        return f'{name}{self.text}{bar}'

    def __str__(self) -> str:
        return f'{self.text} {self.name}'.rstrip()


class Table(NamedTuple):
    """A table, whose second column holds accounts; its kind names it for the labels that narrow screens show."""
    kind: str
    caption: str
    heads: Sequence[str]
    rows: Sequence[Row]

    def markup(self) -> str:
        """The table, or nothing where it has no rows."""
        if not self.rows:
            return ''
        lines = [f'<table class="{self.kind}"><caption>{escape(self.caption)}</caption><thead><tr>'
                 + ''.join(f'<th scope="col">{escape(name)}</th>' for name in self.heads) + '</tr></thead><tbody>']
        lines += ['<tr>' + ''.join(f'<td>{cell.markup() if isinstance(cell, Account) else escape(str(cell))}</td>' for cell in row)
                  + '</tr>' for row in self.rows[:MOST_ROWS]]
        return '\n'.join(lines) + '\n</tbody></table>\n' + self.rest()

    def rest(self) -> str:
        """The rows that are too many for a browser to lay out as a table: a line each, in which a search finds them all the same."""
        rows = self.rows[MOST_ROWS:]
        if not rows:
            return ''
        lines = [escape(' · '.join([str(row[1]), *(f'{name} {cell}' for name, cell in zip(self.heads, row) if cell is not row[1])]))
                 for row in rows]
        return f'<h2>{escape(self.caption)}: {len(rows):,} more</h2><pre>' + '\n'.join(lines) + '</pre>\n'

    def labels(self) -> str:
        """The labels that narrow screens show before the cells, but for the account."""
        return ''.join(f'  .{self.kind} td:nth-child({i})::before {{ content: "{name}"; }}\n'
                       for i, name in enumerate(self.heads, 1) if i != 2)


def account_cell(naming: Naming, account: bytes, part: float = 0, colour: str = '') -> Account:
    """An account with its name, and a bar where a colour is given."""
    return Account(naming.name(account), naming.full(account), part, colour)


def header(scene: Scene, naming: Naming, units: Units, title: str) -> str:
    """What the picture says first, for narrow screens."""
    headline = headline_of(scene, naming, units)
    kind = 'yes' if scene.verdict == (0,) else 'no'
    numbers = ''.join(f'<div><dt>{escape(one.name)}</dt><dd>{escape(one.value)} <small>{escape(one.unit)}</small><small>'
                      f'{escape(one.remark)}</small></dd></div>' for one in key_numbers_of(scene, units))
    return (f'<header><h1>{escape(title)}</h1><p>{escape(facts_of(scene, units))}</p><div class="verdict {kind}"><b>'
            f'{"✓" if kind == "yes" else "✗"} {escape(headline.words)}</b><p>{escape(headline.sentence)}</p></div><dl>{numbers}</dl>'
            f'<p><small>{escape(FEET[0])}</small></p></header>\n')


def change_tables(changes: Changes, naming: Naming, units: Units) -> List[Table]:
    """Who came and who went."""
    came: List[Row] = [(i, account_cell(naming, one.account), units.exact(one.support), 'outside' if one.was_target else 'no target')
                       for i, one in enumerate(changes.came, 1)]
    went: List[Row] = [(i, account_cell(naming, one.account), units.exact(one.support),
                        'no target' if one.left is None else units.exact(one.left)) for i, one in enumerate(changes.went, 1)]
    return [Table('came', f'Came since the election before, {units.single}', ['number', 'account', 'support', 'before'], came),
            Table('went', f'Went since the election before, {units.single}', ['number', 'account', 'support before', 'left now'], went)]


def tables_of(scene: Scene, naming: Naming, units: Units) -> List[Table]:
    """All members, all targets outside, and all voters: those with a nominee outside, and those that could not have more."""
    price, most, unit = scene.price(), scale_of(scene), units.single
    members: List[Row] = [
        (rank, account_cell(naming, one.account, one.support / most, SHADES[1]), units.exact(one.support), percent(one.support, price),
         units.exact(one.own), f'{one.backers():,}') for rank, one in enumerate(scene.members, 1)]
    outside: List[Row] = [
        (one.position, account_cell(naming, one.account, one.left / max(price, 1), LEFT), units.exact(one.left), percent(one.left, price),
         units.exact(max(price - one.left, 0)), f'{one.nominators:,}', units.exact(one.stake)) for one in scene.outsiders]
    voters = [((one.position, account_cell(naming, one.account), units.exact(one.stake), one.votes, one.members, units.exact(one.left),
                percent(one.left, one.stake)), one.members == one.votes) for one in scene.voters]
    heads = ['voter', 'account', 'stake', 'nominees', 'members', 'left', 'of the stake']
    return [Table('members', f'Members by support, {unit}',
                  ['rank', 'account', 'support', 'of the price', 'own stake', 'backers'], members),
            Table('outside', f'Targets outside, the nearest to a seat first, {unit}',
                  ['target', 'account', 'left', 'of the price', 'short of it', 'nominators', 'their stake'], outside),
            Table('short', f'Voters with a nominee outside, the least represented first, {unit}', heads,
                  [row for row, is_served in voters if not is_served]),
            Table('served', f'Voters whose nominees are all elected, {unit}', heads, [row for row, is_served in voters if is_served])]


def voter_table(scene: Scene, naming: Naming, units: Units, voter: Sharer) -> Table:
    """What became of one voter's nominations."""
    lines = nominee_lines(Page(scene, units, naming, scale_of(scene)), voter)
    rows: List[Row] = [(i, account_cell(naming, account), standing, amount)
                       for i, (account, standing, amount) in enumerate(lines, 1)]
    return Table('nominees', f'The nominees of {naming.whole(voter.account)}, {units.name}',
                 ['number', 'account', 'standing', 'amount'], rows)


def html(scene: Scene, naming: Naming, units: Units, title: str, drawn: str, voter: Optional[Sharer] = None,
         changes: Optional[Changes] = None) -> str:
    """The page. It has no script, and asks for nothing from elsewhere."""
    tables = [voter_table(scene, naming, units, voter)] if voter else []
    tables += (change_tables(changes, naming, units) if changes else []) + tables_of(scene, naming, units)
    style = STYLE + '@media (max-width: 760px) {\n' + ''.join(one.labels() for one in tables) + '}\n'
    return (f'<!DOCTYPE html>\n<html lang="en"><head><meta charset="utf-8"><meta name="viewport" content="width=device-width, '
            f'initial-scale=1"><title>{escape(title)}</title><style>{style}</style></head><body>\n{header(scene, naming, units, title)}'
            f'<figure>{drawn}</figure>\n' + ''.join(one.markup() for one in tables) + '</body></html>\n')
