"""Who was elected and by whom, as the pallets of elections store it: a ReadySolution, and the pages of the verifier's queue.

    QueuedSolution          ReadySolution { supports, score: three u128, compute: u8 }
    QueuedSolutionX and Y   (round u32, page u32): supports of one page
    QueuedValidVariant      (round u32): which of both holds, X or Y
    QueuedSolutionScore     (round u32): the score
    supports                Vec<(AccountId32, { total: u128, voters: Vec<(AccountId32, u128)> })>
"""
from __future__ import annotations

from typing import Dict, List, NamedTuple, Optional, Sequence, Tuple

import answers
from bundle import Score
from scale import BadInput, Reader
from snapshots import MOST_LISTED, pages_of, whole
from solutions import Asked, read_whole, take_score

Backer = Tuple[bytes, int]
COMPUTED = ['by the chain itself', 'a signed one', 'an unsigned one', 'the fallback', 'an emergency one']
VARIANTS = 'XY'


class Backed(NamedTuple):
    """Somebody elected: the support that is told, and who gives how much of it."""
    account: bytes
    total: int
    backers: List[Backer]


class Elected(NamedTuple):
    """All who were elected, the score that is told of them, if one is, and what has to be said of where they come from."""
    members: List[Backed]
    score: Optional[Score]
    words: List[str]


def take_supports(reader: Reader) -> List[Backed]:
    """The supports that stand next."""
    def backer() -> Backer:
        return reader.take(32), reader.fixed(16)

    return reader.many(MOST_LISTED, lambda: Backed(reader.take(32), reader.fixed(16), reader.many(MOST_LISTED, backer)))


def ready_solution_of(data: bytes, asked: Asked) -> Elected:
    """The supports of a ReadySolution."""
    what = 'the ready solution'
    spelt = answers.value_of(data, what, 'QueuedSolution', asked.pallet)

    def take(reader: Reader) -> Elected:
        supports, score = take_supports(reader), take_score(reader)
        return Elected(supports, score, [f'the solution is {COMPUTED[reader.tag(len(COMPUTED))]}'])

    return read_whole(spelt, what, take)


def queued_supports_of(files: Sequence[bytes], asked: Asked, pages: int, variant: Optional[str]) -> Elected:
    """The supports of a verifier's queue, whose pages are joined: those of the variant that holds."""
    what = 'the queue'
    got = answers.joined(files, what)
    score = None
    if isinstance(got, list):
        spelt = pages_of(got, 'QueuedSolutionX', pages, None, None, 'pages of the queue')
    else:
        spelt, score = keyed_pages(got, asked, pages, variant)
    members: Dict[bytes, Backed] = {}
    for page, data in enumerate(spelt):
        for one in read_whole(data, f'page {page} of {what}', take_supports):
            before = members.get(one.account, Backed(one.account, 0, []))
            members[one.account] = Backed(one.account, before.total + one.total, before.backers + one.backers)
    return Elected(list(members.values()), score, [])


def keyed_pages(items: answers.Items, asked: Asked, pages: int, variant: Optional[str]) -> Tuple[List[bytes], Optional[Score]]:
    """The pages of the variant that holds, and their score where it is there."""
    what, pallet = 'the queue', asked.part('Verifier')
    both = {name: answers.entries(items, f'QueuedSolution{name}', pallet, (4, 4), what) for name in VARIANTS}
    if not any(both.values()):
        raise answers.missing(items, 'QueuedSolutionX', pallet, what)
    turn = answers.chosen([answers.number_of(parts[0]) for found in both.values() for parts in found], asked.round, 'round',
                          '--round', what)
    number = turn.to_bytes(4, 'little')
    holds = answers.entries(items, 'QueuedValidVariant', pallet, (4,), what).get((number,))
    if variant is None and holds is not None:
        variant = VARIANTS[read_whole(holds, 'the valid variant of the queue', lambda reader: reader.tag(2))]
    there = [name for name in VARIANTS if any(parts[0] == number for parts in both[name])]
    if variant is None and len(there) > 1:
        raise BadInput(f'{what}: there are QueuedSolutionX and QueuedSolutionY; QueuedValidVariant tells which holds, or --variant')
    chosen = both[variant or there[0]]
    spelt = whole({answers.number_of(parts[1]): data for parts, data in chosen.items() if parts[0] == number}, pages,
                  f'supports of QueuedSolution{variant or there[0]}')
    told = answers.entries(items, 'QueuedSolutionScore', pallet, (4,), what).get((number,))
    return spelt, None if told is None else read_whole(told, 'the score of the queue', take_score)
