"""The exposures of an era: who was elected and by whom, as the staking pallet keeps it for 84 eras.

    ErasStakersOverview  (era u32, validator): { total: compact u128, own: compact u128, nominator_count: u32, page_count: u32 }
    ErasStakersPaged     (era u32, validator, page u32): { page_total: compact u128, others: Vec<(AccountId32, compact u128)> }
    ErasStakers          (era u32, validator): { total: compact u128, own: compact u128, others }, the older form

They give the edges of those who were elected, and not the votes for those who lost. An account is told by the key alone.
"""
from __future__ import annotations

from typing import Dict, List, Optional, Sequence

import answers
from scale import BadInput, Reader
from snapshots import MOST_LISTED
from solutions import read_whole
from supports import Backed, Backer, Elected

ITEMS = {'ErasStakersOverview': (4, 32), 'ErasStakersPaged': (4, 32, 4), 'ErasStakers': (4, 32)}


def take_others(reader: Reader) -> List[Backer]:
    """The backers that stand next."""
    return reader.many(MOST_LISTED, lambda: (reader.take(32), reader.compact(128)))


def exposures_of(files: Sequence[bytes], era: Optional[int], pallet: Optional[str] = None) -> Elected:
    """The exposures of an era, in the form by pages, or in the older one where nothing of the other is there."""
    what = 'the exposures'
    items = answers.joined(files, what)
    if isinstance(items, list):
        raise BadInput('the exposures have no keys, and the keys alone tell whose they are: hand in {"0xKEY": "0xVALUE"} or another '
                       'form that has them')
    found = {item: answers.entries(items, item, pallet, sizes, what) for item, sizes in ITEMS.items()}
    if not any(found.values()):
        raise answers.missing(items, 'ErasStakersOverview', pallet, what)
    turn = answers.chosen([answers.number_of(parts[0]) for one in found.values() for parts in one], era, 'era', '--era', what)
    number = turn.to_bytes(4, 'little')
    of_era = {item: {parts[1:]: data for parts, data in one.items() if parts[0] == number} for item, one in found.items()}
    if of_era['ErasStakersPaged'] and not of_era['ErasStakersOverview']:
        raise BadInput(f'{what}: era {turn} has pages and no ErasStakersOverview, which tells how many there are and the own stakes')
    if of_era['ErasStakersOverview']:
        members = by_pages(of_era['ErasStakersOverview'], of_era['ErasStakersPaged'])
    else:
        members = [older(account, data) for (account,), data in sorted(of_era['ErasStakers'].items())]
    return Elected(members, None, [f'the exposures are of era {turn}'])


def name_of(account: bytes) -> str:
    """How a validator is named in a sentence."""
    return f'the exposure of {account.hex()}'


def with_own(account: bytes, own: int, others: List[Backer]) -> List[Backer]:
    """The backers, the validator's own stake first where it gives any."""
    return ([(account, own)] if own else []) + others


def older(account: bytes, data: bytes) -> Backed:
    """An exposure that is one piece."""
    def take(reader: Reader) -> Backed:
        total, own = reader.compact(128), reader.compact(128)
        return Backed(account, total, with_own(account, own, take_others(reader)))

    return read_whole(data, name_of(account), take)


def by_pages(overviews: Dict[answers.Parts, bytes], pages: Dict[answers.Parts, bytes]) -> List[Backed]:
    """The exposures whose pages are all there."""
    strangers = sorted(parts for parts in pages if parts[:1] not in overviews)
    if strangers:
        raise BadInput(f'{name_of(strangers[0][0])} has a page and no overview')
    numbers: Dict[bytes, List[int]] = {}
    for account, page in pages:
        numbers.setdefault(account, []).append(answers.number_of(page))
    return [one_by_pages(account, data, sorted(numbers.get(account, [])), pages) for (account,), data in sorted(overviews.items())]


def one_by_pages(account: bytes, overview: bytes, numbers: List[int], pages: Dict[answers.Parts, bytes]) -> Backed:
    """The exposure of an overview and its pages."""
    total, own, count, due = read_whole(overview, f'the overview of {account.hex()}', lambda reader: (
        reader.compact(128), reader.compact(128), reader.fixed(4), reader.fixed(4)))
    if numbers != list(range(len(numbers))) or len(numbers) != due:
        absent = next((page for page in range(due) if page not in numbers), None)
        said = f'page {absent} of {due} is missing' if absent is not None else f'page {numbers[-1]} is there, and it has {due}'
        raise BadInput(f'{name_of(account)}: {said}; no part of it is taken for the whole')
    others: List[Backer] = []
    for page in numbers:
        where = f'page {page} of {name_of(account)}'
        told, listed = read_whole(pages[(account, page.to_bytes(4, 'little'))], where, lambda reader: (
            reader.compact(128), take_others(reader)))
        if told != sum(amount for _, amount in listed):
            raise BadInput(f'{where} tells a total of {told:,}, and its backers give {sum(amount for _, amount in listed):,}')
        others += listed
    if len(others) != count:
        raise BadInput(f'{name_of(account)} has {len(others):,} nominators on its pages, and the overview tells {count:,}')
    return Backed(account, total, with_own(account, own, others))
