"""The snapshot of an election as a chain in the manner of Substrate stores it: whole, by pages, or as the JSON of a dump.

    RoundSnapshot        voters: Vec<(AccountId32, u64, Vec<AccountId32>)>, targets: Vec<AccountId32>
    PagedVoterSnapshot   (round u32, page u32): Vec<(AccountId32, u64, Vec<AccountId32>)>
    PagedTargetSnapshot  (round u32, page u32): Vec<AccountId32>
    DesiredTargets       u32, or (round u32): u32
"""
from __future__ import annotations

import re
from typing import Any, Dict, List, NamedTuple, Optional, Sequence, Tuple

import answers
from accounts import account_of
from bundle import json_of
from scale import BadInput, Reader, spelt_list

MOST_LISTED = 1 << 20  # how long a list of a chain may be before its reading is given up


class Nominator(NamedTuple):
    """A voter as a chain stores it: an account, its stake, and the accounts that it nominates."""
    account: bytes
    stake: int
    targets: List[bytes]


class Snapshot(NamedTuple):
    """The voters and the targets of a round, whose number keys alone tell; `sizes` are the voters of each page, of one where it
    is whole."""
    voters: List[Nominator]
    targets: List[bytes]
    sizes: List[int]
    round: Optional[int] = None

    def start(self, page: int) -> int:
        """The number of a page's first voter among all voters."""
        return sum(self.sizes[:page])

    def is_paged(self) -> bool:
        """Whether there is more than one page."""
        return len(self.sizes) > 1


def take_voters(reader: Reader) -> List[Nominator]:
    """The voters that stand next."""
    def account() -> bytes:
        return reader.take(32)

    return reader.many(MOST_LISTED, lambda: Nominator(account(), reader.fixed(8), reader.many(MOST_LISTED, account)))


def take_targets(reader: Reader) -> List[bytes]:
    """The targets that stand next."""
    return reader.many(MOST_LISTED, lambda: reader.take(32))


# ## Whole

def snapshot_of(data: bytes, prefix: Optional[int] = None, pallet: Optional[str] = None) -> Snapshot:
    """The snapshot of a storage value, or of the JSON of a storage dump."""
    dump = dump_of(data)
    if dump is not None:
        return snapshot_of_json(dump, prefix)
    got = answers.stored(data, 'the snapshot')
    if isinstance(got, dict) and answers.found(got, 'PagedVoterSnapshot', pallet, 'the snapshot'):
        raise BadInput('the snapshot is one by pages: --voters takes its files, --targets that of the targets, and --pages says '
                       'how many pages it has')
    reader = Reader(answers.value_of(data, 'the snapshot', 'Snapshot', pallet), 'the snapshot')
    snapshot = Snapshot(take_voters(reader), take_targets(reader), [])
    reader.end()
    return snapshot._replace(sizes=[len(snapshot.voters)])


def dump_of(data: bytes) -> Optional[Dict[str, Any]]:
    """The JSON value of a storage dump, or None where the text is none."""
    if not re.match(rb'\s*\{', data) or not re.search(rb'"(voters|targets)"', data):
        return None
    value = json_of(data, 'the snapshot')
    return value if isinstance(value, dict) and {'voters', 'targets'} & set(value) else None


def snapshot_of_json(value: Dict[str, Any], prefix: Optional[int]) -> Snapshot:
    """The snapshot of a JSON value {"voters": [[address, stake, [address, ..]], ..], "targets": [address, ..]}."""
    if set(value) != {'voters', 'targets'} or not all(isinstance(one, list) for one in value.values()):
        raise BadInput('the snapshot is no object with exactly the lists voters and targets')
    known: Dict[str, bytes] = {}

    def account(text: Any, where: str) -> bytes:
        if not isinstance(text, str) or text not in known:
            try:
                got = account_of(text, prefix)
            except BadInput as fault:
                raise BadInput(f'{where}: {fault}') from None
            known[text] = got
        return known[text]

    voters = []
    for i, one in enumerate(value['voters']):
        if not isinstance(one, list) or len(one) != 3 or not isinstance(one[2], list):
            raise BadInput(f'voter {i} is not [address, stake, [address, ..]]')
        voters.append(Nominator(account(one[0], f'voter {i}'), stake_of(one[1], f'the stake of voter {i}'),
                                [account(target, f'a vote of voter {i}') for target in one[2]]))
    return Snapshot(voters, [account(one, f'target {i}') for i, one in enumerate(value['targets'])], [len(voters)])


def stake_of(value: Any, what: str) -> int:
    """A stake of a dump: a number, or a text of decimal digits, with commas between thousands or not, or of 0x.."""
    if isinstance(value, str) and re.fullmatch('[0-9]{1,20}|[0-9]{1,3}(,[0-9]{3}){0,6}', value):
        value = int(value.replace(',', ''))
    elif isinstance(value, str) and re.fullmatch('0x[0-9a-fA-F]{1,32}', value):
        value = int(value, 16)
    if type(value) is not int or not 0 <= value < 1 << 64:
        raise BadInput(f'{what} is no whole number below 2^64')
    return value


# ## By pages

def paged_snapshot_of(voters: Sequence[bytes], targets: bytes, pages: Optional[int], number: Optional[int] = None,
                      pallet: Optional[str] = None) -> Snapshot:
    """The snapshot of an election by pages: files with pages of voters, one with the targets, and how many pages there are."""
    if pages is None:
        raise BadInput('--voters hands in pages, and --pages is due, which says how many the election has: the constant Pages of '
                       'its pallet')
    got = answers.joined(voters, 'the voters')
    number = round_of(got, 'PagedVoterSnapshot', number, pallet, 'voters')
    spelt = pages_of(got, 'PagedVoterSnapshot', pages, number, pallet, 'voters')
    listed = [page_of(data, f'page {page} of the voters', take_voters) for page, data in enumerate(spelt)]
    chosen = pages_of(answers.joined([targets], 'the targets'), 'PagedTargetSnapshot', 1, number, pallet, 'targets')
    snapshot = Snapshot([voter for page in listed for voter in page], page_of(chosen[0], 'the page of the targets', take_targets),
                        [len(page) for page in listed], number)
    refuse_shared(snapshot)
    return snapshot


def page_of(data: bytes, what: str, take: Any) -> Any:
    """What a page spells."""
    reader = Reader(data, what)
    value = take(reader)
    reader.end()
    return value


def by_round(items: answers.Items, item: str, pallet: Optional[str], what: str) -> Dict[answers.Parts, bytes]:
    """The pages of an item by round and page."""
    there = answers.entries(items, item, pallet, (4, 4), f'the {what}')
    if not there:
        raise answers.missing(items, item, pallet, f'the {what}')
    return there


def round_of(got: Any, item: str, number: Optional[int], pallet: Optional[str], what: str) -> Optional[int]:
    """The round of pages that tell it: the one that is asked for, or the only one."""
    if isinstance(got, list):
        return number
    there = by_round(got, item, pallet, what)
    return answers.chosen([answers.number_of(parts[0]) for parts in there], number, 'round', '--round', f'the {what}')


def pages_of(got: Any, item: str, pages: int, number: Optional[int], pallet: Optional[str], what: str) -> List[bytes]:
    """The bytes of each page, in order: by their keys, or as the files were handed in, page 0 first."""
    if isinstance(got, list):
        return in_order(got, pages, what)
    there, turn = by_round(got, item, pallet, what), round_of(got, item, number, pallet, what)
    return whole({answers.number_of(page): data for (turn_of, page), data in there.items() if answers.number_of(turn_of) == turn},
                 pages, what)


def in_order(files: List[bytes], pages: int, what: str) -> List[bytes]:
    """The pages of files without keys."""
    places: Dict[bytes, int] = {}
    for page, data in enumerate(files):
        if len(data) > 1 and places.setdefault(data, page) != page:
            raise BadInput(f'the {what}: files {places[data] + 1} and {page + 1} hold the same page')
    if len(files) != pages:
        those = f'{len(files)} page{"s were" if len(files) > 1 else " was"} handed in'
        first = f', so page {len(files)} is missing if they stand in order' if len(files) < pages else ''
        raise BadInput(f'the {what}: {those}, and --pages says {pages}{first}; no part of an election is taken for the whole')
    return files


def whole(found: Dict[int, bytes], pages: int, what: str) -> List[bytes]:
    """The pages by their numbers, of which none may be missing."""
    beyond = sorted(page for page in found if page >= pages)
    if beyond:
        raise BadInput(f'the {what}: page {beyond[0]} is there, and --pages says {pages}, which are the pages 0 to {pages - 1}')
    absent = [page for page in range(pages) if page not in found]
    if absent:
        raise BadInput(f'the {what}: page {answers.listed(absent)} of {pages} is missing; no part of an election is taken for the '
                       'whole')
    return [found[page] for page in range(pages)]


def refuse_shared(snapshot: Snapshot) -> None:
    """Refuses pages that share a voter."""
    pages: Dict[bytes, int] = {}
    page_of_voter = [page for page, size in enumerate(snapshot.sizes) for _ in range(size)]
    for voter, page in zip(snapshot.voters, page_of_voter):
        if pages.setdefault(voter.account, page) != page:
            raise BadInput(f'the voters: the account {voter.account.hex()} stands on the pages {pages[voter.account]} and {page}, so '
                           'a page was handed in twice, or the pages are not of one snapshot')


def seats_of(data: bytes, number: Optional[int] = None, pallet: Optional[str] = None) -> int:
    """The seats, of the storage item DesiredTargets, which is a map by rounds in an election by pages."""
    got = answers.stored(data, 'the seats')
    if isinstance(got, dict):
        found = answers.found(got, 'DesiredTargets', pallet, 'the seats')
        if not found:
            raise answers.missing(got, 'DesiredTargets', pallet, 'the seats')
        if b'' not in found:
            by_round = answers.entries(got, 'DesiredTargets', pallet, (4,), 'the seats')
            turn = answers.chosen([answers.number_of(parts[0]) for parts in by_round], number, 'round', '--round', 'the seats')
            found = {b'': by_round[(turn.to_bytes(4, 'little'),)]}
        got = found[b'']
    reader = Reader(got, 'the seats')
    seats = reader.fixed(4)
    reader.end()
    return seats


# ## Writing

def voters_bytes(voters: Sequence[Nominator]) -> bytes:
    """The spelling of voters, as a chain stores them."""
    return spelt_list([voter.account + voter.stake.to_bytes(8, 'little') + spelt_list(voter.targets) for voter in voters])


def snapshot_bytes(snapshot: Snapshot) -> bytes:
    """The spelling of a whole snapshot."""
    return voters_bytes(snapshot.voters) + spelt_list(snapshot.targets)


def cut(snapshot: Snapshot, pages: int) -> List[Tuple[int, List[Nominator]]]:
    """The voters of each page, where they are spread evenly; page 0 has what is left."""
    size = -(-len(snapshot.voters) // pages)
    bounds = [max(0, len(snapshot.voters) - size * (pages - page)) for page in range(pages + 1)]
    return [(page, snapshot.voters[bounds[page]:bounds[page + 1]]) for page in range(pages)]
