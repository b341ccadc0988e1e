"""The solutions of miners as a chain in the manner of Substrate takes and stores them.

    RawSolution           solution, score: { minimal_stake, sum_stake, sum_stake_squared: u128 }, round: u32
    SignedSubmission      who: AccountId32, deposit: u128, raw_solution: RawSolution, call_fee: u128
    PagedRawSolution      solution_pages: Vec<solution>, score, round: u32
    SubmissionStorage     (round u32, account, page u32): solution
    SubmissionMetadata    deposit: u128, fee: u128, reward: u128, claimed_score, pages: Vec<bool>
    SortedScores          (round u32): Vec<(AccountId32, score)>
    QueuedSolutionScore   (round u32): score

A solution has 16 lists, or 24: an entry of list j is a compact voter, j - 1 pairs of a compact target and a compact share, and a
last compact target. A voter's number counts within its page; here it becomes the number among all voters.
"""
from __future__ import annotations

from bisect import bisect_right
from itertools import accumulate
from typing import Callable, Dict, List, NamedTuple, Optional, Sequence, Tuple, TypeVar

import answers
from bundle import Score
from scale import BadInput, Reader, spelt_list
from snapshots import MOST_LISTED, Snapshot
from weights import Entry, groups_bytes, take_entries

WIDTHS = (16, 24)
Value = TypeVar('Value')


class Solution(NamedTuple):
    """The entries of a solution with the voters' numbers among all, the score that it claims, its round, and what has to be told.

    An entry of a voter that its page does not have gets the number of no voter.
    """
    entries: List[Entry]
    score: Optional[Score]
    round: Optional[int]
    words: List[str]


class Asked(NamedTuple):
    """What was said of where to look: the lists of a solution, the pallet, the round, the account and the index of a submission."""
    groups: int = 16
    pallet: Optional[str] = None
    round: Optional[int] = None
    account: Optional[bytes] = None
    index: Optional[int] = None

    def part(self, suffix: str) -> Optional[str]:
        """The pallet of a part of an election by pages, whose name begins as that of the election."""
        return None if self.pallet is None else self.pallet + suffix


# ## Reading

def take_score(reader: Reader) -> Score:
    """The score that stands next."""
    return reader.fixed(16), reader.fixed(16), reader.fixed(16)


def read_whole(data: bytes, what: str, take: Callable[[Reader], Value]) -> Value:
    """The value that bytes spell, with nothing behind it."""
    reader = Reader(data, what)
    value = take(reader)
    reader.end()
    return value


def of_width(groups: int, what: str, read: Callable[[int], Value]) -> Value:
    """What is read with so many lists; where only the other width reads it, that flag is named."""
    try:
        return read(groups)
    except BadInput as fault:
        other = sum(WIDTHS) - groups
        try:
            read(other)
        except BadInput:
            raise fault from None
        raise BadInput(f'{what} has {other} lists and was read with {groups}: --groups {other} reads it') from None


def raw_solution_of(data: bytes, asked: Asked, signed: bool = False) -> Solution:
    """The solution of a RawSolution; with `signed` it stands in a SignedSubmission, which may be one of several in a dump."""
    what = 'the submission' if signed else 'the solution'
    spelt = submission_bytes(data, asked) if signed else argument_of(data, what)

    def take(reader: Reader, groups: int) -> Solution:
        reader.take(32 + 16 if signed else 0)
        solution = Solution(take_entries(reader, groups, MOST_LISTED), take_score(reader), reader.fixed(4), [])
        reader.take(16 if signed else 0)
        return solution

    return of_width(asked.groups, what, lambda groups: read_whole(spelt, what, lambda reader: take(reader, groups)))


def argument_of(data: bytes, what: str) -> bytes:
    """The bytes of a call's argument, which has no key in storage."""
    got = answers.stored(data, what)
    if isinstance(got, dict):
        raise BadInput(f'{what}: values with their keys were handed in, and it is the argument of a call, which storage does not '
                       'have; submissions and supports have options of their own')
    return got


def submission_bytes(data: bytes, asked: Asked) -> bytes:
    """The bytes of a SignedSubmission: the only one of a dump, or the one of the index that was asked for."""
    got = answers.stored(data, 'the submission')
    if isinstance(got, bytes):
        return got
    there = answers.entries(got, 'SignedSubmissionsMap', asked.pallet, (4,), 'the submission')
    if not there:
        raise answers.missing(got, 'SignedSubmissionsMap', asked.pallet, 'the submission')
    index = answers.chosen([answers.number_of(parts[0]) for parts in there], asked.index, 'index', '--index', 'the submission')
    return there[(index.to_bytes(4, 'little'),)]


def paged_solution_of(data: bytes, asked: Asked, snapshot: Snapshot) -> Solution:
    """The solution of a PagedRawSolution: of n pages it has the last k."""
    what = 'the solution'
    spelt = argument_of(data, what)

    def take(reader: Reader, groups: int) -> Tuple[List[List[Entry]], Score, int]:
        pages = reader.many(MOST_LISTED, lambda: take_entries(reader, groups, MOST_LISTED))
        return pages, take_score(reader), reader.fixed(4)

    pages, score, turn = of_width(asked.groups, what, lambda groups: read_whole(spelt, what, lambda reader: take(reader, groups)))
    first = len(snapshot.sizes) - len(pages)
    if first < 0:
        raise BadInput(f'the solution has {len(pages)} pages, and the election has {len(snapshot.sizes)}')
    entries, words = led({first + i: page for i, page in enumerate(pages)}, snapshot)
    return Solution(entries, score, turn, words)


def stored_pages_of(files: Sequence[bytes], asked: Asked, snapshot: Snapshot) -> Solution:
    """The solution that a submission's pages in storage make. Where its metadata are among them, they tell which pages it has."""
    what, count = 'the submission', len(snapshot.sizes)
    got = answers.joined(files, what)
    if isinstance(got, list):
        found, kept, score, turn = dict(enumerate(got)), None, None, None
        refuse_same(got, what)
    else:
        found, kept, score, turn = by_account(got, asked)
    due = range(count) if kept is None else [page for page, is_there in enumerate(kept) if is_there]
    absent = [page for page in due if page not in found]
    if absent:
        raise BadInput(f'{what}: page {answers.listed(absent)} of {count} is missing; no part of a solution is taken for the whole')
    if max(found, default=0) >= count:
        raise BadInput(f'{what}: page {max(found)} is there, and the election has the pages 0 to {count - 1}')
    pages = {page: of_width(asked.groups, f'page {page} of {what}', lambda groups: read_whole(
        found[page], f'page {page} of {what}', lambda reader: take_entries(reader, groups, MOST_LISTED))) for page in sorted(found)}
    entries, words = led(pages, snapshot)
    return Solution(entries, score, turn, words)


def refuse_same(files: Sequence[bytes], what: str) -> None:
    """Refuses a page that was handed in twice; pages without an entry are alike."""
    places: Dict[bytes, int] = {}
    for i, data in enumerate(files):
        if any(data) and places.setdefault(data, i) != i:
            raise BadInput(f'{what}: files {places[data] + 1} and {i + 1} hold the same page')


Found = Tuple[Dict[int, bytes], Optional[List[bool]], Optional[Score], Optional[int]]


def by_account(items: answers.Items, asked: Asked) -> Found:
    """The pages of one account's submission, which of them its metadata tell, the score that it claims, and the round."""
    what, pallet = 'the submission', asked.part('Signed')
    there = answers.entries(items, 'SubmissionStorage', pallet, (4, 32, 4), what)
    if not there:
        raise answers.missing(items, 'SubmissionStorage', pallet, what)
    turn = answers.chosen([answers.number_of(parts[0]) for parts in there], asked.round, 'round', '--round', what)
    number = turn.to_bytes(4, 'little')
    accounts = sorted({parts[1] for parts in there if parts[0] == number})
    if asked.account is None and len(accounts) > 1:
        raise BadInput(f'{what}: {len(accounts)} accounts have one in round {turn}, of which one is {accounts[0].hex()}; --account '
                       'names the one that is meant')
    account = accounts[0] if asked.account is None else asked.account
    if account not in accounts:
        raise BadInput(f'{what}: the account {account.hex()} has none in round {turn}')
    pages = {answers.number_of(parts[2]): data for parts, data in there.items() if parts[:2] == (number, account)}
    told = answers.entries(items, 'SubmissionMetadataStorage', pallet, (4, 32), what).get((number, account))
    if told is None:
        return pages, None, None, turn
    score, kept = read_whole(told, f'the metadata of {what}', take_metadata)
    return pages, kept, score, turn


def take_metadata(reader: Reader) -> Tuple[Score, List[bool]]:
    """The score that a submission claims, and which of its pages there are."""
    reader.take(3 * 16)
    return take_score(reader), reader.many(MOST_LISTED, lambda: reader.tag(2) == 1)


def led(pages: Dict[int, List[Entry]], snapshot: Snapshot) -> Tuple[List[Entry], List[str]]:
    """The entries of pages with the voters' numbers among all; a number that its page does not have becomes that of no voter."""
    entries, words = [], []
    for page, listed in sorted(pages.items()):
        start, size = snapshot.start(page), snapshot.sizes[page]
        for entry in listed:
            if entry.voter >= size:
                words.append(f'wrong: page {page} of the solution has an entry of voter {entry.voter}, and page {page} of the snapshot '
                             f'has {size:,} voters')
            entries.append(entry._replace(voter=start + entry.voter if entry.voter < size else len(snapshot.voters)))
    return entries, words


# ## The claim

def claim_of(data: bytes, asked: Asked) -> Score:
    """A claimed score: a score by itself, SubmissionMetadata, or SortedScores, by their keys or not."""
    what = 'the claim'
    got = answers.stored(data, what)
    if isinstance(got, dict):
        return keyed_claim(got, asked)
    if len(got) == 48:
        return read_whole(got, what, take_score)
    try:
        return read_whole(got, what, take_metadata)[0]
    except BadInput:
        return claim_among(read_whole(got, what, take_scores), asked, what)


def take_scores(reader: Reader) -> List[Tuple[bytes, Score]]:
    """The scores that accounts claim."""
    return reader.many(MOST_LISTED, lambda: (reader.take(32), take_score(reader)))


def claim_among(scores: List[Tuple[bytes, Score]], asked: Asked, what: str) -> Score:
    """The score that one account claims, or the only one."""
    fitting = [score for account, score in scores if asked.account in (None, account)]
    if len(fitting) != 1:
        raise BadInput(f'{what}: {len(fitting)} of the {len(scores)} scores are of that account; --account names the one that is meant')
    return fitting[0]


def keyed_claim(items: answers.Items, asked: Asked) -> Score:
    """The claim among items with their keys."""
    what = 'the claim'
    for item, suffix, sizes in (('QueuedSolutionScore', 'Verifier', (4,)), ('SubmissionMetadataStorage', 'Signed', (4, 32)),
                                ('SortedScores', 'Signed', (4,))):
        there = answers.entries(items, item, asked.part(suffix), sizes, what)
        if not there:
            continue
        turn = answers.chosen([answers.number_of(parts[0]) for parts in there], asked.round, 'round', '--round', what)
        values = {parts[1:]: data for parts, data in there.items() if answers.number_of(parts[0]) == turn}
        if item == 'QueuedSolutionScore':
            return read_whole(values[()], what, take_score)
        if item == 'SortedScores':
            return claim_among(read_whole(values[()], what, take_scores), asked, what)
        return claim_among([(parts[0], read_whole(data, what, take_metadata)[0]) for parts, data in values.items()], asked, what)
    raise answers.missing(items, 'SubmissionMetadataStorage', asked.part('Signed'), what)


# ## Writing

def score_bytes(score: Score) -> bytes:
    """The spelling of a score."""
    return b''.join(part.to_bytes(16, 'little') for part in score)


def raw_solution_bytes(entries: List[Entry], score: Score, turn: int, groups: int) -> bytes:
    """The spelling of a RawSolution."""
    return groups_bytes(entries, groups) + score_bytes(score) + turn.to_bytes(4, 'little')


def paged_solution_bytes(entries: List[Entry], score: Score, turn: int, groups: int, snapshot: Snapshot) -> bytes:
    """The spelling of a PagedRawSolution with all pages of the snapshot, the voters' numbers counted within their pages."""
    starts = list(accumulate([0, *snapshot.sizes[:-1]]))
    pages: List[List[Entry]] = [[] for _ in starts]
    for entry in entries:
        page = bisect_right(starts, entry.voter) - 1
        pages[page].append(entry._replace(voter=entry.voter - starts[page]))
    spelt = spelt_list([groups_bytes(page, groups) for page in pages])
    return spelt + score_bytes(score) + turn.to_bytes(4, 'little')
