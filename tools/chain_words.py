"""The words that the scripts on live chains share: where the snapshot, the seats and the work of an election lie."""
from __future__ import annotations

import argparse
import os
import re
from typing import Any, List, Optional

from accounts import account_of, prefix_of
from command import Words, checked, file_bytes, standard_input, whole_within
from exposures import exposures_of
from kinds import of_kind
from scale import BadInput
from snapshots import Snapshot, paged_snapshot_of, seats_of, snapshot_of
from solutions import WIDTHS, Asked, Solution, claim_of, paged_solution_of, raw_solution_of, stored_pages_of
from supports import VARIANTS, Elected, queued_supports_of, ready_solution_of

MOST_PAGES = 4096


def add_snapshot_words(words: Words) -> None:
    """The words on the snapshot and its seats."""
    words.add_argument('--seats', required=True, metavar='N|FILE',
                       help="how many are elected: a number, or a file with the node's answer to DesiredTargets")
    words.add_argument('--voters', metavar='FILE', nargs='+',
                       help='in place of the snapshot on standard input: its pages of voters, by their keys or page 0 first')
    words.add_argument('--targets', metavar='FILE', help='with --voters: the page of targets')
    words.add_argument('--pages', type=whole_within(1, MOST_PAGES), metavar='N',
                       help='with --voters: how many pages the election has, which is the constant Pages of its pallet')
    words.add_argument('--round', type=whole_within(0, (1 << 32) - 1), metavar='N', help='the round, where there is more than one')
    words.add_argument('--pallet', metavar='NAME', type=pallet_name,
                       help='look in this pallet alone; of an election by pages the name without Verifier and Signed')
    words.add_argument('--groups', type=int, choices=WIDTHS, default=16, help='how many lists a solution has (16)')
    words.add_argument('--ss58', metavar='PREFIX', type=checked(prefix_of),
                       help='read addresses of this prefix alone, and tell accounts as such')


def add_chain_words(words: Words) -> Any:
    """The words on the snapshot and on the work; gives the group to which other kinds of work may be added."""
    add_snapshot_words(words)
    work = words.add_mutually_exclusive_group()
    work.add_argument('--solution', metavar='FILE', help='a RawSolution')
    work.add_argument('--submission', metavar='FILE', help='a SignedSubmission')
    work.add_argument('--paged', metavar='FILE', help='a PagedRawSolution')
    work.add_argument('--stored', metavar='FILE', nargs='+', help='the pages of a submission, of SubmissionStorage')
    work.add_argument('--ready', metavar='FILE', help='a ReadySolution, of QueuedSolution')
    work.add_argument('--queued', metavar='FILE', nargs='+', help="the pages of the verifier's queue, of QueuedSolutionX or Y")
    work.add_argument('--exposures', metavar='FILE', nargs='+',
                      help='the exposures of an era by their keys: ErasStakersOverview and ErasStakersPaged, or ErasStakers')
    words.add_argument('--claim', metavar='FILE',
                       help='the score that --stored or --queued claims: QueuedSolutionScore, SubmissionMetadataStorage or SortedScores')
    words.add_argument('--account', type=checked_account, help='whose submission, where there is more than one')
    words.add_argument('--index', type=whole_within(0, (1 << 32) - 1), metavar='N', help='which SignedSubmission of a dump')
    words.add_argument('--variant', choices=VARIANTS, help='which of QueuedSolutionX and Y, where QueuedValidVariant is not there')
    words.add_argument('--era', type=whole_within(0, (1 << 32) - 1), metavar='N', help='the era, where there is more than one')
    return work


def pallet_name(word: str) -> str:
    """The name of a pallet."""
    if not re.fullmatch('[A-Za-z_][A-Za-z0-9_]{0,199}', word):
        raise argparse.ArgumentTypeError(f'{word!r} is no name of a pallet')
    return word


def checked_account(word: str) -> bytes:
    """An account of the command line."""
    try:
        return account_of(word)
    except BadInput as fault:
        raise argparse.ArgumentTypeError(str(fault)) from None


# ## What they name

def asked_of(words: argparse.Namespace) -> Asked:
    """Where to look."""
    return Asked(words.groups, words.pallet, words.round, getattr(words, 'account', None), getattr(words, 'index', None))


def snapshot_asked(words: argparse.Namespace) -> Snapshot:
    """The snapshot: of the files with its pages, or of standard input."""
    if words.voters:
        if not words.targets:
            raise BadInput('--voters hands in pages of voters, and --targets is due besides, with the page of targets')
        return paged_snapshot_of(paths_bytes(words.voters), file_bytes(words.targets), words.pages, words.round,
                                 words.pallet)
    if words.targets or words.pages is not None:
        raise BadInput(f'{"--targets" if words.targets else "--pages"} is said of an election by pages, and --voters names its files')
    return snapshot_of(standard_input('a snapshot'), words.ss58, words.pallet)


def seats_asked(words: argparse.Namespace) -> int:
    """The seats: the number that was said, or that of a file."""
    if re.fullmatch('[0-9]{1,10}', words.seats) and int(words.seats) < 1 << 32:
        return int(words.seats)
    if not os.path.exists(words.seats):
        raise BadInput(f'--seats: {words.seats!r} is neither a whole number below 2^32 nor a file')
    return seats_of(file_bytes(words.seats), words.round, words.pallet)


def has_solution(words: argparse.Namespace) -> bool:
    """Whether the work of a miner was handed in."""
    return any((words.solution, words.submission, words.paged, words.stored))


def has_elected(words: argparse.Namespace) -> bool:
    """Whether supports or exposures were handed in."""
    return any((words.ready, words.queued, words.exposures))


def claim_asked(words: argparse.Namespace) -> Optional[Any]:
    """The claim that stands in a file of its own."""
    return None if words.claim is None else claim_of(file_bytes(words.claim), asked_of(words))


def solution_asked(words: argparse.Namespace, snapshot: Snapshot) -> Solution:
    """The solution that was handed in."""
    asked = asked_of(words)
    if words.stored:
        refuse_unpaged(words, snapshot)
        solution = stored_pages_of(paths_bytes(words.stored), asked, snapshot)
        return solution._replace(score=claim_asked(words) or solution.score)
    refuse_claim(words)
    if words.paged:
        refuse_unpaged(words, snapshot)
        return of_kind('--paged', file_bytes(words.paged), lambda data: paged_solution_of(data, asked, snapshot))
    if snapshot.is_paged():
        raise BadInput('the snapshot is one by pages, and so are its solutions: --paged or --stored takes one')
    option = '--submission' if words.submission else '--solution'
    return of_kind(option, file_bytes(words.submission or words.solution),
                   lambda data: raw_solution_of(data, asked, words.submission is not None))


def refuse_claim(words: argparse.Namespace) -> None:
    """Refuses a claim beside work that brings its own, or has none."""
    if words.claim is not None:
        raise BadInput('--claim is said of --stored and --queued alone; other work has its score within, or none')


def refuse_unpaged(words: argparse.Namespace, snapshot: Snapshot) -> None:
    """Refuses work by pages beside a snapshot that was handed in whole."""
    if not words.voters:
        raise BadInput(f'work by pages has numbers within pages, and the snapshot of {len(snapshot.voters):,} voters was handed in as a '
                       'whole: --voters, --targets and --pages take its pages')


def elected_of(words: argparse.Namespace, snapshot: Snapshot) -> Elected:
    """The supports or exposures that were handed in."""
    asked = asked_of(words)
    if words.queued:
        refuse_unpaged(words, snapshot)
        elected = queued_supports_of(paths_bytes(words.queued), asked, len(snapshot.sizes), words.variant)
        return elected._replace(score=claim_asked(words) or elected.score)
    refuse_claim(words)
    if words.ready:
        return of_kind('--ready', file_bytes(words.ready), lambda data: ready_solution_of(data, asked))
    return exposures_of(paths_bytes(words.exposures), words.era)


def paths_bytes(paths: List[str]) -> List[bytes]:
    """All of several files."""
    return [file_bytes(path) for path in paths]
