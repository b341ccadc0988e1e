"""A bundle of one election, as `npos` reads it: its bytes in SCALE and its text in JSON."""
from __future__ import annotations

import json
import re
from dataclasses import dataclass, field
from typing import Any, List, NamedTuple, Optional, Tuple, Union

from scale import BadInput, Reader, compact, spelt_list

MOST_VOTES = 24
MOST_SPELT_VOTES = 64
PLAIN_GROUPS, WIDE_GROUPS, WIDE_MARK = 16, 24, b'\xff'  # the lists of the two forms of a solution


class Limits(NamedTuple):
    """What a program takes at most."""
    program: str
    seats: int
    targets: int
    voters: int
    edges: int
    solution_bytes: int
    bytes: int


NPOS = Limits('npos', 512, 2048, 16384, 262144, 2097152, 16777216)
LIVE = Limits('npos-live', 2048, 4096, 65535, 1572864, 8388608, 67108864)

Score = Tuple[int, int, int]
Edge = Tuple[int, int, int]


class Voter(NamedTuple):
    """An account with its stake, and the positions of the targets that it nominates."""
    account: bytes
    stake: int
    votes: Tuple[int, ...]


class Packed(NamedTuple):
    """Work as a chain takes it: the claimed score (least support, sum, squares) and the bytes of a solution."""
    claim: Score
    solution: bytes


class Plain(NamedTuple):
    """Work as it is: the committee, and edges (voter, target, amount)."""
    committee: List[int]
    edges: List[Edge]


Work = Union[None, Packed, Plain]


@dataclass
class Bundle:
    """The seats, the accounts of the targets, the voters, and the work of some solver."""
    seats: int
    targets: List[bytes] = field(default_factory=list)
    voters: List[Voter] = field(default_factory=list)
    work: Work = None

    def total(self) -> int:
        """The stake of all voters."""
        return sum(voter.stake for voter in self.voters)

    def price(self) -> int:
        """What a seat costs: the whole stake by the seats, rounded down."""
        return self.total() // self.seats


# ## In SCALE

def bundle_bytes(bundle: Bundle) -> bytes:
    """The bundle's spelling."""
    voters = [voter.account + compact(voter.stake) + spelt_list([compact(vote) for vote in voter.votes])
              for voter in bundle.voters]
    return compact(bundle.seats) + spelt_list(bundle.targets) + spelt_list(voters) + work_bytes(bundle.work)


def work_bytes(work: Work) -> bytes:
    """The spelling of a bundle's work."""
    if work is None:
        return b'\0'
    if isinstance(work, Packed):
        minimal, total, squares = work.claim
        claim = compact(minimal) + compact(total) + squares.to_bytes(16, 'little')
        return b'\1' + claim + compact(len(work.solution)) + work.solution
    edges = [b''.join(map(compact, edge)) for edge in work.edges]
    return b'\2' + spelt_list([compact(member) for member in work.committee]) + spelt_list(edges)


def bundle_of_bytes(data: bytes) -> Bundle:
    """The bundle that bytes spell."""
    reader = Reader(data, 'the bundle')

    def voter() -> Voter:
        return Voter(reader.take(32), reader.compact(64), tuple(reader.many(MOST_SPELT_VOTES, lambda: reader.compact(16))))

    seats = reader.compact(32)
    targets = reader.many(LIVE.targets, lambda: reader.take(32))
    voters = reader.many(LIVE.voters, voter)
    bundle = Bundle(seats, targets, voters, work_of(reader))
    reader.end()
    return bundle


def work_of(reader: Reader) -> Work:
    """The work that stands next."""
    tag = reader.tag(3)
    if tag == 0:
        return None
    if tag == 1:
        claim = reader.compact(64), reader.compact(64), reader.fixed(16)
        return Packed(claim, reader.take(reader.length(LIVE.solution_bytes)))
    committee = reader.many(LIVE.targets, lambda: reader.compact(16))
    return Plain(committee, reader.many(LIVE.edges, lambda: (reader.compact(32), reader.compact(16), reader.compact(64))))


# ## In JSON

def bundle_json(bundle: Bundle) -> str:
    """The bundle as one line of JSON, as `npos show` writes it."""
    work: Any = None
    if isinstance(bundle.work, Packed):
        minimal, total, squares = bundle.work.claim
        work = {'claim': [minimal, total, str(squares)], 'solution': bundle.work.solution.hex()}
    elif bundle.work is not None:
        work = {'committee': bundle.work.committee, 'edges': bundle.work.edges}
    value = {
        'seats': bundle.seats,
        'targets': [target.hex() for target in bundle.targets],
        'voters': [{'account': voter.account.hex(), 'stake': voter.stake, 'votes': voter.votes}
                   for voter in bundle.voters],
        'work': work,
    }
    return json.dumps(value, separators=(',', ':')) + '\n'


def json_of(data: bytes, what: str) -> Any:
    """The value of a JSON text."""
    try:
        return json.loads(data.decode())
    except (ValueError, RecursionError) as error:
        raise BadInput(f'{what} has no reading as JSON: {str(error) or "it is too deep"}') from None


def keyed(value: Any, keys: List[str], what: str) -> List[Any]:
    """The values of an object that has exactly these keys."""
    if not isinstance(value, dict) or sorted(value) != sorted(keys):
        raise BadInput(f'{what} is no object with exactly the keys {", ".join(keys)}')
    return [value[key] for key in keys]


def listed(value: Any, most: int, what: str) -> List[Any]:
    """A list of at most so many values."""
    if not isinstance(value, list) or len(value) > most:
        raise BadInput(f'{what} is no list of at most {most:,} values')
    return value


def whole(value: Any, bits: int, what: str) -> int:
    """A whole number of so many bits at most."""
    if type(value) is not int or not 0 <= value < 1 << bits:
        raise BadInput(f'{what} is no whole number below 2^{bits}')
    return value


def digits(value: Any, most: int, what: str) -> bytes:
    """Bytes that are written in hexadecimal."""
    if not isinstance(value, str) or len(value) > 2 * most or not re.fullmatch('([0-9a-fA-F]{2})*', value):
        raise BadInput(f'{what} is no text of an even number of hexadecimal digits, at most {2 * most:,}')
    return bytes.fromhex(value)


def account(value: Any, what: str) -> bytes:
    """The account of 64 hexadecimal digits."""
    data = digits(value, 32, what)
    if len(data) != 32:
        raise BadInput(f'{what} is no text of 64 hexadecimal digits')
    return data


def bundle_of_json(data: bytes) -> Bundle:
    """The bundle of a JSON text in the shape that `npos pack` reads."""
    seats, targets, voters, work = keyed(json_of(data, 'the bundle'), ['seats', 'targets', 'voters', 'work'], 'the bundle')
    return Bundle(
        whole(seats, 32, 'seats'),
        [account(one, f'target {i}') for i, one in enumerate(listed(targets, LIVE.targets, 'targets'))],
        [voter_of_json(one, f'voter {i}') for i, one in enumerate(listed(voters, LIVE.voters, 'voters'))],
        work_of_json(work))


def voter_of_json(value: Any, what: str) -> Voter:
    """A voter of a bundle's JSON."""
    who, stake, votes = keyed(value, ['account', 'stake', 'votes'], what)
    votes = listed(votes, MOST_SPELT_VOTES, f'the votes of {what}')
    return Voter(account(who, f'the account of {what}'), whole(stake, 64, f'the stake of {what}'),
                 tuple(whole(vote, 16, f'a vote of {what}') for vote in votes))


def work_of_json(value: Any) -> Work:
    """The work of a bundle's JSON."""
    if value is None:
        return None
    if isinstance(value, dict) and 'claim' in value:
        claim, solution = keyed(value, ['claim', 'solution'], 'work')
        if len(listed(claim, 3, 'claim')) != 3 or not isinstance(claim[2], str) \
                or not re.fullmatch('0|[1-9][0-9]{0,38}', claim[2]):
            raise BadInput('claim is not two whole numbers and a text of decimal digits')
        score = whole(claim[0], 64, 'claim'), whole(claim[1], 64, 'claim'), whole(int(claim[2]), 128, 'claim')
        return Packed(score, digits(solution, LIVE.solution_bytes, 'solution'))
    committee, edges = keyed(value, ['committee', 'edges'], 'work')
    return Plain([whole(member, 16, 'a member') for member in listed(committee, LIVE.targets, 'committee')],
                 [edge_of_json(edge) for edge in listed(edges, LIVE.edges, 'edges')])


def edge_of_json(value: Any) -> Edge:
    """An edge of a bundle's JSON."""
    if len(listed(value, 3, 'an edge')) != 3:
        raise BadInput('an edge is not voter, target and amount')
    return whole(value[0], 32, 'a voter'), whole(value[1], 16, 'a target'), whole(value[2], 64, 'an amount')


# ## Either

def bundle_of(data: bytes) -> Bundle:
    """The bundle of bytes in SCALE or of a text in JSON; no SCALE of a bundle begins as an object does."""
    if len(data) > LIVE.bytes:
        raise BadInput(f'the bundle has more than {LIVE.bytes:,} bytes')
    return bundle_of_json(data) if data.lstrip().startswith(b'{') else bundle_of_bytes(data)


def fault_of(bundle: Bundle, limits: Limits = LIVE) -> Optional[str]:
    """The sentence on what keeps a bundle's election from being one that a program takes, or None."""
    seats, total = bundle.seats, bundle.total()
    if not 1 <= seats <= limits.seats:
        return f'{seats:,} seats do not fit: there are 1 to {limits.seats:,} seats'
    if len(bundle.targets) > limits.targets:
        return f'{len(bundle.targets):,} targets do not fit: there are at most {limits.targets:,} targets'
    if len(bundle.voters) > limits.voters:
        return f'{len(bundle.voters):,} voters do not fit: there are at most {limits.voters:,} voters'
    if len(bundle.targets) < seats:
        return f'{len(bundle.targets):,} targets are too few for {seats} seats'
    if total >= 1 << 64:
        return f'a total stake of {total:,} does not fit: it is below 2^64, which is {1 << 64:,}'
    if total < seats * seats:
        return f'a total stake of {total:,} is too little for {seats} seats: it is at least the seats times the seats'
    return fault_of_work(bundle.work, limits) or fault_of_accounts(bundle)


def fault_of_work(work: Work, limits: Limits) -> Optional[str]:
    """The sentence on work that is larger than a program takes, or None."""
    if isinstance(work, Packed) and len(work.solution) > limits.solution_bytes:
        return f'a solution of {len(work.solution):,} bytes does not fit: it has at most {limits.solution_bytes:,}'
    if isinstance(work, Plain) and len(work.edges) > limits.edges:
        return f'{len(work.edges):,} edges do not fit: there are at most {limits.edges:,}'
    if isinstance(work, Plain) and len(work.committee) > limits.targets:
        return f'{len(work.committee):,} members do not fit: there are at most {limits.targets:,} targets'
    return None


def fault_of_accounts(bundle: Bundle) -> Optional[str]:
    """The sentence on an account that stands twice or a voter that is none, or None."""
    for what, accounts in (('target', bundle.targets), ('voter', [voter.account for voter in bundle.voters])):
        if len(set(accounts)) < len(accounts):
            twice = next(i for i, one in enumerate(accounts) if one in accounts[:i])
            return f'{what} {twice} has the account of an earlier {what}'
    for i, voter in enumerate(bundle.voters):
        if voter.stake == 0:
            return f'voter {i} has a stake of 0'
        if not voter.votes:
            return f'voter {i} has no vote'
        if len(voter.votes) > MOST_VOTES:
            return f'voter {i} has {len(voter.votes)} votes, which do not fit: a voter has at most {MOST_VOTES}'
        if max(voter.votes) >= len(bundle.targets):
            return f'voter {i} votes for target {max(voter.votes)}, which is none'
        if len(set(voter.votes)) < len(voter.votes):
            return f'voter {i} votes for a target twice'
    return None
