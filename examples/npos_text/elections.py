"""Elections and weights: what a bundle holds, the fill, what a solution expands to, packing and levelling."""
from __future__ import annotations

from dataclasses import dataclass, field
from typing import Dict, Iterator, List, Optional, Sequence, Set, Tuple

from .forms import account_of, entry_of, hex_of
from .reading import Line, Reading
from .scale import Entry, Fault, account, byte_list, compact, entries_of, listed, score, solution

WHOLE = 65_535
MOST_VOTES = 24


@dataclass
class Voter:
    """An account (its word) with its stake and the targets that it nominates."""

    account: str
    stake: int
    votes: List[int]


@dataclass
class Election:
    """Seats, targets (words of accounts) and voters."""

    seats: int
    targets: List[str] = field(default_factory=list)
    voters: List[Voter] = field(default_factory=list)

    @property
    def total(self) -> int:
        """The stake of all voters."""
        return sum(voter.stake for voter in self.voters)

    @property
    def price(self) -> int:
        """The price of a seat."""
        return self.total // self.seats

    def fault(self) -> Optional[str]:
        """Why there is no such election, if there is none; npos tells the first fault in its own order."""
        count, names = len(self.targets), [voter.account for voter in self.voters]
        if len(set(self.targets)) < count or len(set(names)) < len(names) or self.total >> 64:
            return 'an account stands twice among the targets or the voters, or the stakes sum to 2^64 or more'
        for number, voter in enumerate(self.voters):
            if voter.stake == 0 or not 1 <= len(voter.votes) <= MOST_VOTES or len(set(voter.votes)) < len(voter.votes):
                return f'voter {number} has no stake, or not 1 to {MOST_VOTES} different votes'
            if max(voter.votes) >= count:
                return f'voter {number} votes for {max(voter.votes)}, and there are {count} targets'
        if not 1 <= self.seats <= 512 or count < self.seats or self.total < self.seats ** 2:
            return f'{self.seats} seats do not go with {count} targets and a stake of {self.total}'
        return None

    def nominators(self) -> List[List[int]]:
        """Of each target those that vote for it."""
        found: List[List[int]] = [[] for _ in self.targets]
        for number, voter in enumerate(self.voters):
            for target in voter.votes:
                found[target].append(number)
        return found

    def spelled(self, work: bytes = b'\x00') -> bytes:
        """The bundle of the election with some work."""
        voters = [account_of(voter.account) + compact(voter.stake) + listed(map(compact, voter.votes)) for voter in self.voters]
        return compact(self.seats) + listed(map(account_of, self.targets)) + listed(voters) + work


Edges = Dict[Tuple[int, int], int]


@dataclass
class Weights:
    """A committee and what each voter gives to each target."""

    committee: List[int]
    edges: Edges

    def supports(self) -> Dict[int, int]:
        """What each member is given."""
        found = {member: 0 for member in self.committee}
        for (_, target), amount in self.edges.items():
            found[target] = found.get(target, 0) + amount
        return found

    def score(self) -> Tuple[int, int, int]:
        """The least support, the sum and the sum of squares."""
        found = self.supports()
        supports = [found[member] for member in self.committee]
        return min(supports), sum(supports), sum(support * support for support in supports)

    def prescores(self, election: Election) -> Dict[int, int]:
        """What is left over for each target outside, from its nominators, at the price of a seat."""
        supports, price = self.supports(), election.price
        left = [voter.stake for voter in election.voters]
        for (voter, target), amount in self.edges.items():
            support = supports[target]
            left[voter] -= amount * min(price, support) // support if support else 0
        nominators = election.nominators()
        outside = sorted(set(range(len(election.targets))) - set(self.committee))
        return {target: sum(left[voter] for voter in nominators[target]) for target in outside}


# ## Bundles

@dataclass
class Bundle:
    """An election and the words of the work on it."""

    election: Election
    work: List[str]
    committee: List[int] = field(default_factory=list)
    edges: List[Tuple[int, int, int]] = field(default_factory=list)

    def take(self, line: Line) -> None:
        """Takes the next line of the bundle."""
        word, *rest = line.words
        if word == 'seats':
            self.election.seats = int(rest[0])
        elif word == 'target':
            self.election.targets.append(rest[0])
        elif word == 'voter':
            self.election.voters.append(Voter(rest[0], int(rest[1]), [int(vote) for vote in rest[2:]]))
        elif word == 'committee':
            self.committee = [int(member) for member in rest]
        elif word == 'edge':
            self.edges.append((int(rest[0]), int(rest[1]), int(rest[2])))
        elif word != 'bundle':
            self.work = line.words

    def weights(self) -> Optional[Weights]:
        """The weights of the work, if there is work."""
        if self.work == ['nothing']:
            return None
        if self.work == ['plain']:
            return plain_weights(self.election, self.committee, self.edges)
        words = self.work[4:][self.work[4] == 'wide':]
        if words[:1] and words[0].startswith('hex:'):
            return expanded(self.election, entries_of(hex_of(words[0][4:])))
        return expanded(self.election, [entry_of(word) for word in words])


def bundle_of(data: bytes) -> Bundle:
    """The bundle that the bytes spell, of an election that there is."""
    reading = Reading(data, 'bundle')
    if reading.fault:
        hint = '' if Reading(data, 'stream').fault else '; these bytes are a stream, and a bundle was expected'
        raise Fault(f'no bundle: {reading.fault}{hint}')
    bundle = Bundle(Election(0), [])
    for line in reading.lines:
        bundle.take(line)
    fault = bundle.election.fault()
    if fault:
        raise Fault(f'no election: {fault}')
    return bundle


def plain_weights(election: Election, committee: List[int], edges: Sequence[Tuple[int, int, int]]) -> Weights:
    """Plain work as weights, whose positions stand."""
    for voter, target, _ in edges:
        if voter >= len(election.voters) or target not in committee:
            raise Fault(f'the work has an edge from {voter} to {target}, and a voter and a member were expected')
    if not committee or max(committee) >= len(election.targets) or len(set(committee)) < len(committee):
        raise Fault('the committee of the work has no member, one twice, or one that is no target')
    given = {(voter, target): amount for voter, target, amount in edges}
    if len(given) < len(edges):
        raise Fault('the work has two edges from one voter to one member')
    return Weights(committee, given)


def expanded(election: Election, entries: Sequence[Entry]) -> Weights:
    """What a solution expands to: each listed target gets its share of the stake, the last one the rest."""
    edges: Edges = {}
    for voter, shares, last in entries:
        targets = [target for target, _ in shares] + [last]
        if voter >= len(election.voters) or max(targets) >= len(election.targets):
            raise Fault(f'the solution has an entry of voter {voter} for {targets}, and positions that there are were expected')
        stake = election.voters[voter].stake
        amounts = [stake * share // WHOLE for _, share in shares]
        if sum(amounts) > stake:
            raise Fault(f'the shares of voter {voter} are more than its stake')
        edges.update({(voter, target): amount for target, amount in zip(targets, [*amounts, stake - sum(amounts)])})
    if not edges:
        raise Fault('the solution has no entry')
    return Weights(sorted({target for _, target in edges}), edges)


def packed(election: Election, weights: Weights) -> List[Entry]:
    """The entries that weights are packed into; a member whose edges all round down to nothing is lost."""
    given: Dict[int, List[Tuple[int, int]]] = {}
    for (voter, target), amount in sorted(weights.edges.items()):
        given.setdefault(voter, []).append((target, amount))
    entries: List[Entry] = []
    for voter, listed_edges in given.items():
        shares = [(target, amount * WHOLE // election.voters[voter].stake) for target, amount in listed_edges]
        greatest = max(listed_edges, key=lambda edge: edge[1])
        kept = [one for one in shares if one[1]] or [(greatest[0], 0)]
        entries.append((voter, kept[:-1], kept[-1][0]))
    return sorted(entries, key=lambda entry: len(entry[1]))


def packed_work(election: Election, entries: Sequence[Entry]) -> bytes:
    """A solution as the work of a bundle, with the score of what it expands to as the claim."""
    return b'\x01' + score(*expanded(election, entries).score()) + byte_list(solution(entries))


# ## Rules

def fill(election: Election) -> Weights:
    """Seat by seat the target whose nominators have the most left joins, and draws the price of a seat from them."""
    left = [voter.stake for voter in election.voters]
    nominators = election.nominators()
    backing = {target: sum(left[voter] for voter in voters) for target, voters in enumerate(nominators)}
    edges: Edges = {}
    committee = []
    price = election.price
    for _ in range(election.seats):
        best = max(backing, key=lambda target: backing[target])
        committee.append(best)
        del backing[best]
        due = price
        for number in nominators[best]:
            drawn = min(due, left[number])
            due -= drawn
            left[number] -= drawn
            if drawn:
                edges[number, best] = drawn
                for target in backing.keys() & election.voters[number].votes:
                    backing[target] -= drawn
    return Weights(sorted(committee), dict(sorted(edges.items())))


def levelled(election: Election, committee: Sequence[int], rounds: int) -> Weights:
    """Rounds of turns, until one changes nothing: each voter in turn hands out its whole stake unit by unit, each unit
    to the one of its members that has the least support so far, the lowest of several."""
    members: Set[int] = set(committee)
    supports = {member: 0 for member in committee}
    edges: Edges = {}
    for _ in range(rounds):
        before = dict(edges)
        for number, voter in enumerate(election.voters):
            mine = sorted(members.intersection(voter.votes))
            for member in mine:
                supports[member] -= edges.pop((number, member), 0)
            for member, amount in poured(voter.stake, {member: supports[member] for member in mine}):
                supports[member] += amount
                edges[number, member] = amount
        if edges == before:
            break
    return Weights(sorted(committee), dict(sorted(edges.items())))


def poured(stake: int, bases: Dict[int, int]) -> Iterator[Tuple[int, int]]:
    """What each base is raised by so that no unit could lie lower."""
    order = sorted(bases, key=lambda member: (bases[member], member))
    while order and sum(bases[order[-1]] - bases[member] for member in order) >= stake and len(order) > 1:
        order.pop()
    if not order:
        return
    height, above = divmod(stake + sum(bases[member] for member in order), len(order))
    for place, member in enumerate(sorted(order)):
        amount = height - bases[member] + (place < above)
        if amount:
            yield member, amount


def generated(seed: int, voters: int, seats: int) -> Election:
    """The election that `npos demo` makes of a seed."""
    state = seed

    def draw() -> int:
        nonlocal state
        state = (state * 6364136223846793005 + 1442695040888963407) % (1 << 64)
        return state >> 33

    count = 4 * seats
    election = Election(seats, ['@' + str(number + 1) for number in range(count)])
    for number in range(voters):
        stake, votes, first = 1_000_000 + draw() % 1_000_000, 1 + draw() % min(16, count), draw() % count
        name = account((1 << 128) + number + 1).hex()
        election.voters.append(Voter(name, stake, [(first + step) % count for step in range(votes)]))
    return election
