"""A chain's own election, written apart from the scripts: sequential Phragmen, balancing, shares in parts of 65,535, and the
support and score that the chain makes of these. Small elections alone, since its numbers are fractions."""
from __future__ import annotations

import random
from fractions import Fraction
from typing import Dict, List, NamedTuple, Sequence, Tuple

from chain_encoder import Given, Support, Voter

PARTS = 65535


class Mined(NamedTuple):
    """Shares of each voter, the amounts that the chain makes of them, the supports, and the score."""
    given: List[Given]
    supports: List[Support]
    score: Tuple[int, int, int]


def election(seed: int) -> Tuple[List[Voter], List[bytes], int]:
    """A small election: some voters have no stake, some name accounts that are no targets."""
    draws = random.Random(seed)
    seats = draws.randint(1, 9)
    targets = [draws.getrandbits(256).to_bytes(32, 'big') for _ in range(seats + draws.randint(0, 12))]
    gone = [draws.getrandbits(256).to_bytes(32, 'big') for _ in range(3)]
    greatest = draws.choice([100, 10 ** 6, 10 ** 12, 10 ** 16])
    listed: List[Voter] = []
    for i in range(draws.randint(seats + 2, 45)):
        named = draws.sample(targets, min(len(targets), draws.randint(1, 16)))
        if draws.random() < 0.1:
            named.insert(draws.randrange(len(named) + 1), draws.choice(gone))
        if draws.random() < 0.04:
            named = [draws.choice(gone)]
        account = targets[i] if i < len(targets) and draws.random() < 0.5 else draws.getrandbits(256).to_bytes(32, 'big')
        stake = 0 if draws.random() < 0.05 else draws.randint(max(1, greatest // 50), greatest)
        listed.append((account, stake, named[:16]))
    return listed, targets, seats


def phragmen(listed: Sequence[Voter], targets: Sequence[bytes], seats: int) -> Dict[int, Dict[int, Fraction]]:
    """Sequential Phragmen: for each voter with a stake, what it gives to each winner."""
    places = {account: i for i, account in enumerate(targets)}
    edges = {i: [places[one] for one in dict.fromkeys(named) if one in places] for i, (_, stake, named) in enumerate(listed) if stake}
    load = {i: Fraction(0) for i in edges}
    given: Dict[int, Dict[int, Fraction]] = {i: {} for i in edges}
    backed = {target: [i for i in edges if target in edges[i]] for target in range(len(targets))}
    elected: List[int] = []
    for _ in range(seats):
        scores = {}
        for target, backers in backed.items():
            stake = sum(listed[i][1] for i in backers)
            if target not in elected and stake:
                scores[target] = (1 + sum(load[i] * listed[i][1] for i in backers)) / stake
        if not scores:
            break
        winner = min(scores, key=lambda target: (scores[target], target))
        elected.append(winner)
        for i in backed[winner]:
            given[i][winner] = scores[winner] - load[i]
            load[i] = scores[winner]
    return {i: {target: listed[i][1] * part / load[i] for target, part in parts.items() if part} for i, parts in given.items() if parts}


def balanced(listed: Sequence[Voter], amounts: Dict[int, Dict[int, Fraction]], rounds: int) -> Dict[int, Dict[int, int]]:
    """Amounts in units, where each voter in turn levels the supports of those it backs."""
    whole = {i: as_units(parts, listed[i][1]) for i, parts in amounts.items()}
    for _ in range(rounds):
        for i, parts in whole.items():
            supports: Dict[int, int] = {}
            for other in whole.values():
                for target, amount in other.items():
                    supports[target] = supports.get(target, 0) + amount
            base = {target: supports[target] - amount for target, amount in parts.items()}
            whole[i] = levelled(base, listed[i][1])
    return whole


def as_units(parts: Dict[int, Fraction], stake: int) -> Dict[int, int]:
    """Amounts rounded down, the first one with the rest."""
    units = {target: int(amount) for target, amount in parts.items()}
    first = next(iter(units))
    units[first] += stake - sum(units.values())
    return units


def levelled(base: Dict[int, int], stake: int) -> Dict[int, int]:
    """A stake poured onto the lowest, so that the lowest are level."""
    order = sorted(base, key=lambda target: (base[target], target))
    count = next(k for k in range(len(order), 0, -1) if k * base[order[k - 1]] - sum(base[one] for one in order[:k]) <= stake)
    level, rest = divmod(stake + sum(base[one] for one in order[:count]), count)
    poured = {target: level - base[target] for target in order[:count]}
    poured[order[0]] += rest
    return {target: amount for target, amount in poured.items() if amount} or {order[0]: stake}


# ## The chain's arithmetic

def normalize(values: Sequence[int], targeted: int) -> List[int]:
    """As `sp_arithmetic::normalize` goes."""
    total, count = sum(values), len(values)
    diff = max(total, targeted) - min(total, targeted)
    if count == 0 or diff == 0:
        return list(values)
    per_round, leftover = diff // count, diff % count
    output = sorted(([i, value] for i, value in enumerate(values)), key=lambda one: one[1])
    if targeted > total:
        index, threshold = 0, targeted // count
        if per_round:
            for _ in range(count):
                output[index][1] += per_round
                if output[index][1] >= threshold:
                    index = (index + 1) % count
        while leftover:
            output[index][1] += 1
            if output[index][1] >= threshold:
                index = (index + 1) % count
            leftover -= 1
    else:
        index, threshold = count - 1, output[0][1]
        if per_round:
            for _ in range(count):
                if output[index][1] >= per_round:
                    output[index][1] -= per_round
                else:
                    leftover += per_round - output[index][1]
                    output[index][1] = 0
                if output[index][1] <= threshold:
                    index = index - 1 if index else count - 1
        while leftover:
            if output[index][1] >= 1:
                output[index][1] -= 1
                leftover -= 1
                if output[index][1] <= threshold:
                    index = index - 1 if index else count - 1
            else:
                index = index - 1 if index else count - 1
    return [value for _, value in sorted(output)]


def parts_of(amounts: Dict[int, int], stake: int) -> List[Tuple[int, int]]:
    """Shares in parts of 65,535 that sum up to all of them; shares of nothing are dropped."""
    parts = normalize([amount * PARTS // stake for amount in amounts.values()], PARTS)
    return [(target, part) for target, part in zip(amounts, parts) if part]


def staked(parts: Sequence[Tuple[int, int]], stake: int) -> List[Tuple[int, int]]:
    """What the chain makes of shares: to the nearest, then normalised."""
    rounded = [int(Fraction(stake * part, PARTS) + Fraction(1, 2)) for _, part in parts]
    return [(target, amount) for (target, _), amount in zip(parts, normalize(rounded, stake))]


def evaluate(supports: Sequence[int]) -> Tuple[int, int, int]:
    return min(supports), sum(supports), sum(one * one for one in supports)


def mined(listed: Sequence[Voter], targets: Sequence[bytes], seats: int, rounds: int = 4) -> Mined:
    """The solution that a chain's own miner would hand in."""
    whole = balanced(listed, phragmen(listed, targets, seats), rounds)
    given = [(i, parts_of(amounts, listed[i][1])) for i, amounts in whole.items()]
    return Mined(given, *made_of(listed, targets, given))


def made_of(listed: Sequence[Voter], targets: Sequence[bytes], given: Sequence[Given]) -> Tuple[List[Support], Tuple[int, int, int]]:
    """The supports and the score that a chain makes of shares."""
    backers: Dict[int, List[Tuple[bytes, int]]] = {}
    for i, parts in given:
        for target, amount in staked(parts, listed[i][1]):
            backers.setdefault(target, []).append((listed[i][0], amount))
    supports = [(targets[target], sum(amount for _, amount in found), found) for target, found in sorted(backers.items())]
    return supports, evaluate([total for _, total, _ in supports])


def verdict(listed: Sequence[Voter], targets: Sequence[bytes], seats: int, supports: Sequence[Support]) -> str:
    """The verdict on exact weights, of good form and with a member a seat: 0, or 10 with the target and what is left."""
    places = {account: i for i, account in enumerate(targets)}
    stays = {account: (stake, {places[one] for one in named if one in places}) for account, stake, named in listed}
    stays = {account: (stake, named) for account, (stake, named) in stays.items() if stake and named}
    price = sum(stake for stake, _ in stays.values()) // seats
    left = {account: stake for account, (stake, _) in stays.items()}
    for _, total, backers in supports:
        for account, amount in backers:
            left[account] -= amount * min(price, total) // total
    members = {places[account] for account, _, _ in supports}
    for target in range(len(targets)):
        sum_left = sum(left[account] for account, (_, named) in stays.items() if target in named)
        if target not in members and sum_left >= price:
            return f'verdict 10 {target} {sum_left}'
    return 'verdict 0'
