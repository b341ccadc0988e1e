"""What a verdict says, in words."""
from __future__ import annotations

from typing import Callable, List, Optional, Tuple

from accounts import Naming
from bundle import Bundle, Score
from weights import Verdict

PROMISE = ('Any group of voters with the stake of r seats whose voters all nominate one target outside has at least r members among '
           'its nominees, for every r.')


def verdict_words(bundle: Bundle, verdict: Verdict, claim: Optional[Score], naming: Naming,
                  amount: Callable[[int], str]) -> Tuple[str, str]:
    """What a verdict says: a headline, and a sentence. `amount` writes an amount of stake."""
    number, *details = verdict
    if number == 0:
        return 'Proportional', PROMISE
    if number == 10:
        return 'Not shown to be proportional', (
            f'The nominators of target {details[0]} ({naming.short(bundle.targets[details[0]])}), which is outside, have '
            f'{amount(details[1])} left: the price of a seat, {amount(bundle.price())}, or more. The committee may be proportional '
            'all the same; these weights do not show it.')
    if number == 9:
        claimed = ', '.join(map(amount, (claim or (0, 0, 0))[:2]))
        found = ', '.join(map(amount, details[:2]))
        return 'Another score was claimed', (f'Least support and sum were claimed as {claimed}, and come to {found}; or the '
                                             'squares differ. Whether the weights are proportional was not asked.')
    if number == 8:
        return 'Not one member a seat', refused_sentence(bundle, verdict, naming)
    return 'The work is refused', refused_sentence(bundle, verdict, naming)


def refused_sentence(bundle: Bundle, verdict: Verdict, naming: Naming) -> str:
    """The sentence on work that is of no good form, or has another number of members than there are seats."""
    number, *details = verdict
    return sentences(bundle, number, details, naming)


def sentences(bundle: Bundle, number: int, details: List[int], naming: Naming) -> str:
    """The sentence of each refusal."""
    def target(position: int) -> str:
        return f'target {position} ({naming.short(bundle.targets[position])})'

    def voter(position: int) -> str:
        return f'voter {position} ({naming.short(bundle.voters[position].account)})'

    said = {
        1: lambda: f'The bytes of the solution cannot be read from byte {details[0]} on. Nobody is elected by it.',
        2: lambda: f'It names voter {details[0]}, and there is no such voter.',
        3: lambda: f'It names target {details[0]}, which is no target, or in plain work no member.',
        4: lambda: f'It has two entries of {voter(details[0])}.',
        5: lambda: f'It names {target(details[0])} twice where once is allowed.',
        6: lambda: f'It lets {voter(details[0])} back {target(details[1])}, which that voter does not nominate.',
        7: lambda: f'A share of {voter(details[0])} is nothing, or its shares leave nothing for the last target.',
        8: lambda: f'The work elects {details[0]} members for {bundle.seats} seats.',
        11: lambda: f'It gives away more than the stake of {voter(details[0])}.',
    }
    return said[number]() if number in said else 'The verdict is none that this script knows.'
