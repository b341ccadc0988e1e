"""What there is to draw of an election and the weights that a report is on: members, who is outside, who is left over."""
from __future__ import annotations

from typing import Dict, List, NamedTuple, Optional, Tuple

from bundle import Bundle, Packed, Score
from program import Report
from scale import BadInput
from weights import Verdict, Weights, expand, fill, judge, prescores_of, score_of, slack_of, supports_of, verdict_on

Part = Tuple[int, int]  # a voter, and an amount


class Member(NamedTuple):
    """A member with its support, of which `own` is its account's own part, and the other voters' parts, falling."""
    position: int
    account: bytes
    support: int
    own: int
    parts: List[Part]

    def backers(self) -> int:
        """How many voters give to it."""
        return len(self.parts) + (1 if self.own else 0)


class Outsider(NamedTuple):
    """A target outside: what its nominators have left, how many they are, and their stake."""
    position: int
    account: bytes
    left: int
    nominators: int
    stake: int


class Sharer(NamedTuple):
    """A voter: its stake, how many it nominates, how many of them are members, and what of its stake pays for no seat."""
    position: int
    account: bytes
    stake: int
    votes: int
    members: int
    left: int


class Scene(NamedTuple):
    """All that a picture shows. Members by falling support, outsiders by falling leftover, voters least represented first."""
    bundle: Bundle
    origin: str
    verdict: Verdict
    claim: Optional[Score]
    score: Score
    members: List[Member]
    outsiders: List[Outsider]
    voters: List[Sharer]
    edges: Dict[Part, int]

    def price(self) -> int:
        """The price of a seat."""
        return self.bundle.price()

    def unheard(self) -> List[Sharer]:
        """The voters that nominate no member."""
        return [voter for voter in self.voters if voter.members == 0]


# ## From a bundle and a report

def judged_weights(bundle: Bundle, report: Report) -> Tuple[Optional[Weights], str, Optional[Score]]:
    """The weights that a report is on, where they come from, and the score that is claimed.

    What the report says is compared with what the bundle comes to, so that no verdict is drawn beside weights of another
    election.
    """
    if report.score is None and not report.members:
        return checked_work(bundle, report)
    if report.solution is None:
        weights: Optional[Weights] = fill(bundle)
        origin = 'weights of the fill'
    else:
        weights, _ = expand(bundle, report.solution)
        origin = 'mined weights'
    if weights is None or told(bundle, weights) != report.members or score_of(weights) != report.score \
            or verdict_on(bundle, weights, None) != report.verdict:
        raise BadInput('the report and the bundle do not belong together: other members, supports, scores or verdicts are due')
    return weights, origin, report.score


def told(bundle: Bundle, weights: Weights) -> List[Tuple[bytes, int]]:
    """The members as a report tells them."""
    return [(bundle.targets[member], support) for member, support in supports_of(weights).items()]


def checked_work(bundle: Bundle, report: Report) -> Tuple[Optional[Weights], str, Optional[Score]]:
    """The weights of the bundle's own work, which a check was on."""
    if bundle.work is None:
        raise BadInput('the report is of a check, and the bundle has no work')
    weights, verdict = judge(bundle)
    if verdict != report.verdict:
        raise BadInput('the report and the bundle do not belong together: verdict '
                       f'{" ".join(map(str, verdict))} is due, not {" ".join(map(str, report.verdict or ()))}')
    return weights, 'the work of the bundle', bundle.work.claim if isinstance(bundle.work, Packed) else None


def scene_of(bundle: Bundle, report: Report) -> Scene:
    """What there is to draw. Where the weights are of no good form nobody is a member, and all stake is left."""
    weights, origin, claim = judged_weights(bundle, report)
    shown = weights or Weights([], [])
    slack = slack_of(bundle, shown)
    return Scene(bundle, origin, report.verdict or (), claim, score_of(shown), members_of(bundle, shown),
                 outsiders_of(bundle, shown, slack), voters_of(bundle, shown, slack),
                 {(voter, target): amount for voter, target, amount in shown.edges})


def members_of(bundle: Bundle, weights: Weights) -> List[Member]:
    """The members by falling support; of equal ones the lower position first."""
    supports = supports_of(weights)
    own = dict.fromkeys(weights.members, 0)
    parts: Dict[int, List[Part]] = {member: [] for member in weights.members}
    for voter, target, amount in weights.edges:
        if bundle.voters[voter].account == bundle.targets[target]:
            own[target] += amount
        elif amount > 0:
            parts[target].append((voter, amount))
    members = [Member(member, bundle.targets[member], supports[member], own[member],
                      sorted(parts[member], key=lambda part: (-part[1], part[0]))) for member in weights.members]
    return sorted(members, key=lambda member: (-member.support, member.position))


def outsiders_of(bundle: Bundle, weights: Weights, slack: List[int]) -> List[Outsider]:
    """The targets outside, by what their nominators have left, falling."""
    left = prescores_of(bundle, slack)
    stakes = prescores_of(bundle, [voter.stake for voter in bundle.voters])
    nominators = prescores_of(bundle, [1] * len(bundle.voters))
    members = set(weights.members)
    outside = [Outsider(i, account, left[i], nominators[i], stakes[i])
               for i, account in enumerate(bundle.targets) if i not in members]
    return sorted(outside, key=lambda one: (-one.left, one.position))


def voters_of(bundle: Bundle, weights: Weights, slack: List[int]) -> List[Sharer]:
    """The voters by what they have left of their stake, falling."""
    members = set(weights.members)
    voters = [Sharer(i, voter.account, voter.stake, len(voter.votes), sum(vote in members for vote in voter.votes), slack[i])
              for i, voter in enumerate(bundle.voters)]
    return sorted(voters, key=lambda voter: (-voter.left, -voter.stake, voter.position))
