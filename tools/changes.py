"""What changed between two elections: who came, who went, and by how much the key numbers moved."""
from __future__ import annotations

from typing import List, NamedTuple, Optional, Tuple

from bundle import Bundle, Score, fault_of
from scale import BadInput
from scene import Scene
from weights import judge, score_of, supports_of


class Came(NamedTuple):
    """A member that was none before: its support now, and whether it was a target before."""
    account: bytes
    support: int
    was_target: bool


class Went(NamedTuple):
    """Somebody who was a member before: the support then, and what the nominators have left now; None where it is no target."""
    account: bytes
    support: int
    left: Optional[int]


class Changes(NamedTuple):
    """The key numbers before, and the members that came, that went, and that stayed."""
    seats: int
    voters: int
    total: int
    price: int
    score: Score
    came: List[Came]
    went: List[Went]
    stayed: int
    greatest: Optional[Tuple[bytes, int, int]]


def changes_of(before: Bundle, scene: Scene) -> Changes:
    """What changed against the election before, which its bundle's own work decides."""
    fault = fault_of(before)
    if fault:
        raise BadInput(f'the bundle before has no election: {fault}')
    weights, verdict = (None, ()) if before.work is None else judge(before)
    if weights is None:
        said = 'has no work' if before.work is None else f'has work that is refused (verdict {" ".join(map(str, verdict))})'
        raise BadInput(f'the bundle before {said}, so that nobody is known to have been elected')
    old = {before.targets[member]: support for member, support in supports_of(weights).items()}
    new = {member.account: member.support for member in scene.members}
    left = {one.account: one.left for one in scene.outsiders}
    targets = set(before.targets)
    came = [Came(account, support, account in targets) for account, support in new.items() if account not in old]
    went = [Went(account, support, left.get(account)) for account, support in old.items() if account not in new]
    both = [(account, old[account], support) for account, support in new.items() if account in old]
    return Changes(before.seats, len(before.voters), before.total(), before.price(), score_of(weights),
                   sorted(came, key=lambda one: -one.support), sorted(went, key=lambda one: -one.support), len(both),
                   max(both, key=lambda one: abs(one[2] - one[1]), default=None))
