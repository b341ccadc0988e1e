"""What all parts of a picture share: the scene, how amounts and accounts are written, and the scale of the bars."""
from __future__ import annotations

from typing import List, NamedTuple, Tuple

from accounts import Naming
from marks import Units
from scene import Scene

Drawn = Tuple[List[str], float]  # the marks of a part, and where the part ends


class Page(NamedTuple):
    """The scene, how amounts and accounts are written, and the greatest amount of the scale of the bars."""
    scene: Scene
    units: Units
    naming: Naming
    most: int

    def along(self, amount: int, width: float) -> float:
        """How long a bar of an amount is."""
        return amount / self.most * width

    def beyond(self) -> int:
        """How many supports are greater than the scale."""
        return sum(1 for member in self.scene.members if member.support > self.most)

    def voter_name(self, position: int) -> str:
        """The short name of a voter."""
        return self.naming.short(self.scene.bundle.voters[position].account)


def scale_of(scene: Scene) -> int:
    """The greatest amount of the scale: the greatest support, or less where a few are far greater than all others.

    A few are one in twenty, and far is half as much again as the greatest of the others.
    """
    supports = [member.support for member in scene.members]
    if not supports:
        return max(1, scene.price() * 112 // 100)
    few = max(1, len(supports) // 20) if len(supports) > 4 else 0
    greatest = min(supports[0], supports[few] * 3 // 2)
    return max(1, scene.price() * 112 // 100, greatest * 102 // 100)
