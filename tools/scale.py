"""The SCALE forms that the scripts read and write, which are those of examples/npos_text, with sentences on what spells no value."""
from __future__ import annotations

import pathlib
import sys

sys.path.append(str(pathlib.Path(__file__).resolve().parent.parent / 'examples'))
from npos_text import scale as forms

# why bytes are refused, with the numbers that a verdict prints
REASONS = {'short': 1, 'notshortest': 2, 'toowide': 3, 'badtag': 4, 'toomany': 5, 'trailing': 6}
WORDS = {
    'short': 'the bytes end too early',
    'notshortest': 'a compact number is not written in its shortest form',
    'toowide': 'a compact number is too great',
    'badtag': 'there is no such tag',
    'toomany': 'a list or a string is longer than it may be',
    'trailing': 'bytes follow that do not belong to it',
}

compact = forms.compact
spelt_list = forms.listed


class BadInput(forms.Fault):
    """What was handed in has not the form; the text is the one sentence that a script says of it."""


class Misspelt(BadInput):
    """Bytes spell no value: `at` is the place of the first byte of the refused part, `why` one of REASONS."""

    def __init__(self, at: int, why: str, what: str = 'the input'):
        super().__init__(f'{what}: at byte {at} {WORDS[why]}')
        self.at, self.why = at, why


class Reader(forms.Reader):
    """Reads parts from the front of bytes; `what` names the input in the sentence on a fault."""

    def __init__(self, data: bytes, what: str = 'the input'):
        super().__init__(data)
        self.what = what

    def refusal(self, at: int, why: str) -> Misspelt:
        """What is raised of the part at this place."""
        return Misspelt(at, why, self.what)

    def fixed(self, size: int) -> int:
        """A whole number of a fixed number of bytes, little end first."""
        return int.from_bytes(self.take(size), 'little')
