"""From bytes to text."""
from __future__ import annotations

from typing import Callable, List, NamedTuple, Optional

from . import forms
from .forms import GENESES, ITEMS, KINDS, STATE, read_parts
from .scale import Reader, Refusal


class Line(NamedTuple):
    """A line of a text, with the place of its bytes."""

    at: int
    words: List[str]


class Reading:
    """The lines that bytes stand for, a stream, a bundle, a pool's input or a state, up to the first part that spells nothing."""

    def __init__(self, data: bytes, form: str) -> None:
        self.form = form
        self.lines: List[Line] = []
        self.fault: Optional[Refusal] = None
        # where the next line begins, and its first word, once it is begun
        self.rest, self.next = 0, ''
        self.reader = Reader(data)
        try:
            {'stream': self.take_stream, 'bundle': self.take_bundle, 'pool': self.take_pool, 'state': self.take_state}[form]()
            self.rest, self.next = self.reader.at, 'nothing'
            self.reader.end()
        except Refusal as refusal:
            self.fault = refusal

    def add(self, name: str, words: Callable[[], List[str]]) -> None:
        """The next line, whose words are read."""
        self.rest, self.next = self.reader.at, name
        self.lines.append(Line(self.rest, words()))
        self.next = ''

    def add_parts(self, name: str, *parts: forms.Part) -> None:
        """The next line, of a word and some parts."""
        self.add(name, lambda: [name, *read_parts(parts, self.reader)])

    def take_stream(self) -> None:
        """Reads a genesis, and blocks until the end."""
        reader = self.reader
        self.add('genesis', lambda: ['genesis', list(GENESES)[reader.tag(len(GENESES))]])
        params = GENESES[self.lines[0].words[1]]
        for _ in range(reader.length(forms.ENDOWMENTS)):
            self.add_parts('endow', *forms.ENDOW)
        for name, part in params.items():
            self.add_parts(name, part)
        self.take_blocks()

    def take_blocks(self) -> None:
        """Reads blocks until the end."""
        while self.has_block():
            for _ in range(self.reader.length(forms.CALLS)):
                self.add('call', self.call)

    def has_block(self) -> bool:
        """Reads a block's number, or the end."""
        self.add('block', lambda: ['block', *read_parts([forms.U32], self.reader)] if self.reader.tag(2) else ['end'])
        return self.lines[-1].words[0] == 'block'

    def call(self) -> List[str]:
        """The words of a call."""
        who = read_parts([forms.Account()], self.reader)
        kind = list(KINDS)[self.reader.tag(len(KINDS))]
        return ['call', *who, kind, *read_parts(KINDS[kind], self.reader)]

    def take_pool(self) -> None:
        """Reads endowments, the pool's account and its bonding, and items until the end. The account stands first in the text."""
        for _ in range(self.reader.length(forms.ENDOWMENTS)):
            self.add_parts('endow', *forms.ENDOW)
        self.add_parts('pool', forms.Account())
        self.lines.insert(0, self.lines.pop())
        self.add_parts('bonding_eras', forms.U32)
        while self.has_item():
            pass

    def has_item(self) -> bool:
        """Reads an item, or the end."""
        self.add('item', lambda: self.item() if self.reader.tag(2) else ['end'])
        return self.lines[-1].words[0] == 'item'

    def item(self) -> List[str]:
        """The words of an item."""
        who = read_parts([forms.Account()], self.reader)
        kind = list(ITEMS)[self.reader.tag(len(ITEMS))]
        return ['item', *who, kind, *read_parts(ITEMS[kind], self.reader)]

    def take_state(self) -> None:
        """Reads a state, and, where more stands behind it, blocks until the end."""
        reader = self.reader
        self.add('state', lambda: ['state', ['plain', 'full'][reader.tag(1) or reader.tag(2)]])
        for name, part in GENESES['deferred'].items() if self.lines[0].words[1] == 'full' else ():
            self.add_parts(name, part)
        for name in ('due', 'sums'):
            self.add_parts(name, *STATE[name])
        for name in ('row', 'role', 'era'):
            self.take_run(name)
        self.take_round('round')
        self.take_list('next_submission', 'submission', forms.QUEUED)
        if self.take_round('waiting'):
            self.add_parts('committee', *STATE['committee'])
            self.take_lines('edge', forms.STATE_EDGES)
        self.take_list('next_slash', 'slash', forms.SLASHES)
        if reader.at < len(reader.data):
            self.take_blocks()

    def has_next(self, name: str) -> bool:
        """Reads the tag before a line, or that there is none; what cannot be read begins there."""
        self.rest, self.next = self.reader.at, name
        return self.reader.tag(2) == 1

    def take_run(self, name: str) -> None:
        """Reads lines with a tag before each, until there is none."""
        while self.has_next(name):
            self.lines.append(Line(self.rest, [name, *read_parts(STATE[name], self.reader)]))
            if name == 'era':
                self.take_lines('member', forms.MEMBERS)

    def take_lines(self, name: str, limit: int) -> None:
        """Reads a list of lines."""
        self.rest, self.next = self.reader.at, name
        for _ in range(self.reader.length(limit)):
            self.add_parts(name, *STATE[name])

    def take_list(self, first: str, name: str, limit: int) -> None:
        """Reads the next number, and a list of lines."""
        self.add_parts(first, *STATE[first])
        self.take_lines(name, limit)

    def take_round(self, name: str) -> bool:
        """Reads a snapshot, if there is one."""
        if not self.has_next(name):
            return False
        self.lines.append(Line(self.rest, [name]))
        self.take_lines('target', forms.TARGETS)
        self.take_lines('voter', forms.VOTERS)
        return True

    def take_bundle(self) -> None:
        """Reads an election and the work on it."""
        reader = self.reader
        self.add('bundle', lambda: ['bundle'])
        self.add_parts('seats', forms.U32)
        for _ in range(reader.length(forms.TARGETS)):
            self.add_parts('target', forms.Account())
        for _ in range(reader.length(forms.VOTERS)):
            self.add_parts('voter', *forms.VOTER)
        self.add('work', self.work)
        if self.lines[-1].words == ['plain']:
            self.add_parts('committee', *forms.COMMITTEE)
            for _ in range(reader.length(forms.EDGES)):
                self.add_parts('edge', *forms.EDGE)

    def work(self) -> List[str]:
        """The words of the work, but what follows `plain`."""
        tag = self.reader.tag(3)
        return ['packed', *read_parts(forms.PACKED, self.reader)] if tag == 1 else [['nothing', '', 'plain'][tag]]

    def text(self) -> str:
        """A line a value, each with its place; what has no text is a line of bytes with the reason."""
        shown_lines = [f'{" ".join(line.words):<60} # at {line.at}' for line in self.lines]
        if self.fault:
            rest = self.reader.data[self.rest:].hex()
            shown_lines.append(f'{"bytes " + rest if rest else "":<60} # {self.fault}')
        return '\n'.join(shown_lines) + '\n'


def decode(data: bytes, form: str) -> str:
    """The text of bytes of a form, each line with its place. What has no text ends in a line of bytes."""
    return Reading(data, form).text()
