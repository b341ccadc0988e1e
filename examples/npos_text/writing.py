"""From text to bytes."""
from __future__ import annotations

from typing import Callable, Dict, Iterator, List, Optional, Tuple

from . import forms
from .forms import GENESES, ITEMS, KINDS, STATE, hex_of, number_of, shown, write_parts
from .scale import Fault, listed, run

Numbered = Tuple[int, List[str]]

# what a text begins with
FIRST = 'genesis plain, genesis full, genesis deferred, bundle, pool, state plain or state full'


def lines_of(text: str) -> Iterator[Numbered]:
    """The lines with words, each with its number."""
    for number, line in enumerate(text.splitlines(), 1):
        words = line.split('#')[0].split()
        if words:
            yield number, words


class Form:
    """What the lines of a text have said so far. A line has a method of its name with `on_` before it."""

    def __init__(self) -> None:
        self.seen: Dict[str, int] = {}
        self.number = 0

    def take(self, number: int, words: List[str]) -> None:
        """Takes the next line."""
        word, *rest = words
        self.number = number
        method: Optional[Callable[[List[str]], None]] = getattr(self, 'on_' + word, None)
        if method is None:
            raise Fault(f'there stands {shown(word)}, and one of these words was expected: {", ".join(self.known())}')
        method(rest)

    def known(self) -> List[str]:
        """The first words of lines."""
        return [name[3:] for name in dir(self) if name.startswith('on_')]

    def once(self, name: str, what: str) -> None:
        """Notes what may stand once alone."""
        if name in self.seen:
            raise Fault(f'there stands {what}, which stands in line {self.seen[name]} already')
        self.seen[name] = self.number

    def must_have(self, *names: str) -> None:
        """Each of these was noted."""
        for name in names:
            if name not in self.seen:
                raise Fault(f'there is no line {name}, which was expected')


def must_be_few(count: int, limit: int, what: str) -> None:
    """There are at most so many."""
    if count > limit:
        raise Fault(f'there stand {count} {what}, and at most {limit} were expected')


class Blocks(Form):
    """What goes on with blocks: a genesis or a state."""

    def __init__(self) -> None:
        super().__init__()
        self.kind = 'plain'
        self.params: Dict[str, bytes] = {}
        self.blocks: List[Tuple[bytes, List[bytes]]] = []

    def must_go_on(self, word: str) -> None:
        """There was no line `end`."""
        if 'end' in self.seen:
            raise Fault(f'there stands {shown(word)} behind the end, and nothing was expected but bytes or cut')

    def must_be_whole(self) -> None:
        """All stands that has to stand before blocks."""
        raise NotImplementedError

    def on_block(self, words: List[str]) -> None:
        self.must_be_whole()
        self.blocks.append((write_parts('block', [forms.U32], words), []))

    def on_call(self, words: List[str]) -> None:
        if not self.blocks:
            raise Fault('there stands call, and a line block was expected before it')
        if len(words) < 2:
            raise Fault(f'call needs: account kind ..; there stands: {shown(" ".join(words))}')
        who, kind, *rest = words
        if kind not in KINDS:
            raise Fault(f'there stands {shown(kind)}, and a kind of call was expected: {", ".join(KINDS)}')
        calls = self.blocks[-1][1]
        calls.append(forms.account_of(who) + bytes([list(KINDS).index(kind)]) + write_parts(kind, KINDS[kind], rest))
        must_be_few(len(calls), forms.CALLS, 'calls in a block')

    def on_end(self, words: List[str]) -> None:
        write_parts('end', (), words)
        self.must_be_whole()
        self.once('end', 'end')

    def spelled_blocks(self) -> bytes:
        """The bytes of the blocks, and of the end where it stands."""
        return run((number + listed(calls) for number, calls in self.blocks), 'end' in self.seen)


class Stream(Blocks):
    """A genesis and its blocks."""

    def __init__(self) -> None:
        super().__init__()
        self.endowments: List[bytes] = []

    def take(self, number: int, words: List[str]) -> None:
        """Takes the next line, which may be one of the params."""
        self.must_go_on(words[0])
        if words[0] in GENESES['deferred']:
            self.number = number
            return self.take_param(*words)
        if self.number == 0 and words[0] != 'genesis':
            raise Fault(f'there stands {shown(words[0])}, and {FIRST} was expected first')
        super().take(number, words)

    def take_param(self, name: str, *words: str) -> None:
        """A line of the params."""
        if self.blocks or name not in GENESES[self.kind]:
            raise Fault(f'there stands {name}, and params were expected only in a genesis that has them, before its blocks')
        self.once(name, name)
        self.params[name] = write_parts(name, [GENESES[self.kind][name]], words)

    def on_genesis(self, words: List[str]) -> None:
        self.once('genesis', 'genesis')
        if len(words) != 1 or words[0] not in GENESES:
            raise Fault(f'genesis needs: plain, full or deferred; there stands: {shown(" ".join(words))}')
        self.kind = words[0]

    def on_endow(self, words: List[str]) -> None:
        if self.blocks:
            raise Fault('there stands endow, which was expected before the blocks alone')
        self.endowments.append(write_parts('endow', forms.ENDOW, words))
        must_be_few(len(self.endowments), forms.ENDOWMENTS, 'endowments')

    def must_be_whole(self) -> None:
        """The genesis has all its params."""
        self.must_have(*GENESES[self.kind])

    def spelled(self, is_whole: bool) -> bytes:
        """The bytes; a whole stream has its end."""
        self.must_be_whole()
        if is_whole:
            self.must_have('end')
        out = [bytes([list(GENESES).index(self.kind)]), listed(self.endowments), *(self.params[name] for name in GENESES[self.kind])]
        return b''.join(out) + self.spelled_blocks()


# the parts of a state in the order of their bytes, each by its first line
PARTS = ['state', 'due', 'sums', 'row', 'role', 'era', 'round', 'next_submission', 'submission', 'waiting', 'next_slash', 'slash',
         'block']
RUNS = ['row', 'role', 'era']
# lines that stand within a part, and the parts in which they may
WITHIN = {'member': ['era'], 'target': ['round', 'waiting'], 'voter': ['round', 'waiting'], 'committee': ['waiting'],
          'edge': ['waiting']}
ONCE = ['due', 'sums', 'next_submission', 'committee', 'next_slash']
FEW = {'submission': (forms.QUEUED, 'submissions'), 'slash': (forms.SLASHES, 'slashes'), 'edge': (forms.STATE_EDGES, 'edges'),
       'member': (forms.MEMBERS, 'members of an era'), 'target': (forms.TARGETS, 'targets'), 'voter': (forms.VOTERS, 'voters')}


class State(Blocks):
    """A state, and the blocks that go on from it, if there are any."""

    def __init__(self) -> None:
        super().__init__()
        self.part = 'state'
        self.lines: Dict[str, List[bytes]] = {name: [] for name in STATE}
        # what stands within parts: the members of each era, and the targets and voters of a round and of a committee that waits
        self.members: List[List[bytes]] = []
        self.snapshots: Dict[str, Dict[str, List[bytes]]] = {}

    def take(self, number: int, words: List[str]) -> None:
        """Takes the next line, which stands where its part does."""
        word, *rest = words
        self.must_go_on(word)
        self.number = number
        if word in WITHIN and self.part not in WITHIN[word]:
            raise Fault(f'there stands {word}, and it was expected behind {" or ".join(WITHIN[word])}')
        part = 'block' if word == 'end' else word
        if part in PARTS:
            if PARTS.index(part) < PARTS.index(self.part):
                raise Fault(f'there stands {word}, which was expected before {self.part}')
            self.part = part
        if word in GENESES['deferred']:
            self.take_param(word, rest)
        elif word in STATE:
            self.take_line(word, rest)
        else:
            super().take(number, words)

    def known(self) -> List[str]:
        """The first words of lines."""
        return [*super().known(), *STATE]

    def take_param(self, name: str, words: List[str]) -> None:
        """A line of the params."""
        if self.part != 'state' or self.kind != 'full':
            raise Fault(f'there stands {name}, and params were expected only in a state that has them, behind its first line')
        self.once(name, name)
        self.params[name] = write_parts(name, [GENESES['deferred'][name]], words)

    def take_line(self, name: str, words: List[str]) -> None:
        """A line of parts."""
        if name in ONCE:
            self.once(name, name)
        if name == 'era':
            self.members.append([])
        lines = self.lines_of(name)
        lines.append(write_parts(name, STATE[name], words))
        if name in FEW:
            must_be_few(len(lines), *FEW[name])

    def lines_of(self, name: str) -> List[bytes]:
        """The list that the next line of this name belongs to."""
        if name == 'member':
            return self.members[-1]
        return self.snapshots[self.part][name] if name in ('target', 'voter') else self.lines[name]

    def on_state(self, words: List[str]) -> None:
        self.once('state', 'state')
        if len(words) != 1 or words[0] not in ('plain', 'full'):
            raise Fault(f'state needs: plain or full; there stands: {shown(" ".join(words))}')
        self.kind = words[0]

    def on_round(self, words: List[str]) -> None:
        self.once(self.part, self.part)
        write_parts(self.part, (), words)
        self.snapshots[self.part] = {'target': [], 'voter': []}

    on_waiting = on_round

    def must_be_whole(self) -> None:
        """The state has all its parts."""
        self.must_have(*self.needed('block'))

    def needed(self, part: str) -> List[str]:
        """The lines that have to stand up to this part."""
        single = [name for name in PARTS[:PARTS.index(part) + 1] if name in ONCE]
        params = list(GENESES['deferred']) if self.kind == 'full' else []
        return params + single + ['committee'] * ('waiting' in self.snapshots)

    def spelled_parts(self) -> Iterator[bytes]:
        """The bytes of each part."""
        lines = self.lines
        params = b''.join(self.params[name] for name in GENESES['deferred'] if name in self.params)
        yield bytes([0, self.kind == 'full']) + params
        yield b''.join(lines['due'])
        yield b''.join(lines['sums'])
        yield run(lines['row'])
        yield run(lines['role'])
        yield run(era + listed(members) for era, members in zip(lines['era'], self.members))
        yield self.spelled_round('round')
        yield b''.join(lines['next_submission'])
        yield listed(lines['submission'])
        yield self.spelled_round('waiting')
        yield b''.join(lines['next_slash'])
        yield listed(lines['slash'])
        yield self.spelled_blocks()

    def spelled_round(self, part: str) -> bytes:
        """The bytes of a snapshot, if there is one, and of the committee that waits."""
        if part not in self.snapshots:
            return b'\x00'
        snapshot = b'\x01' + b''.join(map(listed, self.snapshots[part].values()))
        return snapshot + b''.join(self.lines['committee']) + listed(self.lines['edge']) if part == 'waiting' else snapshot

    def spelled(self, is_whole: bool) -> bytes:
        """The bytes; a whole input has its end, if it has blocks. One to be damaged ends with its last part, and a run with its
        last line."""
        part = 'block' if is_whole else self.part
        self.must_have(*self.needed(part), *['end'] * (is_whole and bool(self.blocks)))
        spelled = list(self.spelled_parts())[:PARTS.index(part) + 1]
        return b''.join(spelled)[:-1] if part in RUNS else b''.join(spelled)


class Pool(Form):
    """The genesis of a stake pool and its items."""

    def __init__(self) -> None:
        super().__init__()
        self.account = self.bonding = b''
        self.endowments: List[bytes] = []
        self.items: List[bytes] = []

    def must_come_first(self, word: str) -> None:
        """The line stands before the items and the end."""
        if self.items or 'end' in self.seen:
            raise Fault(f'there stands {word}, which was expected before the items alone')

    def on_pool(self, words: List[str]) -> None:
        self.once('pool', 'pool')
        self.account = write_parts('pool', [forms.Account()], words)

    def on_bonding_eras(self, words: List[str]) -> None:
        self.must_come_first('bonding_eras')
        self.once('bonding_eras', 'bonding_eras')
        self.bonding = write_parts('bonding_eras', [forms.U32], words)

    def on_endow(self, words: List[str]) -> None:
        self.must_come_first('endow')
        self.endowments.append(write_parts('endow', forms.ENDOW, words))
        must_be_few(len(self.endowments), forms.ENDOWMENTS, 'endowments')

    def on_item(self, words: List[str]) -> None:
        self.must_have('bonding_eras')
        if 'end' in self.seen:
            raise Fault('there stands item behind the end, and nothing was expected but bytes or cut')
        if len(words) < 2:
            raise Fault(f'item needs: account kind ..; there stands: {shown(" ".join(words))}')
        who, kind, *rest = words
        if kind not in ITEMS:
            raise Fault(f'there stands {shown(kind)}, and a kind of item was expected: {", ".join(ITEMS)}')
        self.items.append(forms.account_of(who) + bytes([list(ITEMS).index(kind)]) + write_parts(kind, ITEMS[kind], rest))

    def on_end(self, words: List[str]) -> None:
        write_parts('end', (), words)
        self.once('end', 'end')

    def spelled(self, is_whole: bool) -> bytes:
        """The bytes; a whole input has its end."""
        self.must_have('bonding_eras', *['end'] * is_whole)
        return listed(self.endowments) + self.account + self.bonding + run(self.items, 'end' in self.seen)


class Bundle(Form):
    """One election with some work."""

    def __init__(self) -> None:
        super().__init__()
        self.seats = self.work = self.committee = b''
        self.targets: List[bytes] = []
        self.voters: List[bytes] = []
        self.edges: List[bytes] = []

    def must_come_before(self, word: str) -> None:
        """The line stands before the work."""
        if 'work' in self.seen:
            raise Fault(f'there stands {word}, which was expected before the work alone')

    def on_bundle(self, words: List[str]) -> None:
        self.once('bundle', 'bundle')
        write_parts('bundle', (), words)

    def on_seats(self, words: List[str]) -> None:
        self.must_come_before('seats')
        self.once('seats', 'seats')
        self.seats = write_parts('seats', [forms.U32], words)

    def on_target(self, words: List[str]) -> None:
        self.must_come_before('target')
        self.targets.append(write_parts('target', [forms.Account()], words))
        must_be_few(len(self.targets), forms.TARGETS, 'targets')

    def on_voter(self, words: List[str]) -> None:
        self.must_come_before('voter')
        self.voters.append(write_parts('voter', forms.VOTER, words))
        must_be_few(len(self.voters), forms.VOTERS, 'voters')

    def on_nothing(self, words: List[str]) -> None:
        self.once('work', 'nothing, but the work')
        self.work = b'\x00' + write_parts('nothing', (), words)

    def on_packed(self, words: List[str]) -> None:
        self.once('work', 'packed, but the work')
        self.work = b'\x01' + write_parts('packed', forms.PACKED, words)

    def on_plain(self, words: List[str]) -> None:
        self.once('work', 'plain, but the work')
        self.work = b'\x02' + write_parts('plain', (), words)

    def on_committee(self, words: List[str]) -> None:
        self.must_be_plain('committee')
        self.once('committee', 'committee')
        self.committee = write_parts('committee', forms.COMMITTEE, words)

    def on_edge(self, words: List[str]) -> None:
        self.must_be_plain('edge')
        self.edges.append(write_parts('edge', forms.EDGE, words))
        must_be_few(len(self.edges), forms.EDGES, 'edges')

    def must_be_plain(self, word: str) -> None:
        """The line stands behind `plain`."""
        if self.work != b'\x02':
            raise Fault(f'there stands {word}, and a line plain was expected before it')

    def spelled(self, is_whole: bool) -> bytes:
        """The bytes; a whole bundle has its work."""
        self.must_have('seats')
        if is_whole and not self.work:
            raise Fault('there is no work, and a line nothing, packed or plain was expected')
        out = self.seats + listed(self.targets) + listed(self.voters) + self.work
        if self.work == b'\x02':
            self.must_have('committee')
            out += self.committee + listed(self.edges)
        return out


def damaged(data: bytes, lines: List[Numbered]) -> bytes:
    """What the lines at the end make of the bytes: `bytes` adds some, and `cut` leaves so many."""
    for number, words in lines:
        try:
            if len(words) != 2:
                raise Fault(f'{words[0]} needs: one word; there stands: {shown(" ".join(words[1:]))}')
            if words[0] == 'bytes':
                data += hex_of(words[1])
            elif number_of(words[1], 32) > len(data):
                raise Fault(f'there stands {words[1]}, and at most the {len(data)} bytes before it were expected')
            else:
                data = data[:int(words[1])]
        except Fault as fault:
            raise Fault(f'line {number}: {fault}') from None
    return data


def encode(text: str) -> bytes:
    """The bytes of a text. Lines `bytes HEX` and `cut NUMBER` at the end make damaged inputs."""
    lines = list(lines_of(text))
    if not lines:
        raise Fault(f'line 1: there stands nothing, and {FIRST} was expected')
    first = next((at for at, (_, words) in enumerate(lines) if words[0] in ('bytes', 'cut')), len(lines))
    body, tail = lines[:first], lines[first:]
    for number, words in tail:
        if words[0] not in ('bytes', 'cut'):
            raise Fault(f'line {number}: there stands {shown(words[0])} behind bytes or cut, and only such lines were expected')
    if not body:
        return damaged(b'', tail)
    form = {'bundle': Bundle, 'pool': Pool, 'state': State}.get(body[0][1][0], Stream)()
    number = len(text.splitlines())
    try:
        for number, words in body:
            form.take(number, words)
        number += 1
        data = form.spelled(is_whole=not tail)
    except Fault as fault:
        raise Fault(f'line {number}: {fault}') from None
    return damaged(data, tail)
