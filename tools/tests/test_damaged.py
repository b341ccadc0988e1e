"""Damaged input: each script is tried with a few thousand of it, and ends with one sentence, and never with a traceback."""
import json
import random
import unittest
from typing import Any, Callable, List, Tuple
from unittest import mock

import chain_encoder as chain
from support import ALICE, CHARLIE, Done, SNAPSHOT, SOLUTION, SOLVED_BUNDLE, inside
from test_audit import Case

import chain_audit
import program
from weights import judge

TRIES = 2000


def damaged(draws: random.Random, data: bytes) -> bytes:
    """The bytes with a few other ones, cut, or longer."""
    wrong = bytearray(data)
    for _ in range(draws.randint(0, 3)):
        wrong[draws.randrange(len(wrong))] = draws.choice([0, 1, 0x22, 0x30, 0x7b, 0xff, draws.randrange(256)])
    kind = draws.randrange(6)
    if kind == 0:
        return bytes(wrong[:draws.randrange(len(wrong))])
    at = draws.randrange(len(wrong))
    return bytes(wrong[:at] + wrong[at:at + draws.randint(1, 40)] + wrong[at:]) if kind == 1 else bytes(wrong)


def judged(words: List[str], bundle, asked=None) -> program.Run:
    """What the program would write of work, by the scripts' own reckoning, which takes no process."""
    _, verdict = judge(bundle)
    return program.Run(f'verdict {" ".join(map(str, verdict))}\n', 0 if verdict == (0,) else 1, 0.0)


class Damaged(Case):
    def setUp(self) -> None:
        super().setUp()
        self.draws = random.Random(9)
        messages = [('--solution', self.raw), ('--submission', chain.signed(self.raw, self.listed[0][0])),
                    ('--ready', chain.ready_solution(self.made.supports, self.made.score))]
        self.works = [(option, self.forms(data)) for option, data in messages]
        self.works.append(('--exposures', [json.dumps(chain.exposures(self.made.supports, 9, 2)).encode()]))
        self.snapshots = self.forms(self.snapshot)

    def check(self, done: Done) -> None:
        """The work is done, or one sentence says why it is not."""
        if done.status == 2:
            self.assertEqual((done.out, done.err.count('\n')), (b'', 1), done.err)
        else:
            self.assertIn(done.status, (0, 1))

    def try_many(self, name: str, count: int, words: Callable[[], List[str]], data: Callable[[], bytes]) -> None:
        """Runs a script on inputs that are made anew each time."""
        for _ in range(count):
            self.check(inside(name, words(), data()))

    def hurt(self, data: bytes) -> bytes:
        """Damaged bytes, or now and then the ones themselves."""
        return data if self.draws.random() < 0.1 else damaged(self.draws, data)

    def forms(self, data: bytes) -> List[bytes]:
        """Some of the forms of a value."""
        return [data, chain.hexed(data).encode(), json.dumps({'jsonrpc': '2.0', 'result': chain.hexed(data), 'id': 1}).encode()]

    def work(self) -> List[str]:
        """A word and a file of some work, which is damaged or not."""
        option, forms = self.draws.choice(self.works)
        return [option, self.file(self.hurt(self.draws.choice(forms)), 'work')]

    def paged(self) -> Tuple[bytes, bytes]:
        """The dump of an election by pages, and a solution of it."""
        half = len(self.listed) // 2
        turn = chain.u32(4)
        items = {chain.key('M', 'PagedVoterSnapshot', turn, chain.u32(i)): chain.hexed(chain.voters(part))
                 for i, part in enumerate((self.listed[:half], self.listed[half:]))}
        items[chain.key('M', 'PagedTargetSnapshot', turn, chain.u32(0))] = chain.hexed(chain.vec(self.targets))
        given = [[(voter - start, parts) for voter, parts in self.made.given if start <= voter < end]
                 for start, end in ((0, half), (half, len(self.listed)))]
        return json.dumps(items).encode(), chain.paged_solution(given, self.made.score, 4)

    def test_from_substrate(self):
        self.try_many('from-substrate', TRIES, lambda: ['--seats', str(self.seats), *self.work()],
                      lambda: self.hurt(self.draws.choice(self.snapshots)))

    def test_audit_substrate(self):
        dump, solution = self.paged()

        def pages() -> List[str]:
            path = self.file(self.hurt(dump), 'dump')
            work = self.file(self.hurt(solution), 'work')
            return ['--seats', str(self.seats), '--voters', path, '--targets', path, '--pages', '2', '--paged', work]

        with mock.patch.object(chain_audit, 'ask', judged), mock.patch.object(chain_audit, 'program_for', lambda bundle: program.CHECKER), \
                mock.patch.object(chain_audit, 'WEIGHER', mock.Mock(words=lambda: None, where=lambda: 'nowhere')):
            self.try_many('audit-substrate', TRIES, lambda: ['--seats', str(self.seats), *self.work()],
                          lambda: self.hurt(self.draws.choice(self.snapshots)))
            self.try_many('audit-substrate', TRIES // 2, pages, lambda: b'')

    def test_to_substrate(self):
        report = (f'member {ALICE} 540\nmember 8eaf04151687736326c9fea17e25fc5287613693c912909cb226aa4794f26a48 500\n'
                  'score 500 1040 541600\nsolution 0404000c0400000200020004' + '00' * 13 + '\nverdict 0\n').encode()
        snapshot = bytes.fromhex(SNAPSHOT)
        self.try_many('to-substrate', TRIES, lambda: ['--seats', '2', '--mined', self.file(self.hurt(report), 'mined')],
                      lambda: self.hurt(snapshot) if self.draws.random() < 0.3 else snapshot)

    def test_compare_miners(self):
        with mock.patch.dict('os.environ', {'NPOS_PROGRAM': '/nowhere/npos'}):
            solution, bundle = bytes.fromhex(SOLUTION), bytes.fromhex(SOLVED_BUNDLE)
            self.try_many('compare-miners', TRIES, lambda: ['--solution', self.file(self.hurt(solution))][:2 * self.draws.randrange(2)],
                          lambda: self.hurt(bundle))

    def test_picture(self):
        names = f'{ALICE} Alice\n# a remark\n{CHARLIE}, Charlie & Sons\n'.encode()

        def words() -> List[str]:
            more = [['--html'], ['--names', self.file(self.hurt(names), 'names')], ['--voter', CHARLIE],
                    ['--unit', 'DOT', '--decimals', '3'],
                    ['--before', self.file(self.hurt(bytes.fromhex(SOLVED_BUNDLE)), 'before')]]
            report = self.hurt(b'verdict 0\n') if self.draws.random() < 0.3 else b'verdict 0\n'
            return ['--report', self.file(report, 'report'), *self.draws.choice(more)]

        self.try_many('picture', TRIES, words, lambda: self.hurt(bytes.fromhex(SOLVED_BUNDLE)))

    def tree(self, depth: int) -> Any:
        """A JSON value of words that answers have, in any order."""
        leaves = [None, 5, 1.5, True, '', '0x', '0x12', '0x123', 'text', chain.hexed(self.raw), chain.key('M', 'Snapshot'), '9' * 40]
        names = ['result', 'error', 'Some', 'genesis', 'raw', 'top', 'changes', 'block', 'key', 'value', 'jsonrpc', 'id', 'message', 'code',
                 'voters', 'targets', chain.key('M', 'Snapshot'), chain.key('M', 'PagedVoterSnapshot'), '0x12']
        kind = self.draws.randrange(4 if depth else 1)
        if kind == 0:
            return self.draws.choice(leaves)
        below = [self.tree(depth - 1) for _ in range(self.draws.randint(0, 3))]
        return {self.draws.choice(names): one for one in below} if kind < 3 else below

    def test_json_of_any_shape(self):
        for _ in range(TRIES // 8):
            data = json.dumps(self.tree(4)).encode()
            self.check(inside('from-substrate', ['--seats', '2'], data))
            words = ['--seats', '2', '--voters', self.file(data), '--targets', self.file(data), '--pages', '1', '--queued', self.file(data)]
            self.check(inside('from-substrate', words))
            for name in (['--exposures'], ['--submission'], ['--stored'], ['--ready']):
                path = self.file(json.dumps(self.tree(4)), 'work')
                self.check(inside('from-substrate', ['--seats', str(self.seats), *name, path], self.snapshot))

    def test_words_of_scripts_without_input(self):
        words = ['--seed', '7', '--voters', '9', '--seats', '2', '--pages', '--json', '--binary', '--round', 'System', 'Account',
                 '--map', '0x01', '0x', '', '-1', '²', '--ss58', '46', '\x00', 'é', '--help', '99999999999999999999']
        for name in ('storage-key', 'storage-dump'):
            for _ in range(TRIES):
                chosen = [self.draws.choice(words) for _ in range(self.draws.randint(0, 8))]
                if '--help' not in chosen:
                    self.check(inside(name, chosen))


if __name__ == '__main__':
    unittest.main()
