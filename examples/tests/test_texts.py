"""Texts and their bytes: worked bytes, what encode refuses, what decode says of damaged bytes, and both ways of all examples."""
import pathlib
import shlex
import subprocess
import sys
from typing import Tuple

from support import EXAMPLES, TOP, Scripts, account, environment, run

from npos_text import Fault, Reader, Reading, Refusal, compact, encode

ONE, TWO, NINE = account(1), account(2), account(9)
TRANSFERS = f'''
    00 08 {ONE} 9101 {TWO} 00
    01 04 08 {ONE} 00 {TWO} a0 {ONE} 00 {TWO} f4
    00'''
YES = f'''
    08 0c {ONE} {TWO} {account(3)} 08 {account(4)} f0 04 00 {account(5)} a0 04 04
    01 a0 9101 5014 {'00' * 14} 50 08000004 04 {'00' * 15}'''
PARAMS = f'{NINE} 08 18 08 08 04 04 08 9101 a10f 0c a10f 30 14 a10f'

FULL = '''root @9
seats 2
era_blocks 6
offset 2
signed 2
bonding_eras 1
least_bond 1
thresholds 100 1000
queue 3
solution_max 1000
deposit 12
reward 5
era_reward 1000'''

BUNDLE = 'bundle\nseats 1\ntarget @1\nvoter @2 5 0\n'
GENESIS = 'genesis plain\nendow @1 100\n'
POOL = 'pool @9\nbonding_eras 1\nendow @1 100\n'
STATE = 'state plain\ndue 1\nsums 100 0 0\nrow @1 100 0 0\n'
PLAIN = f'''
    00 00 04 9101 00 00
    01 {ONE} 9101 00 00 00 01 {TWO} 00 00 00 00
    00 00 00 00 04 00 00 04 00'''
WAITING = STATE + 'next_submission 1\nwaiting\ntarget @1 0\nvoter @1 60 0\n'

# a text, and the sentence with which it is refused
FIRST = 'genesis plain, genesis full, genesis deferred, bundle, pool, state plain or state full'
REFUSED = [
    ('', f'line 1: there stands nothing, and {FIRST} was expected'),
    ('hello', f'line 1: there stands hello, and {FIRST} was expected first'),
    ('genesis', 'line 1: genesis needs: plain, full or deferred; there stands: nothing'),
    (GENESIS + 'block 1\ncall @1 transfer @2\nend', 'line 4: transfer needs: account number; there stands: @2'),
    (GENESIS + 'block 1\ncall @1 points @1\nend', 'line 4: points needs: account number ..; there stands: @1'),
    (GENESIS + 'block 1\ncall @1 chill 5\nend', 'line 4: chill needs: nothing more; there stands: 5'),
    (GENESIS + 'block 1\ncall @1\nend', 'line 4: call needs: account kind ..; there stands: @1'),
    (GENESIS + 'block 1\ncall 7 chill\nend',
     'line 4: there stands 7, and an account was expected: @ with a number, or 64 hexadecimal digits'),
    (GENESIS + 'call @1 chill\nend', 'line 3: there stands call, and a line block was expected before it'),
    ('genesis plain\nendow @1 5 6\nend', 'line 2: endow needs: account number; there stands: @1 5 6'),
    ('genesis plain\nendow @1 -5\nend', 'line 2: there stands -5, and a number below 2^64 was expected'),
    (f'genesis plain\nendow @1 {1 << 64}\nend',
     'line 2: there stands 18446744073709551616, and a number below 2^64 was expected'),
    ('genesis plain\ngenesis plain\nend', 'line 2: there stands genesis, which stands in line 1 already'),
    ('genesis plain\nseats 2\nend',
     'line 2: there stands seats, and params were expected only in a genesis that has them, before its blocks'),
    ('genesis full\ndefer_eras 2\nend',
     'line 2: there stands defer_eras, and params were expected only in a genesis that has them, before its blocks'),
    ('genesis deferred\n' + FULL + '\nend', 'line 15: there is no line defer_eras, which was expected'),
    (GENESIS + 'block 1\nendow @2 1\nend', 'line 4: there stands endow, which was expected before the blocks alone'),
    (GENESIS, 'line 3: there is no line end, which was expected'),
    (GENESIS + 'end\nblock 1', 'line 4: there stands block behind the end, and nothing was expected but bytes or cut'),
    ('genesis full\n' + FULL.replace('queue 3\n', '') + '\nend', 'line 14: there is no line queue, which was expected'),
    ('genesis full\n' + FULL + '\nqueue 4\nend', 'line 15: there stands queue, which stands in line 10 already'),
    (GENESIS + 'block 1\n' + 'call @1 chill\n' * 65 + 'end', 'line 68: there stand 65 calls in a block, and at most 64 were expected'),
    ('bundle\ntarget @1\nnothing', 'line 4: there is no line seats, which was expected'),
    (BUNDLE, 'line 5: there is no work, and a line nothing, packed or plain was expected'),
    (BUNDLE + 'plain\nnothing', 'line 6: there stands nothing, but the work, which stands in line 5 already'),
    (BUNDLE + 'plain', 'line 6: there is no line committee, which was expected'),
    (BUNDLE + 'plain\ncommittee 0\nedge 0 0', 'line 7: edge needs: voter target amount; there stands: 0 0'),
    (BUNDLE + 'edge 0 0 5', 'line 5: there stands edge, and a line plain was expected before it'),
    (BUNDLE + 'packed 5 5 25', 'line 5: packed needs: least-support sum squares solution; there stands: 5 5 25'),
    (BUNDLE + 'packed 5 5 25 0', 'line 5: there stands 0, and an entry voter:target/share,..,last with at most 24 targets was expected'),
    (BUNDLE + 'packed 5 5 25 0:70000', 'line 5: there stands 70000, and a number below 2^16 was expected'),
    (BUNDLE + 'packed 5 5 25 hex:0', 'line 5: there stands 0, and hexadecimal digits, two a byte, were expected'),
    (BUNDLE + 'seats 1\nnothing', 'line 5: there stands seats, which stands in line 2 already'),
    (BUNDLE + 'nothing\nbytes 00\nseats 1', 'line 7: there stands seats behind bytes or cut, and only such lines were expected'),
    (BUNDLE + 'nothing\ncut 1000', 'line 6: there stands 1000, and at most the 71 bytes before it were expected'),
    (BUNDLE + 'nothing\nbytes 0', 'line 6: there stands 0, and hexadecimal digits, two a byte, were expected'),
    ('pool @9\nitem @1 join 5\nend', 'line 2: there is no line bonding_eras, which was expected'),
    (POOL + 'item @1 join\nend', 'line 4: join needs: number; there stands: nothing'),
    (POOL + 'item @1 bond 5\nend',
     'line 4: there stands bond, and a kind of item was expected: join, leave, redeem, reward, claim, slash, next_era'),
    (POOL + 'item @1 redeem\nendow @2 5\nend', 'line 5: there stands endow, which was expected before the items alone'),
    (POOL + 'end\nitem @1 redeem', 'line 5: there stands item behind the end, and nothing was expected but bytes or cut'),
    (POOL + 'item @1 redeem', 'line 5: there is no line end, which was expected'),
    ('state\ndue 1', 'line 1: state needs: plain or full; there stands: nothing'),
    ('state plain\nseats 2',
     'line 2: there stands seats, and params were expected only in a state that has them, behind its first line'),
    (STATE + 'due 2', 'line 5: there stands due, which was expected before row'),
    (STATE + 'row @2 5 0', 'line 5: row needs: account free active value/release .. held; there stands: @2 5 0'),
    (STATE + 'row @2 5 0 3/2/1 0', 'line 5: each of them needs: value release; there stands: 3 2 1'),
    (STATE + 'role @1 0 pool', 'line 5: there stands pool, and one of these words was expected: nominator, validator'),
    (STATE + 'member @1 0 7 claimed 0', 'line 5: there stands member, and it was expected behind era'),
    (STATE + 'target @1 0', 'line 5: there stands target, and it was expected behind round or waiting'),
    (STATE + 'round\nround', 'line 6: there stands round, which stands in line 5 already'),
    (STATE, 'line 5: there is no line next_submission, which was expected'),
    (STATE + 'next_submission 1\nnext_submission 1', 'line 6: there stands next_submission, which stands in line 5 already'),
    (STATE + 'next_submission 1\nblock 1', 'line 6: there is no line next_slash, which was expected'),
    (WAITING + 'next_slash 1', 'line 10: there is no line committee, which was expected'),
    (STATE + 'next_submission 1\nnext_slash 1\nblock 1', 'line 8: there is no line end, which was expected'),
    (STATE + 'next_submission 1\nnext_slash 1\nend\nblock 1',
     'line 8: there stands block behind the end, and nothing was expected but bytes or cut'),
    (STATE + 'next_submission 1\n' + 'submission 1 @1 1 1 1 0:0\n' * 17, 'line 22: there stand 17 submissions, and at most 16 were expected'),
    ('state full\nroot @9\ndue 1\nsums 0 0 0\nnext_submission 1\nnext_slash 1\nend', 'line 7: there is no line seats, which was expected'),
]


class Bytes(Scripts):
    def test_worked_numbers(self) -> None:
        for value, digits in [(63, 'fc'), (64, '0101'), (16383, 'fdff'), (16384, '02000100'), ((1 << 30) - 1, 'feffffff'),
                              (1 << 30, '0300000040'), ((1 << 64) - 1, '13' + 'ff' * 8)]:
            self.assertEqual(compact(value).hex(), digits)
            self.assertEqual(Reader(bytes.fromhex(digits)).compact(), value)

    def test_refused_numbers(self) -> None:
        for digits, bits, why in [('0100', 32, 'notshortest'), ('070000004000', 64, 'notshortest'), ('01', 32, 'short'),
                                  ('17' + 'ff' * 9, 64, 'toowide'), ('02000400', 16, 'toowide'), ('07', 32, 'toowide')]:
            with self.assertRaises(Refusal) as caught:
                Reader(bytes.fromhex(digits)).compact(bits)
            self.assertEqual((caught.exception.at, caught.exception.why), (0, why))

    def test_worked_texts(self) -> None:
        text = GENESIS + 'endow @2 0\nblock 1\ncall @1 transfer @2 40\ncall @1 transfer @2 61\nend'
        self.assertEqual(encode(text).hex(), ''.join(TRANSFERS.split()))
        self.assertEqual((EXAMPLES / 'transfers.scale').read_bytes().hex(), ''.join(TRANSFERS.split()))
        self.assertEqual(encode((EXAMPLES / 'check/yes.txt').read_text()).hex(), ''.join(YES.split()))
        self.assertEqual(encode('genesis full\n' + FULL + '\nend').hex(), '0100' + ''.join(PARAMS.split()) + '00')
        work = encode(BUNDLE + 'packed 3 10 58 0:0/21845,1')
        self.assertTrue(work.hex().endswith('000400005655010004' + '00' * 14))
        deferred = encode('genesis deferred\n' + FULL + '\ndefer_eras 1\nblock 1\ncall @9 cancel_slash 1\nend')
        self.assertEqual(deferred.hex(), '0200' + ''.join(PARAMS.split()) + f'04 010404{NINE}0f0400'.replace(' ', ''))
        wide = encode(BUNDLE + 'packed 5 5 25 wide 0:0')
        self.assertTrue(wide.hex().endswith('6cff040000' + '00' * 23), wide.hex())
        items = 'item @1 join 60\nitem @1 leave 6\nitem @1 redeem\nitem @1 reward 1\nitem @1 claim\nitem @9 slash 5\nitem @9 next_era\n'
        spelled = f'04{ONE}9101{NINE}04' + ''.join(
            f'01{who}{kind}' for who, kind in [(ONE, '00f0'), (ONE, '0118'), (ONE, '02'), (ONE, '0304'), (ONE, '04'), (NINE, '0514'), (NINE, '06')])
        self.assertEqual(encode(POOL + items + 'end').hex(), spelled + '00')

    def test_worked_states(self) -> None:
        plain = (EXAMPLES / 'checkpoint/plain.state').read_text()
        self.assertEqual(encode(plain).hex(), ''.join(PLAIN.split()))
        self.assertEqual(encode(plain + 'block 1\nend').hex(), ''.join(PLAIN.split()) + '01040000')
        self.assertEqual(encode(plain + 'end').hex(), ''.join(PLAIN.split()) + '00')
        full = encode('state full\n' + FULL + '\ndefer_eras 2\ndue 1\nsums 0 0 0\nnext_submission 1\nnext_slash 1')
        self.assertEqual(full.hex(), '0001' + ''.join(PARAMS.split()) + '08' + '04000000' + '000000' + '00' + '0400' + '00' + '0400')
        row = encode(STATE + 'row @2 5 6 7/1 8/2 9\nbytes 00')
        self.assertTrue(row.hex().endswith(f'01{TWO}1418081c0420082400'), row.hex())

    def test_a_state_to_be_damaged_ends_where_its_text_does(self) -> None:
        for text, more in [('state plain\n', '01'), ('state plain\ndue 1\n', '01'), (STATE, '02'), (STATE + 'next_submission 1\n', '50'),
                           (STATE + 'role @1 0 validator 5\n', '0105')]:
            data = encode(text + 'bytes ' + more)
            self.assertEqual(data.hex()[-len(more):], more)
            self.assertEqual(encode(Reading(data, 'state').text()), data, text)

    def test_refused_texts(self) -> None:
        for text, sentence in REFUSED:
            with self.subTest(text=text), self.assertRaises(Fault) as caught:
                encode(text)
            self.assertEqual(str(caught.exception), sentence)

    def test_encode(self) -> None:
        self.assertEqual(self.written('encode', data=b'bytes 00ff'), b'\x00\xff')
        self.assertEqual(self.refused('encode', data=b'bundle\nseats 1 1\n'), 'line 2: seats needs: number; there stands: 1 1')
        self.assertEqual(self.refused('encode', data=b'bundle\n\xff'), 'line 2: there stands a byte ff, and UTF-8 was expected')

    def test_examples_both_ways(self) -> None:
        for path in sorted(path for end in ('txt', 'bundle', 'state') for path in EXAMPLES.glob(f'*/*.{end}')):
            if path.name.startswith('fault-') and path.with_suffix('.out').read_text().split()[-1].isalpha():
                continue
            data = encode(path.read_text())
            reading = Reading(data, form_of(path))
            self.assertIsNone(reading.fault, path)
            self.assertEqual(encode(reading.text()), data, path)


def form_of(path: pathlib.Path) -> str:
    """What the bytes of an example are."""
    if path.suffix == '.state':
        return 'state'
    return {'replay': 'stream', 'checkpoint': 'stream', 'resume': 'state', 'pools': 'pool'}.get(path.parent.name, 'bundle')


class Decoding(Scripts):
    def decoded(self, data: bytes, *words: str) -> Tuple[str, str]:
        """The last line and the sentence on bytes that cannot be read."""
        done = run(EXAMPLES / 'decode', *words, data=data)
        self.assertEqual(done.returncode, 2)
        return ' '.join(done.stdout.decode().splitlines()[-1].split()), done.stderr.decode()[8:-1]

    def test_faults_of_examples(self) -> None:
        for name in ['badtag', 'notshortest', 'short', 'toomany', 'toowide', 'trailing']:
            text = (EXAMPLES / f'replay/fault-{name}.txt').read_text()
            due = (EXAMPLES / f'replay/fault-{name}.out').read_text().split()
            last, _ = self.decoded(encode(text))
            self.assertTrue(last.endswith(f'# at {due[-2]}: {due[-1]}'), last)

    def test_faults_of_states(self) -> None:
        for name in ['badtag', 'short', 'trailing']:
            due = (EXAMPLES / f'resume/fault-{name}.out').read_text().split()
            last, _ = self.decoded(encode((EXAMPLES / f'resume/fault-{name}.txt').read_text()), 'state')
            self.assertTrue(last.endswith(f'# at {due[-2]}: {due[-1]}'), last)

    def test_the_rest_is_a_line_of_bytes(self) -> None:
        data = encode(GENESIS + 'block 1\nend')[:-1] + b'\x07'
        last, said = self.decoded(data)
        self.assertEqual(last, 'bytes 07 # at 39: badtag')
        self.assertEqual(said, 'the bytes cannot be read as a stream at 39: badtag')
        self.assertEqual(encode(Reading(data, 'stream').text()), data)

    def test_hints(self) -> None:
        bundle = encode((EXAMPLES / 'check/yes.txt').read_text())
        stream = (EXAMPLES / 'transfers.scale').read_bytes()
        self.assertIn('as a bundle they can be: examples/decode bundle', self.decoded(bundle)[1])
        self.assertIn('as a stream they can be: examples/decode stream', self.decoded(stream, 'bundle')[1])
        self.assertIn('as a pool they can be: examples/decode pool', self.decoded(encode(POOL + 'end'))[1])
        self.assertIn('as a state they can be: examples/decode state', self.decoded(bytes.fromhex(PLAIN))[1])

    def test_words(self) -> None:
        self.assertIn(b'row @1 100 0 0', self.written('decode', 'state', data=bytes.fromhex(PLAIN)))
        self.assertIn(b'target @1', self.written('decode', 'bundle', data=encode((EXAMPLES / 'check/yes.txt').read_text())))


class Words(Scripts):
    def test_help_and_unknown_words(self) -> None:
        paths = [EXAMPLES / name for name in ['encode', 'decode', 'cut', 'rounds', 'expand', 'explain', 'generate', 'tiny-miner', 'shape', 'run']]
        for path in [*paths, TOP / 'bench/run', TOP / 'bench/failures']:
            with self.subTest(path=path.name):
                helped = run(path, '--help')
                self.assertEqual((helped.returncode, helped.stderr), (0, b''))
                unknown = run(path, '--unknown')
                self.assertEqual((unknown.returncode, unknown.stdout), (2, b''))
                said = unknown.stderr.decode()
                self.assertTrue(said.startswith(f'{path.name}: ') and said.endswith('; --help tells how it is used\n'), said)
                self.assertEqual(said.count('\n'), 1, said)

    def test_closed_streams(self) -> None:
        for closing, words, what in [('<&-', 'encode', 'input'), ('>&-', 'generate --seed 1 --voters 9 --seats 2', 'output')]:
            command = f'{shlex.join([sys.executable, str(EXAMPLES)])}/{words} {closing}'
            done = subprocess.run(['sh', '-c', command], stderr=subprocess.PIPE, env=environment())
            self.assertEqual((done.returncode, done.stderr.decode()), (2, f'{words.split()[0]}: standard {what} is closed\n'))
