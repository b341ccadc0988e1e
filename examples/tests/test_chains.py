"""The rounds of a stream and the remarks on what was written of it: a round worked by hand, and all examples."""
import pathlib
import tempfile
from typing import Tuple

from support import EXAMPLES, Scripts, account, ask, needs_program

from npos_text import Fault, account_of, decode, encode
from npos_text.chains import rounds_of, stream_of
from npos_text.cutting import cut
from npos_text.elections import fill

SOLUTION = '0:0 1:1'
GENESIS = '''genesis full
endow @1 100
endow @2 100
endow @3 100
endow @7 100
endow @8 100
root @9
seats 2
era_blocks 6
offset 2
signed 2
bonding_eras 1
least_bond 1
thresholds 100 1000
queue 3
solution_max 1000
deposit 12
reward 5
era_reward 1000
'''
STREAM = GENESIS + f'''block 1
call @1 bond 60
call @1 validate 100000000
call @2 bond 40
call @2 validate 0
call @3 bond 30
call @3 validate 0
block 2
block 3
call @7 submit 1 40 100 5200 {SOLUTION}
call @7 submit 1 39 100 5200 {SOLUTION}
call @8 submit 1 38 100 5200 {SOLUTION}
call @8 submit 1 38 100 5200 {SOLUTION}
call @8 submit 1 41 100 5200 {SOLUTION}
block 4
block 5
end
'''
RECEIPTS = f'''block 1
call 0 ok
call 1 ok
call 2 ok
call 3 ok
call 4 ok
call 5 ok
block 2
block 3
snapshot 1 targets 3 voters 3 total 130
call 0 ok
call 1 ok
call 2 ok
call 3 refused 20
call 4 ok
return 3 12
block 4
block 5
forfeit 4 12 verdict 9 40 100 5200
return 1 12
reward 1 5
return 2 12
seat 1 signed 1
member {account(1)} 60
member {account(2)} 40
end free 363 active 130 unlocking 0 deposits 0 minted 5 burned 12 issuance 493
'''
ELECTION = '''bundle
seats 2
target @1
target @2
target @3
voter @1 60 0
voter @2 40 1
voter @3 30 2
'''
# the line, and what is said of it
REMARKS = {
    'call 1 ok': '@7 submit 1 39 100 5200 0:0 1:1',
    'call 3 refused 20': '@8 submit 1 38 100 5200 0:0 1:1: not better than the last of a full queue',
    'return 3 12': 'handed in by @8, block 3, call 2',
    'forfeit 4 12 verdict 9 40 100 5200': 'handed in by @8, block 3, call 4: another score than the claim: 40 100 5200',
    'reward 1 5': 'handed in by @7, block 3, call 0',
    'seat 1 signed 1': 'handed in by @7, block 3, call 0',
}
# lines that speak for themselves, and what is said of them
ALONE = {
    'call 0 refused 15': 'a fraction that is 0 or above 10^9, or a commission above it',
    'void 1 poor': 'the stake is below seats times seats',
    'verdict 10 2 50': 'the nominators of target 2, which is outside, have 50 left over: at least the price of a seat',
    'verdict 1 20 6': 'the solution cannot be read from byte 20 on: a byte stands behind the end',
    'fault 0 snapshot 2 3 2': 'the total is below seats times seats',
    'fault 0 genesis 1 1': 'the account of this endowment stands earlier',
    'fault 36 short': 'bytes are missing from there on',
    'lost 1': 'packing leaves this member without an edge',
    'fault 0 checkpoint 2 3': 'the params have a fault of a genesis: the seats are not 1 to 512',
    'fault 0 checkpoint 9 3': 'row 3 does not hold the deposits of its submissions',
    'fault 0 checkpoint 11 11 0': 'the committee that waits has another verdict than yes: voter 0 gives more than its stake',
}


def split(line: str) -> Tuple[str, str]:
    """A line and its remark."""
    told, _, said = line.partition('#')
    return told.strip(), said.strip()


class Chains(Scripts):
    def setUp(self) -> None:
        folder = tempfile.TemporaryDirectory()
        self.addCleanup(folder.cleanup)
        self.stream, self.receipts = pathlib.Path(folder.name, 'stream'), pathlib.Path(folder.name, 'receipts')
        self.stream.write_bytes(encode(STREAM))
        self.receipts.write_text(RECEIPTS)


class Rounds(Chains):
    def rounds(self, *words: str) -> bytes:
        return self.written('rounds', '--receipts', str(self.receipts), *words, data=self.stream.read_bytes())

    def test_a_round_by_hand(self) -> None:
        self.assertEqual(self.rounds().decode(), '# round 1, block 3: 3 targets, 3 voters, total 130\n' + ELECTION + 'nothing\n')
        self.assertEqual(self.rounds('--round', '1'), encode(ELECTION + f'packed 40 100 5200 {SOLUTION}'))
        self.assertEqual(self.rounds('--submission', '4'), encode(ELECTION + f'packed 41 100 5200 {SOLUTION}'))

    def test_what_is_not_there(self) -> None:
        words = ('--receipts', str(self.receipts))
        data = self.stream.read_bytes()
        self.assertEqual(self.refused('rounds', *words, '--round', '2', data=data),
                         'there stands round 2, and one that has a snapshot was expected: [1]')
        self.assertEqual(self.refused('rounds', *words, '--submission', '5', data=data),
                         'there stands submission 5, and one of the 4 accepted was expected')
        self.receipts.write_text(RECEIPTS.replace('voters 3', 'voters 4'))
        self.assertEqual(self.refused('rounds', *words, data=data),
                         'line 10: there stands snapshot 1 targets 3 voters 4 total 130, and by the stream '
                         'targets 3 voters 3 total 130 was expected')
        self.assertIn('a bundle, and a stream was expected', self.refused('rounds', *words, data=encode(ELECTION + 'nothing')))

    def test_all_examples(self) -> None:
        snapshots = fills = 0
        for path in sorted([*EXAMPLES.glob('replay/*.txt'), *EXAMPLES.glob('resume/*.txt')]):
            text, lines = path.read_text(), path.with_suffix('.out').read_text().splitlines()
            if path.parent.name == 'resume' and path.stem.startswith('fault-'):
                continue
            rounds = rounds_of(stream_of(encode(text)), lines)
            snapshots += len(rounds)
            self.assertEqual(len(rounds), sum(line.startswith('snapshot') for line in lines) + text.count('\nround\n'), path)
            for one in rounds:
                if one.seated and one.seated[0][2] == 'fill':
                    fills += 1
                    supports = fill(one.election).supports()
                    due = [['member', account_of(one.election.targets[who]).hex(), str(supports[who])] for who in sorted(supports)]
                    self.assertEqual(one.seated[1:], due, path)
        self.assertGreater(min(snapshots, fills), 5)

    def test_a_state_goes_on_as_the_chain_does(self) -> None:
        """Cut behind block 3, the state has the round and what waits for it."""
        text = (EXAMPLES / 'resume/open.txt').read_text()
        words = ('--receipts', str(EXAMPLES / 'resume/open.out'))
        for choice in ['--round=1', '--submission=4']:
            self.assertEqual(self.written('rounds', *words, choice, data=encode(text)), self.rounds(*choice.split('=')))

    @needs_program
    def test_wherever_a_chain_is_cut(self) -> None:
        """What is replayed is what is replayed of the front, but its end line, and what is written of its state with the rest."""
        for name in ['ordinary', 'deferred', 'payout', 'offence', 'unbond', 'transfer']:
            data = encode((EXAMPLES / f'replay/{name}.txt').read_text())
            whole = ask('replay', data=data).stdout
            count = whole.count(b'\nblock ') + 1
            for block in range(count + 1):
                front, rest = cut(data, None, block), cut(data, block + 1, None)
                state = ask('checkpoint', data=front).stdout
                self.assertEqual(encode(decode(state, 'state')), state)
                told = ask('replay', data=front).stdout.splitlines(keepends=True)[:-1]
                self.assertEqual(b''.join(told) + ask('resume', data=state + rest).stdout, whole, (name, block))

    @needs_program
    def test_with_the_program(self) -> None:
        data = self.written('rounds', '--submission', '4', data=self.stream.read_bytes())
        self.assertEqual(ask('check', data=data).stdout, b'verdict 9 40 100 5200\n')


class Explaining(Chains):
    def test_remarks_by_hand(self) -> None:
        lines = self.written('explain', str(self.stream), data=RECEIPTS.encode()).decode().splitlines()
        self.assertEqual(len(lines), len(RECEIPTS.splitlines()))
        said = dict(map(split, lines[9:]))
        for line, remark in REMARKS.items():
            self.assertEqual(said[line], remark)
        self.assertIn('member @1 60', said)

    def test_lines_alone(self) -> None:
        lines = self.written('explain', data='\n'.join(ALONE).encode()).decode().splitlines()
        self.assertEqual(dict(map(split, lines)), ALONE)

    def test_accounts_in_short(self) -> None:
        written = self.written('explain', data=f'member {"3f9a1b" + "0" * 52 + "0c2d4e"} 5\nmember {account(7)} 6\n'.encode())
        self.assertEqual(written, b'member 3f9a1b..0c2d4e 5\nmember @7 6\n')

    def test_where_a_fault_lies(self) -> None:
        for name, due in [('short', 'in call 0 of block 1'), ('toomany', 'in block 1'), ('trailing', 'behind block 1'),
                          ('toowide', 'in the genesis'), ('number', 'in block 3')]:
            self.stream.write_bytes(encode((EXAMPLES / f'replay/fault-{name}.txt').read_text()))
            receipts = (EXAMPLES / f'replay/fault-{name}.out').read_bytes()
            written = self.written('explain', str(self.stream), data=receipts).decode()
            self.assertEqual(written.splitlines()[-1].split('; ')[-1], due)

    def test_what_is_written_of_a_state(self) -> None:
        self.stream.write_bytes(encode((EXAMPLES / 'resume/open.txt').read_text()))
        lines = self.written('explain', str(self.stream), data=(EXAMPLES / 'resume/open.out').read_bytes()).decode().splitlines()
        self.assertEqual(split(lines[3]), ('return 1 12', 'handed in by @7, before the state'))
        for name, due in [('short', 'in the state'), ('number', 'in block 7'), ('trailing', 'behind block 1')]:
            self.stream.write_bytes(encode((EXAMPLES / f'resume/fault-{name}.txt').read_text()))
            receipts = (EXAMPLES / f'resume/fault-{name}.out').read_bytes()
            written = self.written('explain', str(self.stream), data=receipts).decode()
            self.assertEqual(written.splitlines()[-1].split('; ')[-1], due)

    def test_refused(self) -> None:
        self.assertEqual(self.refused('explain', data=b'verdict 0\nhello\n'),
                         'line 2: there stands hello, and a line that npos writes was expected')
        self.assertEqual(self.refused('explain', str(self.stream), data=b'block 1\ncall 7 ok\n'),
                         'line 2: there stands call 7 ok, and block 1 of the stream has 6 calls')
        self.assertIn('No such file', self.refused('explain', '/no/such/file'))

    def test_every_line_of_the_examples_is_known(self) -> None:
        for path in EXAMPLES.glob('*/*.out'):
            if path.parent.name != 'show':
                self.written('explain', data=path.read_bytes())


class Cutting(Chains):
    def test_a_stream(self) -> None:
        data = self.stream.read_bytes()
        self.assertEqual(self.written('cut', data=data), data)
        self.assertEqual(self.written('cut', '--to', '0', data=data), encode(GENESIS + 'end'))
        self.assertEqual(self.written('cut', '--to', '3', data=data), encode(STREAM.split('block 4')[0] + 'end'))
        self.assertEqual(self.written('cut', '--from', '4', '--to', '4', data=data), bytes.fromhex('0110 00 00'))
        self.assertEqual(self.written('cut', '--from', '6', data=data), b'\x00')

    def test_a_state(self) -> None:
        text = (EXAMPLES / 'resume/open.txt').read_text()
        self.assertEqual(self.written('cut', '--to', '3', data=encode(text)), encode(text.split('block 4')[0] + 'end'))
        self.assertEqual(self.written('cut', '--from', '5', data=encode(text)), bytes.fromhex('0114 00 00'))

    def test_refused(self) -> None:
        data = self.stream.read_bytes()
        for words, said in [(['--to', '6'], 'there stands 6, and a block from 1 to 5 was expected'),
                            (['--from', '7'], 'there stands 7, and a block from 1 to 5 was expected'),
                            (['--from', '4', '--to', '2'], 'there stands 2, and a block from 4 on was expected')]:
            self.assertEqual(self.refused('cut', *words, data=data), said)
        self.assertEqual(self.refused('cut', data=data[:-1]), 'the bytes cannot be read as a stream at 814: short')


class Faults(Scripts):
    def test_a_stream_that_ends_in_its_genesis(self) -> None:
        self.assertEqual(rounds_of(stream_of(encode(GENESIS + 'cut 40')), ['fault 39 short']), [])
        with self.assertRaises(Fault):
            stream_of(encode(ELECTION + 'nothing'))

    def test_a_state_that_is_refused_has_no_round(self) -> None:
        text = (EXAMPLES / 'checkpoint/open.state').read_text()
        self.assertEqual(len(rounds_of(stream_of(encode(text)), [])), 1)
        self.assertEqual(rounds_of(stream_of(encode(text.replace('era_blocks 6', 'era_blocks 0'))), ['fault 0 checkpoint 2 4']), [])
        self.assertEqual(rounds_of(stream_of(encode(text)[:-1]), ['fault 500 short']), [])
