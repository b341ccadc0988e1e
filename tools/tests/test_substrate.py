"""From a chain's storage to a bundle. The bytes are written out by hand in support.py, from the published types."""
import json
import tempfile
import unittest
from pathlib import Path
from typing import List

from support import (ADDRESSES, ALICE, BOB, BUNDLE, CHARLIE, DAVE, EVE, FERDIE, HAS_PROGRAM, NO_PROGRAM, ROUND, SCORE, SNAPSHOT, SOLUTION,
                     SOLVED_BUNDLE, VOTES, WIDE_SOLUTION, inside)

import program
from bundle import bundle_of

SNAPSHOT_BYTES = bytes.fromhex(SNAPSHOT)
LEFT_OUT = ['left out: 1 votes for accounts that are no targets', 'left out: 1 voters with a stake of 0: 1 (306721…22cc20)',
            'left out: 1 voters without a vote for a target: 2 (e659a7…54df4e)']


def dump() -> dict:
    """The same snapshot as the JSON of a storage dump."""
    name = ADDRESSES.get
    return {'voters': [[name(CHARLIE), 1000, [name(ALICE), name(BOB)]], [name(DAVE), 0, [name(ALICE)]],
                       [name(EVE), '500', [name(FERDIE)]], [name(ALICE), '0x28', [name(ALICE)]]], 'targets': [name(ALICE), name(BOB)]}


def length(value: int) -> str:
    """A length in one, two or four bytes, of which the lowest two bits tell how many there are."""
    mode = 0 if value < 64 else 1 if value < 16384 else 2
    return (value * 4 + mode).to_bytes(1 << mode, 'little').hex()


class FromSubstrate(unittest.TestCase):
    def setUp(self):
        self.folder = tempfile.TemporaryDirectory()
        self.addCleanup(self.folder.cleanup)

    def file(self, data) -> str:
        """A file with these bytes, or with those of a text."""
        path = Path(self.folder.name) / 'file'
        path.write_bytes(data if isinstance(data, bytes) else data.encode())
        return str(path)

    def convert(self, *words: str, data: bytes = SNAPSHOT_BYTES, seats: str = '2'):
        """What the script makes of a snapshot."""
        return inside('from-substrate', ['--seats', seats, *words], data)

    def refused(self, *words: str, data: bytes = SNAPSHOT_BYTES, seats: str = '2', says: str = ''):
        """One sentence, status 2, and nothing written."""
        done = self.convert(*words, data=data, seats=seats)
        self.assertEqual((done.out, done.status, done.err.count('\n')), (b'', 2, 1), done.err)
        self.assertIn(says, done.err)

    def notes(self, err: str) -> List[str]:
        """The lines on standard error, without the script's name."""
        return [line.partition(': ')[2] for line in err.splitlines()]

    def test_each_form_of_a_snapshot(self):
        text = f'0x{SNAPSHOT}'
        answer = json.dumps({'jsonrpc': '2.0', 'result': text, 'id': 1})
        for data in (SNAPSHOT_BYTES, text.encode(), (text + '\n').encode(), f'"{text}"'.encode(), answer.encode(),
                     json.dumps({'id': 1, 'result': text}, indent=2).encode(), json.dumps(dump()).encode()):
            with self.subTest(data[:20]):
                done = self.convert(data=data)
                self.assertEqual((done.out.hex(), done.status), (BUNDLE, 0))
                self.assertEqual(self.notes(done.err), LEFT_OUT)

    def test_json_out_and_addresses(self):
        done = self.convert('--json', '--ss58', '42', data=json.dumps(dump()).encode())
        self.assertEqual([voter['stake'] for voter in json.loads(done.out)['voters']], [1000, 40])
        self.assertIn('1 (5DAAnr…3PTXFy)', done.err)

    def test_each_form_of_a_solution(self):
        signed = CHARLIE + 'aa' * 16 + SOLUTION + 'bb' * 16
        for words, data in ((['--solution'], bytes.fromhex(SOLUTION)), (['--solution'], f'0x{SOLUTION}\n'),
                            (['--groups', '24', '--solution'], f'0x{WIDE_SOLUTION}'), (['--submission'], f'0x{signed}'),
                            (['--own-score', '--solution'], f'0x{SOLUTION}')):
            with self.subTest(words):
                done = self.convert(*words, self.file(data))
                self.assertEqual((done.out.hex(), done.status), (SOLVED_BUNDLE, 0), done.err)
                self.assertEqual(self.notes(done.err)[3:5], ['1 of the 2 entries of the solution have another voter number now',
                                                             'the solution is of round 7, which a bundle does not tell'])

    @unittest.skipUnless(HAS_PROGRAM, NO_PROGRAM)
    def test_the_moved_solution_holds(self):
        done = self.convert('--solution', self.file(f'0x{SOLUTION}'))
        self.assertEqual(program.ask(['check'], bundle_of(done.out)).text, 'verdict 0\n')

    def test_another_score_is_told_or_replaced(self):
        other = VOTES + '00' * 14 + 'f501' + SCORE[4:] + ROUND
        told = self.convert('--solution', self.file(f'0x{other}'))
        self.assertIn('the score is 500 1040 541600 here', told.err)
        self.assertEqual(told.out.hex(), SOLVED_BUNDLE.replace('01d1074110', '01d5074110'))
        self.assertEqual(self.convert('--own-score', '--solution', self.file(f'0x{other}')).out.hex(), SOLVED_BUNDLE)

    def check_entries(self, votes1: str, moved: str, says: str):
        """Entries of votes1 become other ones, with a word."""
        done = self.convert('--solution', self.file('0x' + votes1 + '00' * 15 + SCORE + ROUND))
        spelt = bytes.fromhex(moved) + bytes(15)
        self.assertTrue(done.out.endswith(bytes([len(spelt) * 4]) + spelt), done.out.hex())
        self.assertIn(says, done.err)

    def test_entries_that_cannot_stay(self):
        self.check_entries('04' + '08' + '04', '04' + '08' + '04', 'voter 2 backs target 1 in the solution and nominates no target')
        self.check_entries('04' + '14' + '00', '04' + '0c' + '00', 'the solution has an entry of voter 5, which is none')
        self.check_entries('04' + '00' + '24', '04' + '00' + '24', 'voter 0 backs number 9 in the solution, which is no target')
        self.check_entries('08' + '0400' + '0c00', '04' + '0400', 'left out: 1 entries of the solution, of voters with a stake of 0')

    def test_bytes_that_are_none(self):
        self.refused(data=SNAPSHOT_BYTES[:-1], says='the snapshot: at byte 358 the bytes end too early')
        self.refused(data=SNAPSHOT_BYTES + b'\0', says='bytes follow')
        self.refused(data=b'', says='the bytes end too early')
        self.refused(data=b'0x123', says='no text of an even number of hexadecimal digits')
        self.refused(data=b'{"jsonrpc":"2.0","result":null,"id":1}', says='the node answered null')
        self.refused(data=b'{"jsonrpc":"2.0","error":{"code":-32000},"id":1}',
                     says='the node answered with an error: it does not say which (code -32000)')
        self.refused(data=b'{"jsonrpc":"2.0","id":1}', says='without a result')
        self.refused('--solution', self.file(bytes.fromhex(SOLUTION)[:-1]), says='the solution: ')
        self.refused('--solution', self.file(f'0x{WIDE_SOLUTION}'), says='--groups 24 reads it')
        self.refused('--groups', '24', '--solution', self.file(f'0x{SOLUTION}'), says='--groups 16 reads it')
        self.refused('--solution', '/nowhere', says='/nowhere: No such file')

    def test_json_that_is_none(self):
        for change, says in (({'voters': {}}, 'exactly the lists'), ({'more': []}, 'exactly the lists'), ({'voters': [[1]]}, 'voter 0 is not'),
                             ({'voters': [[ADDRESSES[EVE], 1.5, []]]}, 'the stake of voter 0'), ({'targets': [5]}, 'target 0'),
                             ({'voters': [[ADDRESSES[EVE], 1 << 64, []]]}, 'below 2^64'),
                             ({'targets': [ADDRESSES[EVE][:-1] + 'x']}, 'its check does not fit')):
            with self.subTest(says):
                self.refused(data=json.dumps({**dump(), **change}).encode(), says=says)
        self.refused('--ss58', '0', data=json.dumps(dump()).encode(), says='is an address of prefix 42, where prefix 0 was asked for')
        self.refused(data=b'{"voters":' + b'[' * 100000, says='has no reading as JSON')

    def test_limits_are_named(self):
        account = '{:064x}'.format

        def voters(count: int, stake: int = 9) -> str:
            spelt = stake.to_bytes(8, 'little').hex()
            return length(count) + ''.join(f'{account(i)}{spelt}04{account(0)}' for i in range(count))

        def targets(count: int) -> str:
            return length(count) + ''.join(map(account, range(count)))

        for data, seats, says in (
                (voters(65536) + targets(64), '2', '65,536 voters do not fit: there are at most 65,535 voters'),
                ('00' + targets(4097), '2', '4,097 targets do not fit: there are at most 4,096 targets'),
                (voters(2) + targets(2), '2049', '2,049 seats do not fit: there are 1 to 2,048 seats'),
                (voters(2) + targets(2), '0', '0 seats do not fit'),
                (voters(2, 1 << 63) + targets(2), '2', 'a total stake of 18,446,744,073,709,551,616 does not fit: it is below 2^64'),
                (voters(2) + targets(64), '65', '64 targets are too few for 65 seats'),
                (voters(2) + targets(512), '400', 'too little for 400 seats'),
                ('04' + account(7) + '09' + '00' * 7 + '64' + ''.join(map(account, range(25))) + targets(64), '2',
                 'nominates 25 targets, which do not fit: a voter has at most 24 votes'),
                (voters(2) + '08' + account(3) * 2, '1', 'targets 0 and 1 of the snapshot have one account')):
            with self.subTest(says):
                self.refused(data=bytes.fromhex(data), seats=seats, says=says)

    def test_what_npos_live_alone_takes_is_told(self):
        account = '{:064x}'.format
        spelt = '04' + account(7) + '00' * 7 + '01' + '04' + account(0) + length(513) + ''.join(map(account, range(513)))
        done = self.convert(data=bytes.fromhex(spelt), seats='513')
        self.assertEqual(self.notes(done.err), ['over a limit of npos: 513 seats do not fit: there are 1 to 512 seats; npos-live takes '
                                                'this election'])

    def test_a_solution_over_the_limits(self):
        great = VOTES + '00' * 14 + '00' * 8 + '01' + '00' * 7 + SCORE[32:] + ROUND
        self.refused('--solution', self.file('0x' + great), says='below 2^64')


if __name__ == '__main__':
    unittest.main()
