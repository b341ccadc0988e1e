"""The scripts as they are called: their words, their refusals, and the way from a storage dump to a picture."""
import hashlib
import re
import tempfile
import unittest
import xml.etree.ElementTree as tree
from pathlib import Path

from support import ADDRESSES, ALICE, BUNDLE, CHARLIE, HAS_PROGRAM, NO_PROGRAM, SOLVED_BUNDLE, Files, inside, script

import program
import twox
from bundle import bundle_of

SCRIPTS = ['audit-substrate', 'from-substrate', 'to-substrate', 'storage-dump', 'picture', 'compare-miners', 'storage-key']
GENERATED = ['--seed', '7', '--voters', '300', '--seats', '8']
# what npos check and npos mine --miner seq write of the bundle in support.py
CHECKED = b'verdict 0\n'
FILLED = (f'member {ALICE} 520\nmember 8eaf04151687736326c9fea17e25fc5287613693c912909cb226aa4794f26a48 480\n'
          'score 480 1000 500800\nverdict 0\n').encode()


class Words(unittest.TestCase):
    def test_help(self):
        for name in SCRIPTS:
            done = script(name, ['--help'])
            self.assertEqual((done.status, done.err), (0, ''))
            self.assertIn(f'usage: {name}', done.out.decode())

    def test_unknown_words_are_refused(self):
        for name in SCRIPTS:
            for words in (['--nonsense'], ['nonsense', 'more', 'words', 'than', 'are', 'known'], ['--see', '1']):
                done = inside(name, words)
                self.assertEqual((done.out, done.status, done.err.count('\n')), (b'', 2, 1), done.err)

    def test_words_out_of_range(self):
        for name, words in (('from-substrate', ['--seats', '-1']), ('from-substrate', ['--seats', '2', '--groups', '20']),
                            ('from-substrate', ['--seats', '2', '--ss58', '46']), ('from-substrate', ['--seats', '²']),
                            ('storage-dump', [*GENERATED[:4], '--seats', '1025']), ('compare-miners', ['--rounds', '0']),
                            ('picture', ['--miner', 'best']), ('picture', ['--decimals', '19']),
                            ('storage-key', ['System', 'Account', '--map', '0x1']), ('storage-key', ['System', ''])):
            with self.subTest(words):
                done = inside(name, words)
                self.assertEqual((done.out, done.status, done.err.count('\n')), (b'', 2, 1), done.err)

    def test_no_bundle_and_no_program(self):
        for name, data, words in (('picture', b'', []), ('compare-miners', b'{', []), ('picture', bytes.fromhex(BUNDLE), []),
                                  ('compare-miners', bytes.fromhex(BUNDLE), []), ('picture', bytes.fromhex(SOLVED_BUNDLE), []),
                                  ('picture', bytes.fromhex(BUNDLE), ['--miner', 'seq'])):
            with self.subTest(name, data=data[:8]):
                done = script(name, words, data, {'NPOS_PROGRAM': '/nowhere/npos'})
                self.assertEqual((done.out, done.status, done.err.count('\n')), (b'', 2, 1), done.err)


class Keys(unittest.TestCase):
    def test_published_keys(self):
        for words, key in ((['System', 'Account'], '26aa394eea5630e07c48ae0c9558cef7b99d880ec681799c0cf30e8886371da9'),
                           (['System', 'Number'], '26aa394eea5630e07c48ae0c9558cef702a5c1b19ab7a04f536c519aca4983ac'),
                           (['Staking'], '5f3e4907f716ac89b6347d15ececedca')):
            self.assertEqual(script('storage-key', words).out.decode(), f'0x{key}\n')

    def test_a_map(self):
        key = script('storage-key', ['Staking', 'ErasStartSessionIndex', '--map', '0x01000000']).out.decode()
        self.assertTrue(key.endswith('5153cb1f00942ff401000000\n'), key)

    def test_a_name_of_more_than_32_letters(self):
        # XXH64 of these letters with the seed 0 is published as fbcea83c8a378bf1
        self.assertEqual(twox.xxh64(b'Nobody inspects the spammish repetition', 0), 0xfbcea83c8a378bf1)

    def test_an_entry_of_submissions(self):
        done = script('storage-key', ['ElectionProviderMultiPhase', 'SignedSubmissionsMap', '--map', '0x05000000'])
        self.assertRegex(done.out.decode(), '^0x[0-9a-f]{64}[0-9a-f]{16}05000000\n$')


class Pictures(unittest.TestCase):
    def picture(self, report: bytes, *words: str, data: str = SOLVED_BUNDLE):
        """The picture of a bundle with a report."""
        with tempfile.TemporaryDirectory() as folder:
            path = Path(folder) / 'report'
            path.write_bytes(report)
            return inside('picture', ['--report', str(path), *words], bytes.fromhex(data))

    def test_a_picture_of_checked_work(self):
        done = self.picture(CHECKED, '--ss58', '42')
        self.assertEqual((done.status, done.err), (0, ''))
        drawn = tree.fromstring(done.out)
        words = ' '.join(''.join(one.itertext()) for one in drawn.iter('{http://www.w3.org/2000/svg}text'))
        for said in ('Proportional (verdict 0)', 'Price of a seat', '5Grwva…GKutQY', '540', '500', 'Nearest to a seat, outside',
                     'All targets are members.', 'Least represented voters'):
            self.assertIn(said, words)
        tips = [one.text for one in drawn.iter('{http://www.w3.org/2000/svg}title')]
        self.assertIn('its own stake: 40 units', tips)
        self.assertIn('5FLSig…XcS59Y gives 500 units', tips)
        self.assertIn(f'{ADDRESSES[ALICE]}: 540 units of 2 backers', tips)

    def test_no_script_and_nothing_from_elsewhere(self):
        for words in ([], ['--html']):
            text = self.picture(CHECKED, '--title', '<script>&"', *words).out.decode()
            self.assertNotRegex(text, '<script|<image|<link|@import|url\\(|href|src=')
            self.assertEqual(set(re.findall('https?://[^" ]*', text)), {'http://www.w3.org/2000/svg'})

    def test_a_page_tells_whole_accounts(self):
        text = self.picture(CHECKED, '--html').out.decode()
        for account in (ALICE, CHARLIE):
            self.assertRegex(text, f'<td>{account}<')

    def test_a_fill(self):
        text = self.picture(FILLED, data=BUNDLE).out.decode()
        self.assertIn('weights of the fill', text)

    def test_a_voter(self):
        text = self.picture(CHECKED, '--voter', CHARLIE).out.decode()
        self.assertIn('2 of 2 nominees are members', text)
        self.assertEqual(self.picture(CHECKED, '--voter', ADDRESSES[CHARLIE]).out.decode(), text)
        self.assertEqual(self.picture(CHECKED, '--voter', '11' * 32).status, 2)

    def test_reports_that_do_not_belong_to_the_bundle(self):
        for report, data in ((b'verdict 10 0 5\n', SOLVED_BUNDLE), (CHECKED, BUNDLE), (FILLED.replace(b'520', b'521'), BUNDLE),
                             (FILLED.replace(b'verdict 0', b'verdict 8 1'), BUNDLE), (b'fault 0 short\n', BUNDLE), (b'lost 5\n', BUNDLE),
                             (b'', BUNDLE), (b'\xff', BUNDLE), (b'nonsense\n', BUNDLE), (FILLED + b'solution 00\n', BUNDLE)):
            with self.subTest(report):
                done = self.picture(report, data=data)
                self.assertEqual((done.out, done.status, done.err.count('\n')), (b'', 2, 1), done.err)

    def test_each_refusal_has_a_picture(self):
        wrong = SOLVED_BUNDLE.replace('01d1074110', '01d5074110')
        self.assertIn('Another score was claimed', self.picture(b'verdict 9 500 1040 541600\n', data=wrong).out.decode())
        cut = SOLVED_BUNDLE.replace('64' + '0404', '60' + '0404')[:-2]
        self.assertIn('cannot be read from byte 24 on', self.picture(b'verdict 1 24 1\n', data=cut).out.decode())


class Programs(Files):
    def test_a_released_program_is_run_where_it_is_of_these_sources(self):
        for name in ('release', 'tools'):
            (self.folder / name).mkdir()
        program_path, sources = self.folder / 'release' / 'npos', self.folder / 'tools' / 'sources'
        program_path.write_bytes(b'#!/bin/sh\n')
        sources.write_text('#!/bin/sh\necho abc $1\n')
        for path in (program_path, sources):
            path.chmod(0o755)
        found = hashlib.sha256(program_path.read_bytes()).hexdigest()
        for line, due in ((f'abc npos {found} npos', True), (f'abd npos {found} npos', False), (f'abc npos {found} npos-live', False),
                          ('', False)):
            (self.folder / 'release' / 'SUMS').write_text(f'other\n{line}\n')
            program.is_released.cache_clear()
            self.assertEqual(program.is_released(self.folder, 'npos', 'npos'), due)
        program.is_released.cache_clear()
        self.assertFalse(program.is_released(self.folder, 'npos_live', 'npos-live'))


class Bridge(unittest.TestCase):
    def setUp(self):
        self.folder = tempfile.TemporaryDirectory()
        self.addCleanup(self.folder.cleanup)

    def file(self, name: str, data) -> str:
        """A file with these bytes."""
        path = Path(self.folder.name) / name
        path.write_bytes(data if isinstance(data, bytes) else data.encode())
        return str(path)

    def test_dumps_in_each_form_are_one_election(self):
        made = [inside('storage-dump', [*GENERATED, *words]).out for words in ([], ['--binary'], ['--json'], ['--json', '--ss58', '0'])]
        bundles = [inside('from-substrate', ['--seats', '8'], data) for data in made]
        self.assertEqual(len({done.out for done in bundles}), 1)
        for done in bundles:
            self.assertIn('left out', done.err)

    @unittest.skipUnless(HAS_PROGRAM, NO_PROGRAM)
    def test_from_a_dump_to_a_picture(self):
        dump = inside('storage-dump', GENERATED).out
        election = inside('from-substrate', ['--seats', '8'], dump).out
        mined = program.ask(['mine', '--miner', 'seq'], bundle_of(election))
        report = self.file('mined', mined.text)
        self.assertEqual((mined.status, mined.text.splitlines()[-1]), (0, 'verdict 0'))
        solved = inside('from-substrate', ['--seats', '8', '--mined', report], dump).out
        self.assertEqual(program.ask(['check'], bundle_of(solved)).text, 'verdict 0\n')
        pictures = {inside('picture', ['--report', report], election).out, inside('picture', ['--miner', 'seq'], election).out}
        self.assertEqual(len(pictures), 1)
        self.assertIn(b'Proportional (verdict 0)', pictures.pop())
        for groups in ('16', '24'):
            given = inside('to-substrate', ['--seats', '8', '--mined', report, '--groups', groups], dump).out
            words = ['--seats', '8', '--groups', groups, '--own-score', '--solution', self.file('given', given)]
            moved = inside('from-substrate', words, dump)
            self.assertEqual(moved.out, solved)
            self.assertIn('entries of the solution have another voter number now', moved.err)
        self.assertIn(b'Proportional (verdict 0)', inside('picture', [], solved).out)

    @unittest.skipUnless(HAS_PROGRAM, NO_PROGRAM)
    def test_miners_are_compared(self):
        election = inside('from-substrate', ['--seats', '8'], inside('storage-dump', GENERATED).out).out
        solution = program.report_of(program.ask(['mine', '--miner', 'seq'], bundle_of(election)).text.encode()).solution
        for data in (solution, solution.hex(), f'0x{solution.hex()}\n'):
            done = inside('compare-miners', ['--solution', self.file('solution', data)], election)
            rows = [line.split() for line in done.out.decode().splitlines()[2:]]
            self.assertEqual([row[0] for row in rows], ['fill', 'seq', 'mms', 'given'])
            self.assertEqual([row[i + 1] for i, row in enumerate(rows)], ['8'] * 4)
            self.assertEqual(rows[3][5:8], rows[1][5:8])
            self.assertEqual([row[-1] for row in rows], ['0'] * 4)


if __name__ == '__main__':
    unittest.main()
