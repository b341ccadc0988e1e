"""What a picture shows of many seats, of names and of changes, and the page in a browser where one is installed."""
import hashlib
import re
import unittest
import xml.etree.ElementTree as tree
from pathlib import Path

import browser
from support import HAS_PROGRAM, NO_PROGRAM, Files, inside

from accounts import ss58
from bundle import Bundle, Plain, Voter, bundle_bytes

NO_BROWSER = 'no browser is installed: chromium, or the one that BROWSER_PROGRAM names'
SVG = '{http://www.w3.org/2000/svg}'


def account(number: int) -> bytes:
    """An account that looks like any other."""
    return hashlib.blake2b(str(number).encode(), digest_size=32).digest()


def election(seats: int, first: int = 0, great: int = 4, outside: int = 30) -> Bundle:
    """So many members of about 1,000 each, of which a few have twenty times that, and targets outside."""
    targets = [account(first + i + 1) for i in range(seats + outside)]
    voters = [Voter(account(10 ** 6 + i), 20000 if i < great else 1000 + i % 90, (i,)) for i in range(seats)]
    voters += [Voter(account(2 * 10 ** 6 + i), 300, (i % seats, seats + i % outside)) for i in range(seats)]
    edges = [(i, i, voters[i].stake) for i in range(seats)] + [(seats + i, i % seats, 290) for i in range(seats)]
    return Bundle(seats, targets, voters, Plain(list(range(seats)), edges))


@unittest.skipUnless(HAS_PROGRAM, NO_PROGRAM)
class Drawn(Files):
    def drawn(self, bundle: Bundle, *words: str) -> str:
        """The picture of a bundle's own work."""
        done = inside('picture', list(words), bundle_bytes(bundle))
        self.assertEqual((done.status, done.err), (0, ''))
        return done.out.decode()

    def words(self, text: str) -> str:
        """All texts of a picture."""
        return '\n'.join(''.join(one.itertext()) for one in tree.fromstring(text).iter(f'{SVG}text'))

    def test_great_supports_do_not_flatten_the_others(self):
        text = self.drawn(election(512))
        self.assertIn('4 greater than the scale: the number tells', text)
        ends = [float(one) for one in re.findall('<path d="M[0-9.]+ [0-9.]+h([0-9.]+)v9h-', text)]
        self.assertEqual(len(ends), 512)
        self.assertGreater(min(ends), 0.3 * max(ends))

    def test_rows_have_percent_and_backers(self):
        for seats in (30, 100, 512):
            said = self.words(self.drawn(election(seats)))
            self.assertRegex(said, r'\nsupport, (thousand )?units\nof\nprice\nbackers\n')
            self.assertRegex(said, r'\n1[.,][0-9]{3}(\.[0-9]+)?\n[0-9]+(\.[0-9])? %\n2\n')

    def test_units_stand_at_the_numbers(self):
        said = self.words(self.drawn(election(40), '--unit', 'DOT', '--decimals', '2'))
        for part in ('support, DOT', 'DOT left with its nominators', 'amounts in DOT', 'pays for no seat, DOT', 'have left, DOT'):
            self.assertIn(part, said)
        self.assertRegex(said, r'Price of a seat\n[0-9.,]+DOT')

    def test_names(self):
        bundle = election(30)
        lines = ['# names', f'{bundle.targets[0].hex()} Alpha <Validator> of some length', f'0x{bundle.targets[31].hex()}, Beta', '']
        names = self.file('\n'.join(lines), 'names')
        said = self.words(self.drawn(bundle, '--names', names))
        self.assertIn('Alpha <Valid…', said)
        nearest = said[said.index('Nearest to a seat, outside'):]
        self.assertIn('Beta', nearest)
        text = self.drawn(bundle, '--names', names, '--html')
        self.assertIn('<b>Alpha &lt;Validator&gt; of some length</b>', text)
        json_names = self.file({bundle.targets[0].hex(): 'Gamma'}, 'json')
        self.assertIn('Gamma', self.drawn(bundle, '--names', json_names))
        for data in ('zz Alpha\n', f'{bundle.targets[0].hex()}\n', b'\xff\x00', {'5': 6}, {bundle.targets[0].hex(): 6}):
            self.refused('picture', ['--names', self.file(data, 'wrong')], bundle_bytes(bundle), 'name')

    def test_a_voter_stands_on_the_page_too(self):
        bundle = election(30)
        text = self.drawn(bundle, '--html', '--voter', bundle.voters[40].account.hex())
        self.assertIn(f'The nominees of {bundle.voters[40].account.hex()}', text)
        self.assertRegex(text, f'<td>{bundle.targets[10].hex()}</td><td>member [0-9]+ of 30, support')

    def test_least_represented_are_split(self):
        said = self.words(self.drawn(election(30)))
        self.assertIn('30 of those with a nominee outside', said)
        self.assertIn('30 of those whose nominees are all elected', said)

    def test_what_changed(self):
        before, now = election(30, first=3, outside=20), election(30)
        path = self.file(bundle_bytes(before), 'before')
        said = self.words(self.drawn(now, '--before', path))
        for part in ('Against the election before', '3 came', '3 went', '27 members stayed', ' before', 'left now', 'price of a seat'):
            self.assertIn(part, said)
        text = self.drawn(now, '--before', path, '--html')
        self.assertIn('Came since the election before', text)
        empty = self.file(bundle_bytes(Bundle(**{**vars(before), 'work': None})), 'empty')
        for path, says in ((empty, 'has no work'), (self.file(b'\x00', 'no'), 'the bytes end too early'), ('/nowhere', 'No such file')):
            self.refused('picture', ['--before', path], bundle_bytes(now), says)


@unittest.skipUnless(browser.found(), NO_BROWSER)
@unittest.skipUnless(HAS_PROGRAM, NO_PROGRAM)
class InABrowser(Files):
    def setUp(self) -> None:
        super().setUp()
        try:
            self.browser = browser.Browser(browser.found() or '')
        except (OSError, TimeoutError) as fault:
            self.skipTest(f'the browser does not start: {fault}')
        self.addCleanup(self.browser.close)
        self.bundle = election(60)
        data = inside('picture', ['--html', '--ss58', '0', '--unit', 'DOT'], bundle_bytes(self.bundle)).out
        self.page = Path(self.file(data, 'page.html'))

    def test_it_opens_without_an_error_and_without_a_request(self):
        for width in (1280, 400):
            self.browser.open(self.page, width)
            self.assertEqual(self.browser.requests(), [self.page.resolve().as_uri()])
            self.assertEqual(self.browser.errors(), [])

    def test_a_search_finds_each_account(self):
        for width in (1280, 400):
            self.browser.open(self.page, width)
            accounts = [*self.bundle.targets[3:90:67], self.bundle.voters[100].account, self.bundle.voters[-1].account]
            for one in accounts:
                self.browser.value('window.getSelection().removeAllRanges()')
                self.assertTrue(self.browser.value(f'window.find("{ss58(one, 0)}")'), ss58(one, 0))
            self.assertFalse(self.browser.value(f'window.find("{ss58(bytes(32), 0)}")'))

    def test_a_search_finds_voters_for_whom_the_tables_have_no_room(self):
        bundle = election(512, great=0, outside=1)
        bundle.voters += [Voter(account(3 * 10 ** 6 + i), 1, (i % 512,)) for i in range(1500)]
        data = inside('picture', ['--html', '--ss58', '0'], bundle_bytes(bundle)).out
        self.browser.open(Path(self.file(data, 'many.html')), 400)
        self.assertLess(data.count(b'<tr>'), 3000)
        for i in (0, 600, 1499):
            one = ss58(account(3 * 10 ** 6 + i), 0)
            self.browser.value('window.getSelection().removeAllRanges()')
            self.assertTrue(self.browser.value(f'window.find("{one}")'), one)
        self.assertLessEqual(self.browser.value('document.documentElement.scrollWidth'), 400)

    def test_it_reads_at_400_pixels(self):
        self.browser.open(self.page, 400)
        self.assertLessEqual(self.browser.value('document.documentElement.scrollWidth'), 400)
        wide = ('[...document.querySelectorAll("h1, p, dd, td, caption, .verdict")].filter(one => {const box = one.getBoundingClientRect(); '
                'return box.width && (box.right > 400 || box.left < 0)}).length')
        self.assertEqual(self.browser.value(wide), 0)
        small = ('[...document.querySelectorAll("h1, p, dd, dt, td, caption, small")].filter(one => one.getBoundingClientRect().width && '
                 'parseFloat(getComputedStyle(one).fontSize) < 12).length')
        self.assertEqual(self.browser.value(small), 0)
        for says in ('Proportional', 'Price of a seat', 'Members by support, DOT'):
            self.assertIn(says, self.browser.value('document.body.innerText'))
        self.assertEqual(self.browser.value('getComputedStyle(document.querySelector("figure")).display'), 'none')
        self.browser.open(self.page, 1280)
        self.assertEqual(self.browser.value('getComputedStyle(document.querySelector("header")).display'), 'none')


if __name__ == '__main__':
    unittest.main()
