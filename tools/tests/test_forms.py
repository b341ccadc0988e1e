"""Compact numbers, accounts and their addresses, and bundles."""
import unittest

from support import ADDRESSES, ALICE, BOB, BUNDLE, CHARLIE, SOLVED_BUNDLE

import accounts
import bundle
from scale import BadInput, Misspelt, Reader, compact

# values and their compact forms, of which those of 1, 42, 69, 65535 and 10^14 stand in the documentation of SCALE
COMPACT = {0: '00', 1: '04', 42: 'a8', 63: 'fc', 64: '0101', 69: '1501', 16383: 'fdff', 16384: '02000100', 65535: 'feff0300',
           (1 << 30) - 1: 'feffffff', 1 << 30: '0300000040', 100000000000000: '0b00407a10f35a',
           (1 << 64) - 1: '13ffffffffffffffff'}
# bytes that spell no number of so many bytes, and why
REFUSED = [('', 8, 'short'), ('01', 4, 'short'), ('0100', 4, 'notshortest'), ('070000004000', 8, 'notshortest'),
           ('17' + 'ff' * 9, 8, 'toowide'), ('02000400', 2, 'toowide'), ('07', 4, 'toowide'), ('03ffffff3f', 4, 'notshortest')]


class CompactNumbers(unittest.TestCase):
    def test_published_values(self):
        for value, digits in COMPACT.items():
            self.assertEqual(compact(value).hex(), digits)
            self.assertEqual(Reader(bytes.fromhex(digits)).compact(64), value)

    def test_what_spells_no_number(self):
        for digits, size, why in REFUSED:
            with self.subTest(digits), self.assertRaises(Misspelt) as refused:
                Reader(bytes.fromhex(digits)).compact(8 * size)
            self.assertEqual((refused.exception.at, refused.exception.why), (0, why))

    def test_lists_tags_and_ends(self):
        for digits, why, read in (('0c', 'toomany', lambda reader: reader.length(2)), ('03', 'badtag', lambda reader: reader.tag(3)),
                                  ('00', 'trailing', lambda reader: reader.end()), ('00', 'short', lambda reader: reader.take(2))):
            with self.subTest(why), self.assertRaises(Misspelt) as refused:
                read(Reader(bytes.fromhex(digits)))
            self.assertEqual(refused.exception.why, why)


class Addresses(unittest.TestCase):
    def test_published_addresses(self):
        for digits, address in ADDRESSES.items():
            self.assertEqual(accounts.ss58(bytes.fromhex(digits), 42), address)
            self.assertEqual(accounts.from_ss58(address), (bytes.fromhex(digits), 42))

    def test_alice_on_other_chains(self):
        alice = bytes.fromhex(ALICE)
        self.assertEqual(accounts.ss58(alice, 0), '15oF4uVJwmo4TdGW7VfQxNLavjCXviqxT9S1MgbjMNHr6Sp5')
        self.assertEqual(accounts.ss58(alice, 2), 'HNZata7iMYWmk5RvZRTiAsSDhV8366zq2YGb3tLH5Upf74F')

    def test_prefixes_of_two_bytes(self):
        # 2032 is 0x07f0: the bits 2 to 7 of it are 111100, the two lowest 00, the upper byte 07
        self.assertEqual(accounts.prefix_bytes(2032).hex(), '7c07')
        self.assertEqual(accounts.prefix_bytes(64).hex(), '5000')
        self.assertEqual(accounts.prefix_bytes(16383).hex(), '7fff')
        for prefix in (63, 64, 255, 2032, 16383):
            self.assertEqual(accounts.from_ss58(accounts.ss58(bytes(32), prefix)), (bytes(32), prefix))

    def test_what_is_no_address(self):
        address = ADDRESSES[ALICE]
        for text in ('', '5', address[:-1], address[:-1] + 'Z', address.replace('w', 'v', 1), 'O' + address[1:], '1' * 60, 'z' * 48):
            with self.subTest(text), self.assertRaises(BadInput):
                accounts.account_of(text)
        with self.assertRaises(BadInput):
            accounts.account_of(address, 0)
        for value in (None, 7, [], '0x' + ALICE[:-1]):
            with self.subTest(value), self.assertRaises(BadInput):
                accounts.account_of(value)

    def test_hexadecimal_accounts(self):
        for text in (ALICE, '0x' + ALICE, ALICE.upper()):
            self.assertEqual(accounts.account_of(text, 0).hex(), ALICE)

    def test_short_names(self):
        alice = bytes.fromhex(ALICE)
        self.assertEqual(accounts.Naming(42).short(alice), '5Grwva…GKutQY')
        self.assertEqual(accounts.Naming().short(alice), 'd43593…6da27d')
        self.assertEqual(accounts.Naming().short((0x1f).to_bytes(32, 'big')), '0x1f')


class Bundles(unittest.TestCase):
    JSON = ('{"seats":2,"targets":["' + ALICE + '","' + BOB + '"],"voters":[{"account":"' + CHARLIE + '","stake":1000,"votes":[0,1]},'
            '{"account":"' + ALICE + '","stake":40,"votes":[0]}],"work":null}\n')

    def test_both_forms(self):
        read = bundle.bundle_of(bytes.fromhex(BUNDLE))
        self.assertEqual(bundle.bundle_json(read), self.JSON)
        self.assertEqual(bundle.bundle_bytes(bundle.bundle_of(self.JSON.encode())).hex(), BUNDLE)

    def test_work_keeps_its_bytes(self):
        plain = BUNDLE[:-2] + '02' + '08' + '00' + '04' + '08' + '00' + '00' + 'd107' + '04' + '00' + 'a0'
        for digits in (SOLVED_BUNDLE, plain):
            read = bundle.bundle_of(bytes.fromhex(digits))
            self.assertEqual(bundle.bundle_bytes(read).hex(), digits)
            self.assertEqual(bundle.bundle_bytes(bundle.bundle_of(bundle.bundle_json(read).encode())).hex(), digits)

    def test_what_is_no_bundle(self):
        for data in (b'', bytes.fromhex(BUNDLE) + b'\0', bytes.fromhex(BUNDLE)[:-1], b'{}', b'{"seats":', b'{' * 100000,
                     self.JSON.replace('1000', '1000.0').encode(), self.JSON.replace('40', '-40').encode(),
                     self.JSON.replace('null', '{"claim":[1,2,"03"],"solution":""}').encode(),
                     self.JSON.replace('1000', '9' * 5000).encode(), b'{"seats":\xff'):
            with self.subTest(data[:40]), self.assertRaises(BadInput):
                bundle.bundle_of(data)

    def test_what_is_no_election(self):
        read = bundle.bundle_of(bytes.fromhex(BUNDLE))
        self.assertIsNone(bundle.fault_of(read))
        one, two = read.voters
        for change in ({'seats': 0}, {'seats': 513}, {'seats': 3}, {'voters': [one._replace(stake=0)]}, {'voters': [one, one]},
                       {'voters': [one._replace(votes=())]}, {'voters': [one._replace(votes=(0, 0))]}, {'targets': read.targets[:1] * 2},
                       {'voters': [one._replace(votes=(2,))]}, {'voters': [one._replace(votes=tuple(range(25)))]},
                       {'voters': [one._replace(stake=1 << 63), two._replace(stake=1 << 63)]}, {'voters': [one._replace(stake=3)]}):
            with self.subTest(change):
                self.assertIsNotNone(bundle.fault_of(bundle.Bundle(**{**vars(read), **change})))


if __name__ == '__main__':
    unittest.main()
