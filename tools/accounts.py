"""Accounts of 32 bytes and the texts that stand for them: hexadecimal digits, and SS58 addresses."""
from __future__ import annotations

import hashlib
import re
from typing import Dict, Optional, Tuple

from scale import BadInput

ALPHABET = '123456789ABCDEFGHJKLMNPQRSTUVWXYZabcdefghijkmnopqrstuvwxyz'
VALUES = {letter: value for value, letter in enumerate(ALPHABET)}
RESERVED = (46, 47)
LAST_PREFIX = 16383
SHORT = 13  # letters of a short name


def base58(data: bytes) -> str:
    """Bytes in base 58: a `1` for each zero byte in front, then the digits of the number."""
    number, digits = int.from_bytes(data, 'big'), ''
    while number:
        number, digit = divmod(number, 58)
        digits = ALPHABET[digit] + digits
    return '1' * (len(data) - len(data.lstrip(b'\0'))) + digits


def from_base58(text: str) -> bytes:
    """The bytes of a text in base 58."""
    number = 0
    for letter in text:
        if letter not in VALUES:
            raise BadInput(f'{text!r} is no address: {letter!r} is no digit in base 58')
        number = number * 58 + VALUES[letter]
    zeros = len(text) - len(text.lstrip('1'))
    return bytes(zeros) + number.to_bytes((number.bit_length() + 7) // 8, 'big')


def prefix_bytes(prefix: int) -> bytes:
    """The one or two bytes in which an address names its chain."""
    if prefix < 64:
        return bytes([prefix])
    return bytes([(prefix & 0xfc) >> 2 | 0x40, prefix >> 8 | (prefix & 3) << 6])


def checksum(body: bytes) -> bytes:
    """The two bytes at the end of an address."""
    return hashlib.blake2b(b'SS58PRE' + body, digest_size=64).digest()[:2]


def ss58(account: bytes, prefix: int) -> str:
    """The address of an account on the chain of the prefix."""
    body = prefix_bytes(prefix) + account
    return base58(body + checksum(body))


def from_ss58(text: str) -> Tuple[bytes, int]:
    """The account of an address, and its prefix."""
    data = from_base58(text)
    width = 2 if data and data[0] & 0x40 else 1
    if len(data) != width + 34 or data[0] >= 128:
        raise BadInput(f'{text!r} is no address of an account with 32 bytes')
    if data[-2:] != checksum(data[:-2]):
        raise BadInput(f'{text!r} is no address: its check does not fit, so it was mistyped or cut')
    prefix = data[0] if width == 1 else (data[0] & 0x3f) << 2 | data[1] >> 6 | (data[1] & 0x3f) << 8
    if prefix_bytes(prefix) != data[:width]:
        raise BadInput(f'{text!r} is no address: its prefix is not written in its shortest form')
    return data[width:-2], prefix


def account_of(text: object, prefix: Optional[int] = None) -> bytes:
    """The account of 64 hexadecimal digits, with `0x` in front or not, or of an address.

    Where a prefix is given, an address with another one is refused.
    """
    if not isinstance(text, str):
        raise BadInput(f'an account is due where {str(text)[:40]!r} stands')
    if re.fullmatch('(0x)?[0-9a-fA-F]{64}', text):
        return bytes.fromhex(text[-64:])
    if len(text) > 64:
        raise BadInput(f'{text[:40] + ".."!r} is neither an address nor 64 hexadecimal digits')
    account, found = from_ss58(text)
    if prefix is not None and found != prefix:
        raise BadInput(f'{text!r} is an address of prefix {found}, where prefix {prefix} was asked for')
    return account


def prefix_of(word: str) -> int:
    """The SS58 prefix that a word of the command line names."""
    if not re.fullmatch('[0-9]{1,5}', word) or int(word) > LAST_PREFIX or int(word) in RESERVED:
        raise ValueError(f'an SS58 prefix is a number from 0 to {LAST_PREFIX}, without {RESERVED[0]} and {RESERVED[1]}')
    return int(word)


class Naming:
    """How accounts are shown: by their names, as addresses of a prefix, or in hexadecimal."""

    def __init__(self, prefix: Optional[int] = None, names: Optional[Dict[bytes, str]] = None):
        self.prefix, self.names = prefix, names or {}

    def full(self, account: bytes) -> str:
        """The whole text of an account."""
        return account.hex() if self.prefix is None else ss58(account, self.prefix)

    def whole(self, account: bytes) -> str:
        """The whole text of an account, behind its name."""
        return f'{self.name(account)} {self.full(account)}'.lstrip()

    def name(self, account: bytes) -> str:
        """The name that people know an account by, or nothing."""
        return self.names.get(account, '')

    def short(self, account: bytes) -> str:
        """The name, or else the ends of the text, as people compare them; small numbers in hexadecimal lose their zeros in front."""
        name = self.name(account)
        if name:
            return name if len(name) <= SHORT else name[:SHORT - 1] + '…'
        text = self.full(account)
        if self.prefix is None and not any(account[:24]):
            return '0x' + (account.hex().lstrip('0') or '0')
        return f'{text[:6]}…{text[-6:]}'
