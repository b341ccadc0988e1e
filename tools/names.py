"""Names of accounts, which people know them by: a text with a line each, or a JSON object."""
from __future__ import annotations

import re
from typing import Dict, List, Optional

from accounts import account_of
from answers import text_of
from bundle import json_of
from command import file_bytes, printable
from scale import BadInput


def names_asked(path: Optional[str], prefix: Optional[int]) -> Dict[bytes, str]:
    """The names of a file, or none."""
    return {} if path is None else names_of(file_bytes(path), prefix)


def names_of(data: bytes, prefix: Optional[int] = None) -> Dict[bytes, str]:
    """The names of a text: an account, blanks or a comma, and the name; or {"account": "name"}. What follows a # is a remark."""
    text = text_of(data)
    if text is None:
        raise BadInput('the names are no text')
    if text.startswith('{'):
        pairs = [(f'the name of {account[:20]!r}', account, name) for account, name in json_of(text.encode(), 'the names').items()]
    else:
        lines = [(f'line {i} of the names', line.strip()) for i, line in enumerate(text.splitlines(), 1)]
        pairs = [(where, *split(line, where)) for where, line in lines if line and not line.startswith('#')]
    names: Dict[bytes, str] = {}
    for where, account, name in pairs:
        if not isinstance(name, str) or not printable(name).strip():
            raise BadInput(f'{where} is no text that can be shown')
        try:
            names[account_of(account, prefix)] = printable(name).strip()
        except BadInput as fault:
            raise BadInput(f'{where}: {fault}') from None
    return names


def split(line: str, where: str) -> List[str]:
    """The account and the name of a line."""
    parts = re.split(r'[\s,;]+', line, maxsplit=1)
    if len(parts) != 2:
        raise BadInput(f'{where} is not an account and its name')
    return parts
