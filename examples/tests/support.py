"""What the tests share: running the scripts, and the proved program where there is one."""
from __future__ import annotations

import os
import pathlib
import shlex
import subprocess
import sys
import unittest
from typing import Dict, List, Optional

TOP = pathlib.Path(__file__).resolve().parent.parent.parent
EXAMPLES = TOP / 'examples'
sys.path.insert(0, str(EXAMPLES))
sys.dont_write_bytecode = True


def account(number: int) -> str:
    """The hexadecimal digits of the account that is this number."""
    return f'{number:064x}'


def program() -> Optional[List[str]]:
    """The command of the proved program: NPOS_PROGRAM, or what was built here; none is built for a test."""
    given = shlex.split(os.environ.get('NPOS_PROGRAM', ''))
    built = TOP / 'crates/npos/out/npos'
    return given or ([str(built)] if built.exists() else None)


needs_program = unittest.skipUnless(program(), 'the proved program is not built; NPOS_PROGRAM may name it')


def environment() -> Dict[str, str]:
    """What scripts are run in: they leave nothing behind, and ask no other program."""
    return dict(os.environ, PYTHONDONTWRITEBYTECODE='1', NPOS_PROGRAM=shlex.join(program() or []))


def run(path: pathlib.Path, *words: str, data: bytes = b'') -> 'subprocess.CompletedProcess[bytes]':
    """Runs a script on some words and bytes."""
    return subprocess.run([sys.executable, str(path), *words], input=data, capture_output=True, env=environment())


def ask(*words: str, data: bytes = b'') -> 'subprocess.CompletedProcess[bytes]':
    """Runs the proved program."""
    return subprocess.run([*(program() or []), *words], input=data, capture_output=True)


class Scripts(unittest.TestCase):
    """Tests that run a script of examples/."""

    def written(self, name: str, *words: str, data: bytes = b'') -> bytes:
        """What a script writes, which has to end with 0 and say nothing."""
        done = run(EXAMPLES / name, *words, data=data)
        self.assertEqual((done.returncode, done.stderr.decode()), (0, ''))
        return done.stdout

    def refused(self, name: str, *words: str, data: bytes = b'') -> str:
        """The sentence with which a script refuses, having written nothing, with status 2."""
        done = run(EXAMPLES / name, *words, data=data)
        said = done.stderr.decode()
        self.assertEqual((done.returncode, done.stdout), (2, b''), said)
        self.assertNotIn('Traceback', said)
        self.assertTrue(said.startswith(f'{name}: ') and said.count('\n') == 1, said)
        return said[len(name) + 2:-1]
