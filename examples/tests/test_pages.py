"""The commands on the pages, as they stand there: each is run, and what the page says that the last one writes is compared.

A block of a page is a run of lines that are indented by four or more. One that begins with a word of COMMANDS is run, at the
top of a folder that has the scripts and the program; one that begins with a word of SKIPPED (proofs) is not; another one
that stands behind commands is what the last of them writes.
"""
from __future__ import annotations

import pathlib
import re
import shlex
import subprocess
import tempfile
import textwrap
import unittest
from typing import List

from support import TOP, environment, needs_program, program

PAGES = ['README.md', 'CONTRIBUTING.md', 'docs/AUDITING.md', 'docs/MINING.md', 'docs/OPERATING.md',
         'docs/RULES.md', 'docs/SUBSTRATE.md', 'examples/README.md', 'docs/npos.1']
COMMANDS = ('./npos', 'examples/', 'tools/', 'for ', 'sed ', 'printf ', 'work=')
SKIPPED = ('rt ', 'cd ', '(cd ', 'git ', '.ci/', 'bench/', 'man ', 'python3 ', '{"')


def blocks(page: str) -> List[str]:
    """The indented blocks of a page, laid flush; of a manual page those that stand as they are."""
    if page.endswith('.1'):
        found = re.findall(r'\.nf\n\.RS\n(.*?)\.RE\n', (TOP / page).read_text(), re.DOTALL)
        return [block.replace(r'\&', '').replace(r'\-', '-') for block in found]
    found = re.findall(r'(?:(?<=\n\n)|\A)(?:(?:    .*)\n)+(?=\n|\Z)', (TOP / page).read_text() + '\n')
    return [textwrap.dedent(block) for block in found]


class Pages(unittest.TestCase):
    @needs_program
    def test_the_commands(self) -> None:
        for page in PAGES:
            with self.subTest(page=page), tempfile.TemporaryDirectory() as place:
                folder = pathlib.Path(place)
                for name in ['examples', 'tools']:
                    (folder / name).symlink_to(TOP / name)
                (folder / 'npos').write_text(f'#!/bin/sh\nexec {shlex.join(program() or [])} "$@"\n')
                (folder / 'npos').chmod(0o755)
                self.try_page(page, folder)

    def try_page(self, page: str, folder: pathlib.Path) -> None:
        """Runs the blocks of a page in their order."""
        written = None
        for block in blocks(page):
            if block.startswith(SKIPPED):
                written = None
            elif block.startswith(COMMANDS):
                lines = [line for line in script_lines(block) if not line.startswith(SKIPPED)]
                written = [self.run_line(line, block, folder) for line in lines][-1]
            elif written is not None:
                self.assertEqual(squeezed(written), squeezed(block), page)
                written = None

    def run_line(self, line: str, block: str, folder: pathlib.Path) -> str:
        """Runs a line, behind the settings of its block, and gives what it writes."""
        settings = ''.join(one + '\n' for one in block.splitlines() if one.startswith('work='))
        done = subprocess.run(['bash', '-c', settings + line], cwd=folder, capture_output=True, text=True, env=environment())
        self.assertIn(done.returncode, (0, 1), line + done.stderr)
        # what a chain's election loses on its way into a bundle and back is told
        self.assertEqual([said for said in done.stderr.splitlines() if not said.startswith(('from-substrate: ', 'to-substrate: '))], [], line)
        return done.stdout


def script_lines(block: str) -> List[str]:
    """The lines to be run, without their remarks. A loop over several lines is one, with what waits behind it."""
    lines: List[str] = []
    for line in block.splitlines():
        line = re.sub(r'\s+# .*', '', line)
        if re.match(r'\s|done|wait', line):
            lines[-1] += '\n' + line
        else:
            lines.append(line)
    return lines


def squeezed(text: str) -> List[List[str]]:
    """The words of each line."""
    return [line.split() for line in text.splitlines()]
