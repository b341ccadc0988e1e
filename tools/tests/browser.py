"""A headless browser, where one is installed, spoken to over two pipes: what a page asks for, says and shows."""
from __future__ import annotations

import base64
import itertools
import json
import os
import select
import shutil
import signal
import subprocess
import tempfile
import time
from pathlib import Path
from typing import Any, Dict, List, Optional

NAMES = ['chromium', 'chromium-browser', 'google-chrome', 'google-chrome-stable']
WORDS = ['--headless', '--no-sandbox', '--disable-gpu', '--hide-scrollbars', '--no-first-run', '--disable-extensions',
         '--disable-background-networking', '--disable-component-update', '--disable-sync', '--remote-debugging-pipe', 'about:blank']
PATIENCE = 90  # seconds


def found() -> Optional[str]:
    """The program of a browser, or None."""
    named = os.environ.get('BROWSER_PROGRAM')
    return next((path for path in map(shutil.which, [named] if named else NAMES) if path), None)


class Browser:
    """One browser with one page; `said` are the events that it told."""

    def __init__(self, program: str) -> None:
        self.folder = tempfile.mkdtemp()
        to_browser, self.write_end = os.pipe()
        self.read_end, from_browser = os.pipe()
        shell = f'exec "$0" "$@" 3<&{to_browser} 4>&{from_browser}'
        self.process = subprocess.Popen(['bash', '-c', shell, program, f'--user-data-dir={self.folder}', *WORDS],
                                        pass_fds=(to_browser, from_browser), stdout=subprocess.DEVNULL, stderr=subprocess.DEVNULL,
                                        start_new_session=True)
        os.close(to_browser)
        os.close(from_browser)
        self.numbers, self.rest = itertools.count(1), b''
        self.said: List[Dict[str, Any]] = []
        self.session = ''
        target = self.ask('Target.createTarget', url='about:blank')['targetId']
        self.session = self.ask('Target.attachToTarget', targetId=target, flatten=True)['sessionId']
        for domain in ('Page', 'Network', 'Log', 'Runtime'):
            self.ask(f'{domain}.enable')

    def close(self) -> None:
        """Ends the browser and its children, which have a process group of their own."""
        os.close(self.write_end)
        try:
            self.process.wait(timeout=3)
        except subprocess.TimeoutExpired:
            os.killpg(self.process.pid, signal.SIGKILL)
            self.process.wait()
        os.close(self.read_end)
        shutil.rmtree(self.folder, ignore_errors=True)

    def told(self, until: float) -> Dict[str, Any]:
        """The next message of the browser."""
        while b'\0' not in self.rest:
            if not select.select([self.read_end], [], [], max(0, until - time.monotonic()))[0]:
                raise TimeoutError('the browser does not answer')
            data = os.read(self.read_end, 1 << 20)
            if not data:
                raise TimeoutError('the browser ended')
            self.rest += data
        message, _, self.rest = self.rest.partition(b'\0')
        value: Dict[str, Any] = json.loads(message)
        if 'method' in value:
            self.said.append(value)
        return value

    def ask(self, method: str, **params: Any) -> Dict[str, Any]:
        """What the browser answers."""
        number, until = next(self.numbers), time.monotonic() + PATIENCE
        message = {'id': number, 'method': method, 'params': params, **({'sessionId': self.session} if self.session else {})}
        os.write(self.write_end, json.dumps(message).encode() + b'\0')
        while True:
            value = self.told(until)
            if value.get('id') == number:
                if 'error' in value:
                    raise ValueError(f'{method}: {value["error"]}')
                result: Dict[str, Any] = value['result']
                return result

    def open(self, path: Path, width: int, height: int = 900) -> None:
        """Opens a file in a window of this size, and waits until all of it is there."""
        self.ask('Emulation.setDeviceMetricsOverride', width=width, height=height, deviceScaleFactor=1, mobile=width < 800)
        self.said.clear()
        self.ask('Page.navigate', url=path.resolve().as_uri())
        until = time.monotonic() + PATIENCE
        while not any(one['method'] == 'Page.loadEventFired' for one in self.said):
            self.told(until)

    def value(self, expression: str) -> Any:
        """What an expression comes to in the page."""
        return self.ask('Runtime.evaluate', expression=expression, returnByValue=True)['result'].get('value')

    def requests(self) -> List[str]:
        """What the page asked for."""
        return [one['params']['request']['url'] for one in self.said if one['method'] == 'Network.requestWillBeSent']

    def errors(self) -> List[str]:
        """What went wrong in the page."""
        return [json.dumps(one['params'])[:300] for one in self.said if one['method'] in ('Runtime.exceptionThrown', 'Log.entryAdded')]

    def shot(self, path: Path) -> None:
        """A picture of the window."""
        path.write_bytes(base64.b64decode(self.ask('Page.captureScreenshot', format='png')['data']))
