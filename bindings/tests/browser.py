"""Drives headless Chromium over two pipes: opens pages, types, evaluates and takes pictures. No package is needed."""
import base64
import json
import os
import queue
import shutil
import subprocess
import tempfile
import threading
import time

BROWSERS = ('chromium', 'chromium-browser', 'google-chrome', 'chrome')
FOUND = next(filter(None, map(shutil.which, BROWSERS)), None)


class Browser:
    """A browser with a folder of its own, until `close`. Each of its pages is a session."""

    def __init__(self, *words):
        self.room = tempfile.mkdtemp()
        theirs, self.ours_out = os.pipe()
        self.ours_in, theirs_out = os.pipe()
        command = [
            FOUND, '--headless', '--no-sandbox', '--disable-gpu', '--disable-extensions', '--disable-background-networking', '--no-first-run', '--remote-debugging-pipe',
            '--force-color-profile=srgb', '--user-data-dir=' + self.room, *words]
        # The browser reads what it is to do from its file 3, and answers at its file 4.
        self.process = subprocess.Popen(
            ['sh', '-c', 'exec "$@" 3<&%d 4>&%d' % (theirs, theirs_out), 'sh', *command], pass_fds=(theirs, theirs_out), stdin=subprocess.DEVNULL,
            stdout=subprocess.DEVNULL, stderr=subprocess.DEVNULL)
        os.close(theirs)
        os.close(theirs_out)
        self.number, self.said, self.events = 0, queue.Queue(), []
        # The browser is listened to while it is spoken to, so that neither waits for the other with its pipe full.
        self.listener = threading.Thread(target=self.listen)
        self.listener.start()

    def close(self):
        self.process.kill()
        self.process.wait()
        self.listener.join()
        os.close(self.ours_in)
        os.close(self.ours_out)
        shutil.rmtree(self.room, ignore_errors=True)

    def listen(self):
        """Hands on what the browser says, until it has ended."""
        left = []
        while True:
            part = os.read(self.ours_in, 1 << 16)
            if not part:
                self.said.put(None)
                return
            *ends, rest = part.split(b'\0')
            for end in ends:
                self.said.put(b''.join(left + [end]))
                left = []
            left.append(rest)

    def told(self):
        """What the browser says next."""
        said = self.said.get(timeout=300)
        if said is None:
            raise EOFError('the browser has ended')
        return json.loads(said)

    def call(self, method, session=None, **words):
        """What the browser answers to a call. What it says of itself meanwhile is kept in `events`."""
        self.number += 1
        asked = {'id': self.number, 'method': method, 'params': words, **({'sessionId': session} if session else {})}
        said = json.dumps(asked).encode() + b'\0'
        while said:
            said = said[os.write(self.ours_out, said):]
        while True:
            told = self.told()
            if told.get('id') == self.number:
                if 'error' in told:
                    raise RuntimeError('%s: %s' % (method, told['error']))
                return told['result']
            self.events.append(told)

    def open(self, url):
        """A page in a tab of its own."""
        target = self.call('Target.createTarget', url='about:blank')['targetId']
        page = Page(self, self.call('Target.attachToTarget', targetId=target, flatten=True)['sessionId'])
        for it in ('Page', 'Runtime', 'Log', 'Network'):
            page.call(it + '.enable')
        page.call('Page.navigate', url=url)
        return page


class Page:
    """A tab of the browser."""

    def __init__(self, browser, session):
        self.browser, self.session = browser, session

    def call(self, method, **words):
        return self.browser.call(method, self.session, **words)

    def value(self, expression):
        """The value of an expression there. A promise is awaited."""
        found = self.call('Runtime.evaluate', expression=expression, returnByValue=True, awaitPromise=True)
        if 'exceptionDetails' in found:
            raise RuntimeError('%s: %s' % (expression[:80], found['exceptionDetails'].get('exception', {}).get('description')))
        return found['result'].get('value')

    def wait(self, expression, seconds=300):
        """Waits until an expression is true."""
        end = time.monotonic() + seconds
        while not self.value(expression):
            if time.monotonic() > end:
                raise TimeoutError(expression)
            time.sleep(0.02)

    def type(self, words):
        """Types into what has the focus, by the keyboard."""
        self.call('Input.insertText', text=words)

    def press(self, key):
        for kind in ('rawKeyDown', 'keyUp'):
            self.call('Input.dispatchKeyEvent', type=kind, key=key, code=key, windowsVirtualKeyCode={'ArrowLeft': 37, 'ArrowUp': 38, 'ArrowRight': 39, 'ArrowDown': 40, 'End': 35}.get(key, 0))

    def picture(self, width, height, dark=False):
        """The page as a PNG."""
        self.call('Emulation.setDeviceMetricsOverride', width=width, height=height, deviceScaleFactor=1, mobile=False)
        self.call('Emulation.setEmulatedMedia', features=[{'name': 'prefers-color-scheme', 'value': 'dark' if dark else 'light'}])
        time.sleep(0.5)
        return base64.b64decode(self.call('Page.captureScreenshot', format='png')['data'])
