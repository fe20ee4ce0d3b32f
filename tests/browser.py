"""Debian's chromium without a window, driven over a pipe by its DevTools protocol. Nothing but Python 3 is needed for it."""
import base64
import json
import os
import shutil
import subprocess
import tempfile

PROGRAM = shutil.which('chromium') or shutil.which('chromium-browser')
TO_BROWSER, FROM_BROWSER = 3, 4  # the file numbers that it reads and writes
PATIENCE = 120  # seconds that something is waited for


class Browser:
    """One page, with every request that it makes and every error that it tells."""

    def __init__(self, width=1000, height=900):
        self.folder = tempfile.TemporaryDirectory()
        read, self.write = os.pipe()
        self.read, write = os.pipe()

        def own_pipes():
            for old, new in ((read, 63), (write, 62)):  # out of the way first, for one may have the other's number
                os.dup2(old, new)
            os.dup2(63, TO_BROWSER)
            os.dup2(62, FROM_BROWSER)

        command = [PROGRAM, '--headless=new', '--no-sandbox', '--disable-gpu', '--remote-debugging-pipe', '--disable-background-networking', '--no-first-run',
                   '--window-size=%d,%d' % (width, height), '--user-data-dir=' + self.folder.name, 'about:blank']
        self.process = subprocess.Popen(command, preexec_fn=own_pipes, close_fds=False, stdout=subprocess.DEVNULL, stderr=subprocess.DEVNULL)
        os.close(read)
        os.close(write)
        self.left, self.number, self.session, self.requests, self.errors = b'', 0, None, [], []
        target = self.ask('Target.createTarget', url='about:blank')['targetId']
        self.session = self.ask('Target.attachToTarget', targetId=target, flatten=True)['sessionId']
        for domain in ('Page', 'Network', 'Runtime', 'Log', 'DOM', 'Accessibility'):
            self.ask(domain + '.enable')

    # ---- the protocol

    def message(self):
        while b'\0' not in self.left:
            more = os.read(self.read, 1 << 20)
            if not more:
                raise RuntimeError('the browser ended')
            self.left += more
        text, self.left = self.left.split(b'\0', 1)
        return json.loads(text)

    def event(self, message):
        """Remembers what a page should not do."""
        name, given = message.get('method'), message.get('params', {})
        if name == 'Network.requestWillBeSent':
            self.requests.append(given['request']['url'])
        elif name == 'Runtime.exceptionThrown':
            self.errors.append(given['exceptionDetails'].get('exception', {}).get('description', given['exceptionDetails']['text']))
        elif name == 'Log.entryAdded' and given['entry']['level'] == 'error':
            self.errors.append(given['entry']['text'])

    def ask(self, method, **given):
        self.number += 1
        request = dict({'id': self.number, 'method': method, 'params': given}, **{'sessionId': self.session} if self.session else {})
        os.write(self.write, json.dumps(request).encode() + b'\0')
        while True:
            message = self.message()
            if message.get('id') == self.number:
                if 'error' in message:
                    raise RuntimeError('%s: %s' % (method, message['error']))
                return message['result']
            self.event(message)

    # ---- what a reader of the page does

    def go(self, path):
        self.ask('Page.navigate', url='file://' + path)
        self.value("new Promise(done => document.readyState == 'complete' ? done(0) : addEventListener('load', () => done(0)))")

    def value(self, expression):
        """What a script of ours finds on the page."""
        result = self.ask('Runtime.evaluate', expression=expression, awaitPromise=True, returnByValue=True, allowUnsafeEvalBlockedByCSP=False)
        if 'exceptionDetails' in result:
            raise RuntimeError(result['exceptionDetails'])
        return result['result'].get('value')

    def until(self, expression):
        """Waits until something holds, for a while."""
        self.value("new Promise((done, fail) => { const look = () => (%s) ? done(0) : setTimeout(look, 20); look(); setTimeout(() => fail('in vain'), %d); })" % (
            expression, 1000 * PATIENCE))

    def choose(self, selector, paths):
        """Files for an element that takes files."""
        root = self.ask('DOM.getDocument')['root']['nodeId']
        node = self.ask('DOM.querySelector', nodeId=root, selector=selector)['nodeId']
        self.ask('DOM.setFileInputFiles', nodeId=node, files=paths)

    def drop(self, paths, x=200, y=300):
        """Files that are dragged onto the page and let go."""
        for kind in ('dragEnter', 'dragOver', 'drop'):
            self.ask('Input.dispatchDragEvent', type=kind, x=x, y=y, data={'items': [], 'files': paths, 'dragOperationsMask': 1})

    def press(self, key):
        for kind in ('keyDown', 'keyUp'):
            self.ask('Input.dispatchKeyEvent', type=kind, key=key, code=key, windowsVirtualKeyCode={'Tab': 9, 'Enter': 13, ' ': 32}.get(key, 0))

    def screen(self, width, height, dark=False):
        self.ask('Emulation.setDeviceMetricsOverride', width=width, height=height, deviceScaleFactor=1, mobile=width < 500)
        self.ask('Emulation.setEmulatedMedia', features=[{'name': 'prefers-color-scheme', 'value': 'dark' if dark else 'light'}])

    def printed(self, expression):
        """What a script finds on the page as it would be printed."""
        self.ask('Emulation.setEmulatedMedia', media='print')
        found = self.value(expression)
        self.ask('Emulation.setEmulatedMedia', media='')
        return found

    def picture(self, path):
        with open(path, 'wb') as file:
            file.write(base64.b64decode(self.ask('Page.captureScreenshot', captureBeyondViewport=True)['data']))

    def end(self):
        try:
            os.write(self.write, json.dumps({'id': 0, 'method': 'Browser.close'}).encode() + b'\0')
            self.process.wait(20)
        except (OSError, subprocess.TimeoutExpired):
            self.process.kill()
        os.close(self.read)
        os.close(self.write)
        self.folder.cleanup()
