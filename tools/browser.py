"""A headless browser for tests: Chromium, spoken to through two pipes in its own protocol."""
import base64
import json
import os
import shutil
import subprocess
import tempfile

NAMES = ('chromium', 'chromium-browser', 'google-chrome', 'google-chrome-stable')
LOUD = ('Runtime.exceptionThrown', 'Runtime.consoleAPICalled', 'Log.entryAdded')


def installed():
    """The browser's path, or None."""
    return os.environ.get('MIXEGORTA_BROWSER') or next(filter(None, map(shutil.which, NAMES)), None)


class Browser:
    """One page at a time. `loud` holds what the page complained about, `asked` the addresses that it asked for."""

    def __init__(self, path):
        self.folder = tempfile.TemporaryDirectory(ignore_cleanup_errors=True)
        child_in, self.out = os.pipe()
        self.come, child_out = os.pipe()
        sandbox = ['--no-sandbox'] if os.geteuid() == 0 else []
        flags = ['--headless', '--disable-gpu', '--no-first-run', '--hide-scrollbars', '--remote-debugging-pipe', f'--user-data-dir={self.folder.name}', *sandbox]
        self.process = subprocess.Popen(['bash', '-c', f'exec "$@" 3<&{child_in} 4>&{child_out}', 'browser', path, *flags], pass_fds=(child_in, child_out),
                                        stdout=subprocess.DEVNULL, stderr=subprocess.DEVNULL)
        os.close(child_in)
        os.close(child_out)
        self.waiting, self.count, self.session, self.loud, self.asked = b'', 0, None, [], []
        target = self.call('Target.createTarget', url='about:blank')['targetId']
        self.session = self.call('Target.attachToTarget', targetId=target, flatten=True)['sessionId']
        for domain in ('Page', 'Runtime', 'Log', 'Network'):
            self.call(f'{domain}.enable')

    def close(self):
        os.close(self.out)
        self.process.terminate()
        self.process.wait()
        os.close(self.come)
        self.folder.cleanup()

    def message(self):
        while b'\0' not in self.waiting:
            part = os.read(self.come, 1 << 16)
            if not part:
                raise RuntimeError('the browser ended')
            self.waiting += part
        first, _, self.waiting = self.waiting.partition(b'\0')
        found = json.loads(first)
        if found.get('method') in LOUD:
            self.loud.append(found['params'])
        if found.get('method') == 'Network.requestWillBeSent':
            self.asked.append(found['params']['request']['url'])
        return found

    def call(self, method, **parameters):
        self.count += 1
        message = {'id': self.count, 'method': method, 'params': parameters}
        if self.session:
            message['sessionId'] = self.session
        os.write(self.out, json.dumps(message).encode() + b'\0')
        while (found := self.message()).get('id') != self.count:
            pass
        if 'error' in found:
            raise RuntimeError(f'{method}: {found["error"]["message"]}')
        return found['result']

    def open(self, address, width=1120, height=900, touch=False):
        """Loads a page in a window of this size, as a mouse's or a finger's."""
        self.call('Emulation.setDeviceMetricsOverride', width=width, height=height, deviceScaleFactor=1, mobile=touch)
        self.call('Emulation.setTouchEmulationEnabled', enabled=touch)
        self.loud, self.asked = [], []
        self.call('Page.navigate', url=address)
        while self.message().get('method') != 'Page.loadEventFired':
            pass

    def value(self, expression):
        """What an expression gives in the page."""
        found = self.call('Runtime.evaluate', expression=expression, returnByValue=True)
        if 'exceptionDetails' in found:
            raise RuntimeError(found['exceptionDetails']['exception'].get('description'))
        return found['result'].get('value')

    def point(self, x, y):
        self.call('Input.dispatchMouseEvent', type='mouseMoved', x=x, y=y)

    def tap(self, x, y):
        self.call('Input.dispatchTouchEvent', type='touchStart', touchPoints=[{'x': x, 'y': y}])
        self.call('Input.dispatchTouchEvent', type='touchEnd', touchPoints=[])

    def press(self, key):
        for kind in ('keyDown', 'keyUp'):
            self.call('Input.dispatchKeyEvent', type=kind, key=key, code=key)

    def picture(self, path, whole=False):
        """Saves what the window shows, or the whole page."""
        taken = self.call('Page.captureScreenshot', format='png', captureBeyondViewport=whole)
        with open(path, 'wb') as file:
            file.write(base64.b64decode(taken['data']))
