"""Debian's Chromium without a window, by the protocol of its own tools (DevTools) over a pair of pipes: one JSON object after
the other, each ended by a zero byte. It reaches nothing but loopback, by its address and by names that are given: all others lead
nowhere. Unless it is to be plain it opens no connection ahead of a request, which would count among those that `office serve` accepts."""
import base64
import json
import os
import select
import shutil
import subprocess
import time
from collections import namedtuple

BROWSERS = ('chromium', 'chromium-headless-shell', 'chromium-browser')
SECONDS = 120               # that the browser may take for anything
FLAGS = [
    '--headless', '--no-sandbox', '--disable-gpu', '--hide-scrollbars', '--disable-background-networking',
    '--disable-component-update', '--disable-sync', '--disable-extensions', '--no-first-run', '--no-default-browser-check',
    '--disable-features=OptimizationHints,MediaRouter,Translate',
    '--enable-blink-features=ComputedAccessibilityInfo', '--remote-debugging-pipe', 'about:blank']
RULES = '--host-resolver-rules=%sMAP * ~NOTFOUND,EXCLUDE 127.0.0.1'
PREFERENCES = {'net': {'network_prediction_options': 2}}

# a page as it came: its address, the status and the text of the response
Came = namedtuple('Came', 'address status text')


def browser_here():
    """Where the browser is, or None."""
    return next((path for path in map(shutil.which, BROWSERS) if path), None)


class Chromium:
    """A browser with one page, until it is left. `asked` are the addresses that it has asked for, `said` what it had to say of
    pages, and `moves` how often it has come to another page, or to another place of one."""

    def __init__(self, path, folder, is_plain=False, names=()):
        user = os.path.join(folder, 'user')
        os.makedirs(os.path.join(user, 'Default'))
        with open(os.path.join(user, 'Default', 'Preferences'), 'w', encoding='utf-8') as file:
            json.dump({} if is_plain else PREFERENCES, file)
        (asked, self.asks), (self.answers, answered) = os.pipe(), os.pipe()
        self.log = open(os.path.join(folder, 'chromium.log'), 'wb')
        self.process = subprocess.Popen(
            ['sh', '-c', 'exec "$0" "$@" 3<&%d 4>&%d' % (asked, answered), path, *FLAGS,
             RULES % ''.join('MAP %s 127.0.0.1,' % name for name in names), '--user-data-dir=' + user],
            pass_fds=(asked, answered), stdin=subprocess.DEVNULL, stdout=self.log, stderr=self.log,
            env=dict(os.environ, TMPDIR=folder))
        os.close(asked)
        os.close(answered)
        self.calls, self.unread, self.session = 0, b'', None
        self.asked, self.said, self.moves, self.response = [], [], 0, None
        target = self.call('Target.createTarget', url='about:blank')['targetId']
        self.session = self.call('Target.attachToTarget', targetId=target, flatten=True)['sessionId']
        for domain in ('Page', 'Runtime', 'Network', 'Log'):
            self.call(domain + '.enable')

    def __enter__(self):
        return self

    def __exit__(self, *_fault):
        self.session = None
        try:
            self.call('Browser.close')      # so that none of its other processes is left
            self.process.wait(SECONDS)
        except (OSError, subprocess.TimeoutExpired):
            self.process.kill()
            self.process.wait()
        os.close(self.asks)
        os.close(self.answers)
        self.log.close()

    # ---- messages

    def call(self, method, **values):
        """What the browser answers to a call; what happens before it is noted."""
        self.calls += 1
        message = dict(id=self.calls, method=method, params=values)
        if self.session:
            message['sessionId'] = self.session
        data = json.dumps(message).encode() + b'\0'
        while data:
            data = data[os.write(self.asks, data):]
        while True:
            message = self.message(method)
            if message.get('id') == self.calls:
                if 'error' in message:
                    raise OSError('%s: %s' % (method, message['error']))
                return message['result']
            self.note(message.get('method'), message.get('params', {}))

    def message(self, awaited):
        """The next message."""
        end = time.monotonic() + SECONDS
        while b'\0' not in self.unread:
            if not select.select([self.answers], [], [], max(end - time.monotonic(), 0))[0]:
                raise OSError('Chromium gives nothing: ' + awaited)
            part = os.read(self.answers, 1 << 20)
            if not part:
                raise OSError('Chromium has ended: ' + awaited)
            self.unread += part
        text, _end, self.unread = self.unread.partition(b'\0')
        return json.loads(text)

    def note(self, what, values):
        """Something that has happened."""
        if what == 'Network.requestWillBeSent' and not values['request']['url'].startswith('data:'):
            self.asked.append(values['request']['url'])
        elif what == 'Network.responseReceived' and values['type'] == 'Document':
            self.response = values
        elif what in ('Page.loadEventFired', 'Page.navigatedWithinDocument'):
            self.moves += 1
        elif what == 'Log.entryAdded':
            self.said.append(values['entry']['text'])
        elif what in ('Runtime.consoleAPICalled', 'Runtime.exceptionThrown', 'Page.javascriptDialogOpening'):
            self.said.append(json.dumps(values))

    def moved(self, act):
        """The page after an act that leads to one."""
        self.gone(act)
        return self.came()

    def gone(self, act):
        """Waits for the page to which an act leads."""
        before = self.moves
        act()
        while self.moves == before:
            message = self.message('another page')
            self.note(message.get('method'), message.get('params', {}))

    def came(self):
        """The page as it came; the last one, where it asked again before its text was read."""
        while True:
            response = self.response
            try:
                text = self.call('Network.getResponseBody', requestId=response['requestId'])['body']
                return Came(self.value('location.href'), response['response']['status'], text)
            except OSError:
                if self.response is response:
                    raise

    def value(self, script):
        """The value of an expression within the page."""
        given = self.call('Runtime.evaluate', expression=script, returnByValue=True, awaitPromise=True, userGesture=True)
        if 'exceptionDetails' in given:
            raise OSError('%s: %s' % (script[:200], json.dumps(given['exceptionDetails'])[:2000]))
        return given['result'].get('value')

    # ---- what a person does

    def open(self, address):
        """Goes to an address."""
        return self.moved(lambda: self.call('Page.navigate', url=address))

    def resize(self, width, height, is_paper=False):
        """Gives the window another size, or shows what is printed on paper of that width."""
        self.call('Emulation.setDeviceMetricsOverride', width=width, height=height, deviceScaleFactor=1, mobile=False)
        self.call('Emulation.setEmulatedMedia', media='print' if is_paper else 'screen')

    def click(self, element):
        """Clicks with the mouse on what an expression gives; on its first line, if it has more."""
        left, top = self.value(
            '(e => { e.scrollIntoView({block: "center", inline: "center"}); const box = e.getClientRects()[0];'
            ' return [box.left + box.width / 2, box.top + box.height / 2]; })(%s)' % element)
        for kind in ('mousePressed', 'mouseReleased'):
            self.call('Input.dispatchMouseEvent', type=kind, x=left, y=top, button='left', clickCount=1)

    def write(self, text):
        """Types into what has the focus."""
        self.call('Input.insertText', text=text)

    def press(self, key, code, text=''):
        """Presses a key that stands for no letter."""
        values = dict(key=key, code=key, windowsVirtualKeyCode=code, text=text)
        self.call('Input.dispatchKeyEvent', type='keyDown' if text else 'rawKeyDown', **values)
        self.call('Input.dispatchKeyEvent', type='keyUp', **values)

    def wait(self, seconds):
        """Lets so many seconds pass for the page, by a clock of the browser's own that runs ahead."""
        self.call('Emulation.setVirtualTimePolicy', policy='pauseIfNetworkFetchesPending', budget=1000 * seconds)

    def save(self, path):
        """Keeps what the window shows, as PNG."""
        with open(path, 'wb') as file:
            file.write(base64.b64decode(self.call('Page.captureScreenshot', format='png')['data']))
