"""The page of `bhtf plot --html` in a real browser, without a window and without a network.

browser.py PAGE NAME CLICKED PDF   looks for the point NAME, clicks on the point CLICKED, moves and enlarges the sheet, and prints to PDF.
                                   Each thing that was tried is a line `ok WHAT` or `not ok WHAT: WHY`; the status is 0 if all went well.

The browser is driven by its debugging protocol over a pipe: messages in JSON, each with a zero byte behind it.
"""
import base64
import json
import os
import select
import subprocess
import sys
import tempfile
import time

page, name, clicked, printed = sys.argv[1:5]
PATIENCE = 60  # seconds for one answer: a machine may be busy


class Browser:
    def __init__(self, folder):
        to_read, self.to = os.pipe()
        self.out, to_write = os.pipe()
        # The browser reads from descriptor 3 and writes to 4.
        command = ['sh', '-c', 'exec "$@" 3<&%d 4>&%d' % (to_read, to_write), 'sh', os.environ.get('CHROMIUM', 'chromium'),
                   '--headless=new', '--no-sandbox', '--disable-gpu', '--disable-dev-shm-usage', '--no-first-run',
                   '--disable-extensions', '--disable-background-networking', '--host-resolver-rules=MAP * ~NOTFOUND',
                   '--window-size=1200,800', '--remote-debugging-pipe', '--user-data-dir=' + folder, 'about:blank']
        self.process = subprocess.Popen(command, pass_fds=(to_read, to_write), stdin=subprocess.DEVNULL, stdout=subprocess.DEVNULL,
                                        stderr=subprocess.DEVNULL, env=dict(os.environ, HOME=folder))
        os.close(to_read)
        os.close(to_write)
        self.rest, self.number, self.session, self.events = b'', 0, None, []

    def message(self):
        while b'\0' not in self.rest:
            if not select.select([self.out], [], [], PATIENCE)[0]:
                raise SystemExit('not ok browser: no answer')
            got = os.read(self.out, 1 << 20)
            if not got:
                raise SystemExit('not ok browser: it ended')
            self.rest += got
        one, self.rest = self.rest.split(b'\0', 1)
        return json.loads(one)

    def ask(self, method, **parameters):
        self.number += 1
        question = {'id': self.number, 'method': method, 'params': parameters}
        if self.session:
            question['sessionId'] = self.session
        os.write(self.to, json.dumps(question).encode() + b'\0')
        while True:
            got = self.message()
            if got.get('id') == self.number:
                if 'error' in got:
                    raise SystemExit('not ok %s: %s' % (method, got['error']))
                return got['result']
            self.events.append(got)

    def value(self, expression):
        got = self.ask('Runtime.evaluate', expression=expression, returnByValue=True)
        if 'exceptionDetails' in got:
            raise SystemExit('not ok script: %s' % got['exceptionDetails'])
        return got['result'].get('value')

    def wait(self, expression):
        end = time.monotonic() + PATIENCE
        while time.monotonic() < end:
            if self.value(expression):
                return True
            time.sleep(0.05)
        return False

    def mouse(self, kind, x, y, **more):
        self.ask('Input.dispatchMouseEvent', type=kind, x=x, y=y, **more)

    def press(self, x, y):
        self.mouse('mousePressed', x, y, button='left', clickCount=1)
        self.mouse('mouseReleased', x, y, button='left', clickCount=1)

    def end(self):
        os.close(self.to)
        try:
            self.process.wait(10)
        except subprocess.TimeoutExpired:
            self.process.kill()
            self.process.wait()


wrong = 0


def check(what, good, why=''):
    global wrong
    wrong += not good
    print('%s %s%s' % ('ok' if good else 'not ok', what, '' if good else ': %s' % (why,)))


def run(b):
    target = b.ask('Target.createTarget', url='about:blank')['targetId']
    b.session = b.ask('Target.attachToTarget', targetId=target, flatten=True)['sessionId']
    for domain in ('Page', 'Runtime', 'Network', 'Log'):
        b.ask(domain + '.enable')
    b.ask('Emulation.setDeviceMetricsOverride', width=1200, height=800, deviceScaleFactor=1, mobile=False)
    b.ask('Page.navigate', url='file://' + os.path.abspath(page))
    check('the page is ready', b.wait('document.readyState === "complete" && typeof data === "object" && marks.length > 0'))

    # found
    box = b.value('(() => { const r = find.getBoundingClientRect(); return [r.x + r.width / 2, r.y + r.height / 2]; })()')
    b.press(*box)
    b.ask('Input.insertText', text=name)
    for kind in ('keyDown', 'keyUp'):
        b.ask('Input.dispatchKeyEvent', type=kind, key='Enter', code='Enter', windowsVirtualKeyCode=13, text='\r' if kind == 'keyDown' else '')
    check('a point is found by its name', b.wait('card.classList.contains("on")') and
          b.value('card.querySelector("h1").textContent') == name, b.value('card.textContent'))
    told = b.value('card.textContent')
    print('told ' + json.dumps(told))
    where = b.value('(() => { const r = document.querySelector(".found").getBoundingClientRect(), v = view.getBoundingClientRect();'
                    'return [r.x + r.width / 2 - v.x - v.width / 2, r.y + r.height / 2 - v.y - v.height / 2]; })()')
    check('and stands in the middle of the window', max(map(abs, where)) < 3, where)

    # clicked
    b.value('fit(); card.classList.remove("on")')
    at = b.value('(() => { const p = data.findIndex(d => d.name === %s), m = marks.find(a => a.p === p && a.sheet === on);'
                 'const u = unit(sheets[on]) * k, v = view.getBoundingClientRect(); return [v.x + x + m.x * u, v.y + y + m.y * u]; })()'
                 % json.dumps(clicked))
    b.press(*at)
    check('a click on a point tells of it', b.wait('card.classList.contains("on")') and
          b.value('card.querySelector("h1").textContent') == clicked, b.value('card.textContent'))
    print('told ' + json.dumps(b.value('card.textContent')))

    # moved and enlarged
    before = b.value('[x, y, k]')
    b.mouse('mousePressed', 300, 400, button='left', clickCount=1)
    for step in range(1, 6):
        b.mouse('mouseMoved', 300 + 20 * step, 400 + 10 * step, button='left', buttons=1)
    b.mouse('mouseReleased', 400, 450, button='left', clickCount=1)
    after = b.value('[x, y, k]')
    check('the sheet is moved by the mouse', abs(after[0] - before[0] - 100) < 2 and abs(after[1] - before[1] - 50) < 2, (before, after))
    under = '(() => { const v = view.getBoundingClientRect(); return [(600 - v.x - x) / k, (400 - v.y - y) / k]; })()'
    fixed = b.value(under)
    b.mouse('mouseWheel', 600, 400, deltaX=0, deltaY=-400)
    check('and enlarged by the wheel', b.wait('k > %f' % (after[2] * 1.3)), b.value('k'))
    still = b.value(under)
    check('about the place under the mouse', max(abs(a - c) for a, c in zip(fixed, still)) < 1, (fixed, still))

    # printed, from where it is now
    got = b.ask('Page.printToPDF', preferCSSPageSize=True, printBackground=True)
    open(printed, 'wb').write(base64.b64decode(got['data']))
    check('it prints', os.path.getsize(printed) > 1000)
    asked = [e['params']['request']['url'] for e in b.events if e.get('method') == 'Network.requestWillBeSent']
    outside = [u for u in asked if not u.startswith(('file:', 'data:', 'about:'))]
    check('nothing was asked of a network', asked != [] and outside == [], outside)
    faults = [e for e in b.events if e.get('method') in ('Runtime.exceptionThrown',) or
              (e.get('method') == 'Log.entryAdded' and e['params']['entry']['level'] == 'error')]
    check('no fault in the script', faults == [], faults)


with tempfile.TemporaryDirectory(ignore_cleanup_errors=True) as folder:
    browser = Browser(folder)
    try:
        run(browser)
    finally:
        browser.end()
sys.exit(wrong > 0)
