#!/usr/bin/env python3
"""Tests pages and pictures of tools/draw in a real browser, headless Chromium: they load without a complaint and ask for nothing else,
show every node, and no text is cut or stands on another. MIXEGORTA_SCREENSHOTS names a folder that gets pictures of them.

    python3 tools/test_page.py [-v]

Without a browser nothing is tested: it says so, with exit status 2. MIXEGORTA_BROWSER names one that is not found by itself.
"""
import os
import pathlib
import re
import subprocess
import sys
import tempfile
import unittest

sys.dont_write_bytecode = True
import browser

ROOT = pathlib.Path(__file__).resolve().parent.parent
EXAMPLES = [path for path in sorted((ROOT / 'examples').glob('*.txt')) if path.stem not in ('refused', 'one-step')]
BELOW, ABOVE = 'rgb(213, 94, 0)', 'rgb(0, 114, 178)'
MOST_POINTED_AT = 120
EUR = {0.25: -0.25, 0.5: -0.15, 1: 0.1, 2: 0.6, 3: 1.0, 5: 1.6, 7: 2.1, 10: 2.5}

MARKS = '''[...document.querySelectorAll('.node')].map(mark => {
    const box = mark.getBoundingClientRect();
    return {x: box.x + box.width / 2, y: box.y + box.height / 2, width: box.width, shape: mark.tagName, colour: getComputedStyle(mark).fill};
})'''
NOTE = '''(() => {
    const note = document.getElementById('note');
    const box = note.getBoundingClientRect();
    return {hidden: note.hidden, text: note.textContent, left: box.left, right: box.right, top: box.top, bottom: box.bottom,
            kinds: [...note.querySelectorAll('dd[class]')].map(entry => entry.className),
            colours: [...note.querySelectorAll('dd[class]')].map(entry => getComputedStyle(entry).color)};
})()'''
# Texts that reach out of the picture, and pairs that stand on each other.
CROWDED = '''(() => {
    const svg = document.querySelector('svg').getBoundingClientRect();
    const texts = [...document.querySelectorAll('svg text')].map(text => ({words: text.textContent, box: text.getBoundingClientRect()}));
    const out = texts.filter(({box}) => box.left < svg.left || box.right > svg.right || box.top < svg.top || box.bottom > svg.bottom);
    const meet = (a, b) => a.left < b.right - 0.5 && b.left < a.right - 0.5 && a.top < b.bottom - 2.5 && b.top < a.bottom - 2.5;
    const pairs = texts.flatMap((one, k) => texts.slice(k + 1).filter(other => meet(one.box, other.box)).map(other => [one.words, other.words]));
    return [...out.map(text => text.words), ...pairs];
})()'''


def drawn(sheet, *arguments):
    made = subprocess.run([sys.executable, '-B', str(ROOT / 'tools/draw'), *map(str, arguments)], input=sheet, capture_output=True)
    if made.stderr:
        raise AssertionError(made.stderr.decode())
    return made.stdout


def light(colour):
    """How light a colour is, 0 to 255."""
    return sum(weight * int(part) for weight, part in zip((0.3, 0.59, 0.11), re.findall(r'\d+', colour)))


def sheet_of(path):
    job = subprocess.run([sys.executable, '-B', str(ROOT / 'tools/job'), str(path)], capture_output=True, check=True).stdout
    return subprocess.run([sys.executable, '-B', str(ROOT / 'reference/reference.py')], input=job, capture_output=True, check=True).stdout


class Pages(unittest.TestCase):
    @classmethod
    def setUpClass(cls):
        cls.folder = tempfile.TemporaryDirectory()
        cls.browser = browser.Browser(browser.installed())

    @classmethod
    def tearDownClass(cls):
        cls.browser.close()
        cls.folder.cleanup()

    def opened(self, content, name='page.html', **window):
        """Opens what was drawn and expects no complaint and no request but for itself."""
        path = pathlib.Path(self.folder.name) / name
        path.write_bytes(content)
        self.browser.open(path.as_uri(), **window)
        self.assertEqual((self.browser.loud, self.browser.asked), ([], [path.as_uri()]))
        return self.browser.value

    def text(self, lines):
        """A file with a text of its own."""
        path = pathlib.Path(self.folder.name) / 'job.txt'
        path.write_text('\n'.join(lines))
        return path

    def check_place(self, note, mark, width, height):
        """The numbers stand in the window and not on their node."""
        self.assertTrue(not note['hidden'] and note['left'] >= 0 and note['right'] <= width and note['top'] >= 0 and note['bottom'] <= height, note)
        self.assertFalse(note['left'] < mark['x'] < note['right'] and note['top'] < mark['y'] < note['bottom'], (note, mark))

    def check_node(self, value, mark, line):
        """Pointed at, a node tells the numbers of its line, with colour, shape and sign of the text by its rate."""
        _, row, number, discount, rate = line
        self.browser.point(mark['x'], mark['y'])
        note, below = value(NOTE), rate.startswith('-')
        self.check_place(note, mark, 1120, 900)
        for words in (f'Row {row}, node {number}'.replace('-', '\u2212'), discount, f'{"■" if below else "●"} {rate} %'.replace('-', '\u2212')):
            self.assertIn(words, note['text'])
        self.assertEqual(set(note['kinds']), {'below' if below else 'above'})

    def check_page(self, path, *arguments):
        sheet = path.with_suffix('.sheet').read_bytes()
        lines = [line.split() for line in sheet.decode().splitlines() if line.startswith('node')]
        value = self.opened(drawn(sheet, '--page', *arguments))
        marks = value(MARKS)
        self.assertEqual(len(marks), len(lines))
        frame = value("(() => { const box = document.getElementById('tree').getBoundingClientRect(); return [box.left, box.right, box.top, box.bottom]; })()")
        for mark, line in zip(marks, lines):
            self.assertEqual((mark['shape'], mark['colour']), ('rect', BELOW) if line[4].startswith('-') else ('circle', ABOVE))
            self.assertTrue(mark['width'] > 1 and frame[0] < mark['x'] < frame[1] and frame[2] < mark['y'] < frame[3], mark)
        for k in range(0, len(lines), len(lines) // MOST_POINTED_AT + 1):
            self.check_node(value, marks[k], lines[k])
        self.assertEqual(value(CROWDED), [])
        self.assertEqual(value("document.querySelectorAll('#rows tbody tr').length"), int(lines[-1][1]) + 2)

    def test_every_node_of_the_examples(self):
        for path in EXAMPLES:
            for arguments in ((), ('--job', path)):
                with self.subTest(path.name, job=bool(arguments)):
                    self.check_page(path, *arguments)

    def test_a_shallow_negative_rate(self):
        for arguments in ((), ('--job', ROOT / 'examples/one-step-today.txt')):
            value = self.opened(drawn((ROOT / 'examples/one-step-today.sheet').read_bytes(), '--page', *arguments))
            mark = value(MARKS)[0]
            self.assertEqual((mark['shape'], mark['colour']), ('rect', BELOW))
            self.browser.point(mark['x'], mark['y'])
            note = value(NOTE)
            self.assertIn('\u25a0 \u22120.2493766 %', note['text'])
            self.assertNotEqual(note['colours'][0], value("getComputedStyle(document.body).color"))
            self.assertEqual(value("document.querySelector('td.below').textContent"), '\u22120.2493766')
            self.assertIn('\u22120.2493766%', value("[...document.querySelectorAll('#tree text')].map(text => text.textContent)"))

    def test_state_prices_and_years(self):
        path = ROOT / 'examples/callable-note.txt'
        value = self.opened(drawn(path.with_suffix('.sheet').read_bytes(), '--page', '--job', path))
        first, other = value(MARKS)[0], value(MARKS)[1]
        self.browser.point(other['x'], other['y'])
        for words in ('years from today0.25', 'state price0.165098233', 'yearly rate\u25cf 3.0378228 %', 'to node \u22122', 'worked out from the job by the reference'):
            self.assertIn(words, value(NOTE)['text'])
        self.assertAlmostEqual((other['width'] / first['width']) ** 2, 0.165, delta=0.01)

    def test_taps_on_a_small_window(self):
        path = ROOT / 'examples/negative-curve.txt'
        value = self.opened(drawn(path.with_suffix('.sheet').read_bytes(), '--page', '--job', path), width=390, height=800, touch=True)
        self.assertLessEqual(value('document.documentElement.scrollWidth'), 390)
        shown = value(MARKS)
        self.assertTrue(all(20 < mark['x'] < 385 for mark in shown))
        for mark in shown:
            value(f"window.scrollTo(0, {mark['y']} - 400)")
            seen = {**mark, 'y': mark['y'] - value('window.scrollY')}
            self.browser.tap(seen['x'], seen['y'])
            self.check_place(value(NOTE), seen, 390, 800)
        self.assertIn('Row 7, node 7', value(NOTE)['text'])
        value('window.scrollTo(0, 0)')
        self.browser.tap(shown[0]['x'], shown[0]['y'] - 100)
        self.assertTrue(value(NOTE)['hidden'])

    def test_a_curve_that_starts_below_zero(self):
        """The EUR curve and callable note of docs/notebooks, at a desk and on a phone: all nodes in the window, and the scale made for the state price."""
        sheet, path = self.eur()
        page = drawn(sheet, '--page', '--job', path)
        for width, height, touch in ((1280, 800, False), (390, 844, True)):
            value = self.opened(page, width=width, height=height, touch=touch)
            marks = value(MARKS)
            self.assertEqual(len(marks), 1_390)
            self.assertTrue(all(0 < mark['x'] < width for mark in marks))
            self.assertLessEqual(value('document.documentElement.scrollWidth'), width)
            today, zero = marks[0], value("document.getElementById('zero').getBoundingClientRect().top")
            self.assertEqual((today['shape'], today['colour']), ('rect', BELOW))
            self.assertGreater(today['y'] - zero, 5)
            self.assertIn('today \u22120.2502344%', value("[...document.querySelectorAll('#tree text')].map(text => text.textContent)"))
            after = value("document.querySelectorAll('.node')[1389].compareDocumentPosition(document.getElementById('zero')) & Node.DOCUMENT_POSITION_FOLLOWING")
            self.assertTrue(after)
            self.keep(f'eur-{width}')

    def test_the_last_column_is_seen(self):
        """At 1280 and at 1024 no column of the rows is cut, also where the screen's own font is as wide as a
        typewriter's."""
        sheet, path = self.eur()
        page = drawn(sheet, '--page', '--job', path)
        for width in (1280, 1024):
            value = self.opened(page, width=width, height=800)
            for font in ('', 'DejaVu Sans', 'monospace'):
                value(f"document.querySelector('#rows table').style.fontFamily = '{font}'")
                wide, seen = value(
                    "[document.getElementById('rows').scrollWidth, document.getElementById('rows').clientWidth]")
                self.assertLessEqual(wide, seen, (width, font))

    def test_inputs_prices_and_exercise_are_told(self):
        sheet, path = self.eur()
        value = self.opened(drawn(sheet, '--page', '--job', path))
        bond, option = (int(line.split()[1].replace('.', '')) for line in sheet.decode().splitlines()[-2:])
        cells = value("[...document.querySelectorAll('#prices td')].map(cell => cell.textContent)")
        self.assertEqual(cells[::2], [f'{price / 10**7:.7f}' for price in (bond, option, bond - option)])
        self.assertEqual(cells[1::2], ['0.0000137', '0.0000137', '0.0000274'])
        self.assertIn('exact on this tree', value("document.getElementById('prices').textContent"))
        told = value("document.getElementById('inputs').textContent")
        for words in ('40, 4 a year', '0.0075 a step, 0.03 a year', '0.7 % a year, 70 basis points', 'row 20 (5 years), row 24 (6 years)', 'row 36 (9 years)'):
            self.assertIn(words, told)
        rows = value("[...document.querySelectorAll('#rows tbody tr')].filter(row => row.lastChild.textContent === 'exercise').map(row => row.firstChild.textContent)")
        self.assertEqual(rows, ['20', '24', '28', '32', '36'])

    def test_a_dark_screen_and_paper(self):
        """On a dark screen everything that is drawn stands off the ground; on paper nothing is lost at the right, and colours are those of paper."""
        sheet, path = self.eur()
        page = drawn(sheet, '--page', '--job', path)
        try:
            self.browser.call('Emulation.setEmulatedMedia', features=[{'name': 'prefers-color-scheme', 'value': 'dark'}])
            value = self.opened(page)
            ground = light(value('getComputedStyle(document.body).backgroundColor'))
            for part in ('.node', '#zero', '#tree text', '#prices td', 'td.below', '#legend'):
                what = 'stroke' if part == '#zero' else 'fill' if part in ('.node', '#tree text') else 'color'
                self.assertGreater(light(value(f"getComputedStyle(document.querySelector('{part}')).{what}")) - ground, 80, part)
            self.keep('eur-dark')
            self.browser.call('Emulation.setEmulatedMedia', media='print', features=[{'name': 'prefers-color-scheme', 'value': 'light'}])
            value = self.opened(page, width=720, height=1_000)
            self.assertLessEqual(value('document.documentElement.scrollWidth'), 720)
            self.assertEqual(value("[...document.querySelectorAll('#rows td')].filter(cell => cell.getBoundingClientRect().right > 720).length"), 0)
            self.assertEqual(value(MARKS)[0]['colour'], BELOW)
            self.assertEqual(value("getComputedStyle(document.querySelector('.hint')).display"), 'none')
        finally:
            self.browser.call('Emulation.setEmulatedMedia', media='', features=[])

    def eur(self):
        """The sheet of the EUR curve and the note of docs/notebooks, quarterly, and its text."""
        known = {0: 1.0, **{years: (1 + rate / 100) ** -years for years, rate in EUR.items()}}
        lines = ['frequency 4', 'reversion 75', 'volatility 7000', 'option dated call 1 20 24 28 32 36']
        for row in range(1, 41):
            low, high = max(time for time in known if time < row / 4), min(time for time in known if time >= row / 4)
            part = (row / 4 - low) / (high - low)
            lines += [f'discount {known[low] ** (1 - part) * known[high] ** part!r}', f'flow {"1.015" if row == 40 else "0.015" if row % 4 == 0 else "0"}']
        path = self.text(lines)
        return sheet_of(path), path

    def keep(self, name):
        """A screenshot for people to look at, where MIXEGORTA_SCREENSHOTS names a folder."""
        if os.environ.get('MIXEGORTA_SCREENSHOTS'):
            self.browser.picture(os.path.join(os.environ['MIXEGORTA_SCREENSHOTS'], f'{name}.png'))

    def test_the_arrow_keys(self):
        value = self.opened(drawn((ROOT / 'examples/callable-note.sheet').read_bytes(), '--page'))
        value("document.getElementById('tree').focus()")
        for key, shown in (('ArrowRight', 'Row 0, node 0'), ('ArrowRight', 'Row 1, node 0'), ('ArrowUp', 'Row 1, node 1'), ('ArrowUp', 'Row 1, node 1'),
                           ('ArrowDown', 'Row 1, node 0'), ('ArrowLeft', 'Row 0, node 0'), ('ArrowLeft', 'Row 0, node 0')):
            self.browser.press(key)
            self.assertIn(shown, value(NOTE)['text'])
        self.browser.press('Escape')
        self.assertTrue(value(NOTE)['hidden'])

    def test_texts_of_pictures(self):
        for path in EXAMPLES:
            for arguments in ((), ('--job', path)):
                with self.subTest(path.name, job=bool(arguments)):
                    value = self.opened(drawn(path.with_suffix('.sheet').read_bytes(), *arguments), 'tree.svg')
                    self.assertEqual(value(CROWDED), [])

    def test_trees_of_every_frequency(self):
        for frequency, steps in ((1, 1), (1, 60), (2, 3), (4, 4), (4, 60), (12, 2), (12, 60)):
            path = self.text([f'frequency {frequency}', 'reversion 100', 'volatility 2000', f'rate 0.03 x {steps}', f'flow 0.01 x {steps}',
                              f'option dated put 1.01 {" ".join(map(str, range(steps)))}'])
            with self.subTest(frequency=frequency, steps=steps):
                sheet = sheet_of(path)
                value = self.opened(drawn(sheet, '--job', path), 'tree.svg')
                self.assertEqual(value(CROWDED), [])
                value = self.opened(drawn(sheet, '--page', '--job', path))
                self.assertEqual(len(value(MARKS)), sheet.count(b'node'))

    def test_a_refusal(self):
        made = subprocess.run([sys.executable, '-B', str(ROOT / 'tools/draw'), '--page'], input=b'refused 9\n', capture_output=True)
        value = self.opened(made.stdout)
        self.assertEqual(value("document.querySelector('h1').textContent"), 'Refused 9')
        self.assertIn('What to do: ', value('document.body.textContent'))


if __name__ == '__main__':
    if not browser.installed() and not {'-h', '--help'} & set(sys.argv):
        print('not tested: no browser is installed; `apt-get install chromium`, or name one by MIXEGORTA_BROWSER')
        sys.exit(2)
    unittest.main()
