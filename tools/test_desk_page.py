#!/usr/bin/env python3
"""Tests the page dist/mixegorta.html in headless Chromium: opened as a file, it asks for nothing, prices what is pasted to
the digit as mixegorta.desk does, warns of units, explains refusals, saves and opens jobs byte for byte, and draws at once.

    tools/test_desk_page.py [-v]

Without a browser nothing is tested: it says so, with exit status 2. MIXEGORTA_SCREENSHOTS names a folder for pictures.
"""
import base64
import json
import os
import pathlib
import re
import subprocess
import sys
import tempfile
import time
import unittest
import warnings

sys.dont_write_bytecode = True
ROOT = pathlib.Path(__file__).resolve().parent.parent
sys.path[:0] = [str(ROOT / 'python')]
import browser

EUR = {'3M': '-0.25', '6M': '-0.15', '1Y': '0.10', '2Y': '0.60', '3Y': '1.00', '5Y': '1.60', '7Y': '2.10',
    '10Y': '2.50'}
MOST_BYTES, REDRAW_MS, REDRAWS = 300_000, 50, 40
SIZES = ((1280, 800, False), (390, 844, True))
REDRAW = '''(() => {
    const input = document.getElementById('volatility');
    input.value = String(%d);
    const start = performance.now();
    input.dispatchEvent(new Event('input', {bubbles: true}));
    document.body.getBoundingClientRect();
    return performance.now() - start;
})()'''
# Texts of the tree that reach out of the picture.
OUTSIDE = '''(() => {
    const frame = document.getElementById('tree').getBoundingClientRect();
    return [...document.querySelectorAll('#tree text')].filter(text => {
        const box = text.getBoundingClientRect();
        return box.left < frame.left - 1 || box.right > frame.right + 1 || box.bottom > frame.bottom + 1;
    }).map(text => text.textContent);
})()'''


def shown(value):
    """A number of the page: with the sign for minus that Python writes."""
    return value.replace('\u2212', '-')


class DeskPage(unittest.TestCase):
    @classmethod
    def setUpClass(cls):
        folder = tempfile.TemporaryDirectory()
        cls.addClassCleanup(folder.cleanup)
        cls.folder = pathlib.Path(folder.name)
        cls.page = cls.folder / 'mixegorta.html'
        subprocess.run([ROOT / 'tools/page', cls.page], check=True, stdout=subprocess.DEVNULL)
        cls.browser = browser.Browser(browser.installed())
        cls.addClassCleanup(cls.browser.close)

    def opened(self, fragment='', width=1280, height=800, touch=False):
        """Opens the page and waits until it is ready; it complains of nothing and asks for nothing but itself."""
        self.browser.open('about:blank')
        self.browser.open(self.page.as_uri() + fragment, width=width, height=height, touch=touch)
        for _ in range(200):
            if self.value('document.body.dataset.ready') == 'yes':
                break
            time.sleep(0.05)
        self.assertEqual(self.value('document.body.dataset.ready'), 'yes')
        self.settle()
        self.assertEqual([self.browser.loud, [each for each in self.browser.asked if not each.startswith('about:')]],
                         [[], [self.page.as_uri()]])

    def value(self, expression):
        return self.browser.value(expression)

    def enter(self, **fields):
        """Puts texts into inputs and tells the page so once."""
        self.value('''(fields => { for (const [name, text] of Object.entries(fields)) document.getElementById(name).value = text;
            document.getElementById('curve').dispatchEvent(new Event('input', {bubbles: true})); })(%s)''' % json.dumps(fields))
        self.settle()

    def settle(self):
        """Waits until what is below the tree is shown too."""
        for _ in range(400):
            if self.value('document.body.dataset.below !== "waiting" || document.getElementById("answer").hidden'):
                return
            time.sleep(0.01)
        self.fail('what is below the tree is not shown')

    def text(self, name):
        return self.value(f'document.getElementById({name!r}).textContent')

    def table(self, name):
        """The lines of a table, without its heads."""
        return self.value(f'[...document.querySelectorAll("#{name} tbody tr")].map(line => [...line.cells].map(cell => cell.textContent))')

    # ---- what it is

    def test_one_file_that_opens_alone(self):
        text = self.page.read_text(encoding='utf-8')
        self.assertLess(len(text.encode()), MOST_BYTES)
        self.assertIn("default-src 'none'", text)
        self.assertNotIn('http://', text.replace('http://www.w3.org/2000/svg', ''))
        self.assertNotIn('https://', text)
        self.opened()
        blocked = '''fetch('https://example.org/').then(() => 'sent', () => 'blocked').then(word => { window.sent = word; })'''
        self.value(blocked)
        time.sleep(0.2)
        self.assertEqual(self.value('window.sent'), 'blocked')

    def test_two_runs_give_the_same_bytes(self):
        again = self.folder / 'again.html'
        subprocess.run([ROOT / 'tools/page', again], check=True, stdout=subprocess.DEVNULL)
        self.assertEqual(self.page.read_bytes(), again.read_bytes())

    # ---- the numbers of mixegorta.desk

    def desk(self, note, curve, model, frequency=None, strikes=()):
        """What mixegorta.desk gives, in the form of the page's tables."""
        from mixegorta import desk
        with warnings.catch_warnings():
            warnings.simplefilter('ignore')
            answer = desk.price(note, curve, model, frequency=frequency)
            strip = desk.strip(note, curve, model, at=list(strikes), frequency=frequency).rows() if strikes else []
        billionths = lambda bound: str(int(bound.scaleb(7)))
        prices = [[row['what'], f'{row["per 100"]:f}',
            billionths(row['exact on this tree to']) if row['exact on this tree to'] is not None else '']
                  for row in answer.rows()]
        return {'price': f'{answer.total.value:f}',
            'bound': f'exact on this tree to {billionths(answer.total.bound)} billionths', 'prices': prices,
                'strip': [[f'{row["at"]:f}', f'{row["option"]:f}', billionths(row['exact on this tree to']),
                    f'{row["dirty"]:f}',
                           billionths(row['its exact on this tree to']), f'{row["clean"]:f}'] for row in strip],
                'notes': [str(answer.estimate), *answer.notes]}

    def check_desk(self, expected):
        for name in ('price', 'bound'):
            self.assertEqual(self.text(name), expected[name])
        for name in ('prices', 'strip'):
            self.assertEqual([[shown(cell) for cell in line] for line in self.table(name)], expected[name], name)
        notes = self.value('[...document.querySelectorAll("#notes li")].map(line => line.textContent)')
        self.assertEqual([shown(line) for line in notes], expected['notes'])

    def test_a_pasted_curve_with_decimal_commas(self):
        """The EUR curve pasted, a callable note priced, every number that of mixegorta.desk to the digit."""
        from mixegorta import desk
        curve, model = desk.Curve(EUR, compounding='yearly'), desk.Model(70, '0.03')
        bond = desk.Bond('1.5', '10Y')
        note = bond.callable(on=bond.coupon_days(first='5Y'), at=100)
        self.opened()
        pasted = 'Laufzeit\tSatz\r\n' + '\r\n'.join(f'{tenor}\t{rate.replace(".", ",").replace("-", chr(0x2212))} %' for tenor, rate in EUR.items())
        self.enter(curve=pasted, volatility='70', reversion='0,03', coupon='1,5', maturity='10Y', right='callable',
            days='5Y..9Y', at='100,0',
                   strikes='98,5; 99; 100; 101')
        self.assertEqual(self.text('curve-note'), '')
        self.check_desk(self.desk(note, curve, model, strikes=('98.5', '99', '100', '101')))

    def test_other_inputs_of_a_desk(self):
        """Dates, a put, half-yearly coupons, other compoundings, discounts, odd coupons, a curve in two rows, version 2."""
        from datetime import date
        from mixegorta import desk
        day = date(2026, 11, 18)
        cases = []
        flat = desk.Curve({'1Y': '3.1', '6Y': '3.4', '12Y': '3.3'}, compounding='continuous')
        put = desk.Bond('3', '6Y', coupons_a_year=2).puttable(on=['2Y', '3Y', '4Y'], at='99.5')
        cases.append((dict(curve='1Y\t6Y\t12Y\n3.1\t3.4\t3.3', compounding='continuous', coupon='3', coupons='2',
            maturity='6Y', right='puttable',
                           days='2Y, 3Y, 4Y', at='99.5', steps='2', version='2', volatility='85', reversion='0.1',
                               strikes='99'),
                      (put, flat, desk.Model(85, '0.1', version=2)), dict(frequency=2, strikes=('99',))))
        dated = desk.Curve({date(2027, 11, 18): '0.9', date(2029, 2, 3): '1.1', date(2033, 5, 18): '1.7'},
            compounding='simple', valuation=day)
        odd = desk.Bond('2.345', date(2031, 8, 18), valuation=day)
        cases.append((dict(curve='2027-11-18;0.9\n03.02.2029;1.1\n2033-05-18;1.7', compounding='simple',
            valuation='2026-11-18', coupon='2.345',
                           coupons='1', maturity='18.08.2031', right='none', steps='0', version='1',
                               volatility='60.123', reversion='0.0333'),
                      (odd, dated, desk.Model('60.123', '0.0333')), {}))
        discounts = desk.Curve.from_discounts({'1Y': '1.0025', '5Y': '0.98', '10Y': '0.91'})
        cases.append((dict(curve='1Y,1.0025\n5Y,0.98\n10Y,0.91', compounding='discount', valuation='', coupon='0.75',
            maturity='8Y', right='none',
                           volatility='40', reversion='0', steps='4'),
                      (desk.Bond('0.75', '8Y'), discounts, desk.Model(40, 0)), dict(frequency=4)))
        self.opened()
        for fields, given, more in cases:
            with self.subTest(fields['curve']):
                self.enter(**fields)
                self.check_desk(self.desk(*given, **more))

    # ---- warnings and refusals

    def test_a_unit_mistake_is_warned_of(self):
        from mixegorta import desk
        self.opened()
        for field, text, made in (('volatility', '0.7', lambda: desk.Model('0.7', '0.03')),
            ('volatility', '700', lambda: desk.Model(700, '0.03')),
                                  ('reversion', '3', lambda: desk.Model(70, 3)),
                                      ('coupon', '0.015', lambda: desk.Bond('0.015', '10Y')),
                                  ('redemption', '1000', lambda: desk.Bond('1.5', '10Y', redemption=1000))):
            self.enter(volatility='70', reversion='0.03', coupon='1.5', redemption='100')
            self.assertEqual(self.text(f'{field}-note'), '')
            self.enter(**{field: text})
            with warnings.catch_warnings(record=True) as caught:
                warnings.simplefilter('always')
                made()
            words = str(caught[0].message).replace('volatility_bp', 'volatility')
            self.assertEqual(self.text(f'{field}-note'), f'Warning: {words}.')
        self.enter(redemption='100', curve='1Y 0.001\n10Y 0.025')
        self.assertIn('rates are in percent, 3 for 3 %', self.text('curve-note'))

    def test_a_refusal_is_explained(self):
        self.opened()
        self.enter(volatility='480', reversion='0', maturity='10Y', steps='4')
        said = self.text('refused')
        self.assertRegex(said, r'^Refused [89]: ')
        self.assertIn('What to do: ', said)
        found = re.search(r'A volatility of (\d+) basis points fits', said)
        self.assertTrue(self.value('document.getElementById("answer").hidden && document.getElementById("save-job").disabled'))
        self.enter(volatility=found[1])
        self.assertFalse(self.value('document.getElementById("answer").hidden'))
        for fields, word, field in ((dict(curve='1Y one'), 'is no number', 'curve'),
            (dict(curve=''), 'there is no point', 'curve'),
                                    (dict(curve='1Y 2 3\n2Y 1'), 'no pair of a tenor and a figure', 'curve'),
                                    (dict(curve='5Y 1'), 'before maturity', 'curve'),
                                        (dict(curve='2027-03-31 1'), 'needs a valuation date', 'curve'),
                                    (dict(maturity='10'), 'no tenor such as 10Y', 'maturity'),
                                        (dict(days='11Y'), 'not before maturity', 'days'),
                                    (dict(days='5Y 5Y6M'), 'different accrued interest', 'days'),
                                        (dict(strikes='9 ' * 17), 'a strip has 1 to 16', 'strikes')):
            with self.subTest(word):
                self.enter(curve='\n'.join(f'{tenor} {rate}' for tenor, rate in EUR.items()), volatility='70',
                    reversion='0.03', maturity='10Y', days='5Y..9Y',
                           strikes='100', steps='0')
                self.assertTrue(self.value('document.getElementById("refused").hidden'))
                self.enter(**fields)
                self.assertIn(word, self.text('refused'))
                self.assertIn(word, self.text(f'{field}-note'))
                self.assertEqual(self.value(f'document.getElementById("{field}").getAttribute("aria-invalid")'), 'true')

    # ---- jobs, texts, links and tables

    def test_a_job_is_saved_and_opened_byte_for_byte(self):
        self.opened()
        name, job = self.kept('save-job')
        self.assertEqual(name, 'mixegorta.job')
        name, text = self.kept('save-text')
        self.assertEqual(name, 'mixegorta.txt')
        path = self.folder / 'mixegorta.txt'
        path.write_bytes(base64.b64decode(text))
        made = subprocess.run([ROOT / 'tools/job', path], check=True, capture_output=True).stdout
        self.assertEqual(base64.b64decode(job), made)
        price = self.text('price')
        for content, file in ((job, 'again.job'), (text, 'again.txt')):
            self.drop(content, file)
            self.assertIn('was opened', self.text('said'))
            self.assertTrue(self.value('document.querySelector("input[name=mode][value=job]").checked'))
            self.assertEqual(self.text('price'), price)
            self.assertEqual(self.kept('save-job')[1], job)

    def test_the_examples_jobs(self):
        """Each job of examples/ opened gives the prices of its sheet, and is saved as its own bytes."""
        self.opened()
        for path in sorted((ROOT / 'examples').glob('*.txt')):
            if not path.with_suffix('.sheet').is_file():
                continue
            job = subprocess.run([ROOT / 'tools/job', path], check=True, capture_output=True).stdout
            sheet = path.with_suffix('.sheet').read_text().splitlines()
            self.drop(base64.b64encode(job).decode(), path.stem)
            if sheet[-1].startswith('refused'):
                self.assertIn(sheet[-1].replace('refused', 'Refused'), self.text('refused'))
                continue
            self.assertEqual(self.kept('save-job')[1], base64.b64encode(job).decode(), path.name)
            for line, found in zip([line for line in sheet if line.startswith(('bond', 'option'))],
                self.table('prices')):
                _, value, bound = line.split()
                whole, part = value.split('.')
                self.assertEqual(found[1:], [f'{int(whole + part[:2])}.{part[2:]}', bound], path.name)
            self.assertEqual(self.value('Number([...document.querySelectorAll("#tree .marks")].reduce((sum, path) => sum + Number(path.dataset.count), 0))'),
                             sum(line.startswith('node') for line in sheet))

    def test_a_link_carries_the_inputs(self):
        self.opened()
        self.enter(coupon='2,25', volatility='81', days='6Y..8Y')
        price = self.text('price')
        self.value('''navigator.clipboard.writeText = text => { window.copied = text; return Promise.resolve(); }''')
        self.value('document.getElementById("copy-link").click()')
        link = self.value('window.copied')
        self.assertTrue(link.startswith(self.page.as_uri() + '#'))
        self.opened(fragment='#' + link.split('#')[1], width=390, height=844)
        self.assertEqual((self.text('price'), self.value('document.getElementById("coupon").value')), (price, '2,25'))

    def test_tables_go_to_a_spreadsheet(self):
        self.opened()
        self.value('''navigator.clipboard.writeText = text => { window.copied = text; return Promise.resolve(); }''')
        for comma, mark in (('true', ','), ('false', '.')):
            self.value(f'document.getElementById("comma").checked = {comma}; document.querySelector("[data-table=strip]").click()')
            lines = [line.split('\t') for line in self.value('window.copied').split('\n')]
            self.assertEqual([line[0] for line in lines[1:]], [line[0] for line in self.table('strip')])
            self.assertEqual(lines[1][1], shown(self.table('strip')[0][1]).replace('.', mark))

    # ---- the tree

    def test_nodes_tell_the_engines_numbers(self):
        self.opened()
        job = base64.b64decode(self.kept('save-job')[1])
        import mixegorta
        nodes = {tuple(line.split()[1:3]): line.split()[3:] for line in mixegorta.sheet(job).splitlines() if line.startswith('node')}
        self.value('document.getElementById("tree").focus()')
        for key in ('ArrowRight', 'ArrowRight', 'ArrowUp', 'ArrowRight', 'ArrowDown', 'ArrowDown', 'ArrowRight'):
            self.browser.press(key)
            note = shown(self.text('note'))
            row, number = re.match(r'Row (\d+), node (-?\d+)years', note).groups()
            discount, rate = nodes[row, number]
            self.assertIn(f'discount{discount}state price', note)
            mark = '\u25a0' if rate.startswith('-') else '\u25cf'
            self.assertIn(f'{mark} {rate} %rate a year', note)
            self.assertEqual(len(re.findall(r'to node -?\d+0\.\d{9}', note)), 3)
        self.browser.press('Escape')
        self.assertTrue(self.value('document.getElementById("note").hidden'))
        box = self.value('(() => { const box = document.getElementById("tree").getBoundingClientRect(); return [box.left, box.top, box.width, box.height]; })()')
        self.browser.point(box[0] + box[2] / 2, box[1] + box[3] / 2)
        self.assertRegex(self.text('note'), r'^Row \d+, node ')

    def test_below_zero_is_told_by_shape_colour_and_ground(self):
        self.opened()
        self.assertGreater(int(self.value('document.querySelector("#tree .marks.below").dataset.count')), 0)
        colours = [self.value(f'getComputedStyle(document.querySelector("#tree .marks.{kind}:not(.dots)")).fill') for kind in ('above', 'below')]
        self.assertEqual(colours, ['rgb(0, 114, 178)', 'rgb(213, 94, 0)'])
        self.assertGreater(self.value('document.querySelector("#tree .tint").getBoundingClientRect().height'), 10)

    def test_a_change_redraws_sixty_steps_at_once(self):
        """Within 50 ms, by the processor time of the page's own thread: a machine may do other work meanwhile."""
        self.opened()
        self.browser.call('Performance.enable', timeDomain='threadTicks')
        self.enter(steps='12', maturity='5Y', days='1Y..4Y', reversion='0')
        self.assertIn('60 steps, 12 a year, 3600 nodes', self.text('tree-name'))
        clock, own = [], []
        for k in range(REDRAWS):
            before = self.thread_time()
            clock.append(self.value(REDRAW % (40 + k)))
            own.append(self.thread_time() - before)
            self.settle()
        print(f'a redraw of 60 steps: {sorted(own)[REDRAWS // 2]:.1f} ms of its thread, {min(clock):.1f} ms by the clock at '
              'the least', file=sys.stderr)
        self.assertLess(sorted(own)[REDRAWS // 2], REDRAW_MS)

    def thread_time(self):
        """What the page's thread has worked so far, in milliseconds, with what it draws of what was changed."""
        found = {each['name']: each['value'] for each in self.browser.call('Performance.getMetrics')['metrics']}
        return 1_000 * found['TaskDuration']

    # ---- screens and paper

    def test_screens(self):
        for scheme in ('light', 'dark'):
            self.browser.call('Emulation.setEmulatedMedia',
                features=[{'name': 'prefers-color-scheme', 'value': scheme}])
            for width, height, touch in SIZES:
                with self.subTest(scheme=scheme, width=width):
                    self.opened(width=width, height=height, touch=touch)
                    self.assertLessEqual(self.value('document.documentElement.scrollWidth'), width)
                    self.assertEqual(self.value(OUTSIDE), [])
                    self.keep(f'page-{scheme}-{width}')
        self.browser.call('Emulation.setEmulatedMedia', features=[])

    def test_paper(self):
        self.browser.call('Emulation.setEmulatedMedia', media='print',
            features=[{'name': 'prefers-color-scheme', 'value': 'dark'}])
        try:
            self.opened(width=720, height=1_000)
            self.assertLessEqual(self.value('document.documentElement.scrollWidth'), 720)
            self.assertEqual(self.value('getComputedStyle(document.body).backgroundColor'), 'rgb(255, 255, 255)')
            self.keep('page-print-720')
        finally:
            self.browser.call('Emulation.setEmulatedMedia', media='', features=[])

    def test_keyboard_and_screen_reader(self):
        self.opened()
        unnamed = '''[...document.querySelectorAll('input, select, textarea')].filter(each =>
            !each.labels?.length && !each.getAttribute('aria-label')).map(each => each.id)'''
        self.assertEqual(self.value(unnamed), [])
        self.assertIn('nodes have a rate below zero',
            self.value('document.getElementById("tree").getAttribute("aria-label")'))
        self.assertEqual(self.value('[...document.querySelectorAll("table th:not([scope])")].length'), 0)

    # ---- helpers

    def keep(self, name):
        if os.environ.get('MIXEGORTA_SCREENSHOTS'):
            self.browser.picture(os.path.join(os.environ['MIXEGORTA_SCREENSHOTS'], f'{name}.png'))

    def kept(self, name):
        """What a button saves: the page's own blob, read before it is given away, since the policy lets nothing be fetched."""
        self.value('''window.saved = undefined; HTMLAnchorElement.prototype.click = function () { window.saved.name = this.download; };
            window.saved = {}; URL.createObjectURL = blob => { window.saved.blob = blob; return 'blob:kept'; };''')
        self.value(f'document.getElementById({name!r}).click()')
        self.value('''window.saved.blob.arrayBuffer().then(bytes => { window.saved.text = btoa(String.fromCharCode(...new Uint8Array(bytes))); })''')
        for _ in range(200):
            if self.value('window.saved.text !== undefined'):
                break
            time.sleep(0.02)
        return self.value('[window.saved.name, window.saved.text]')

    def drop(self, content, name):
        """Drops a file onto the page."""
        self.value('''(() => { const bytes = Uint8Array.from(atob(%s), each => each.charCodeAt(0)); const data = new DataTransfer();
            data.items.add(new File([bytes], %s)); document.getElementById('said').textContent = '';
            window.dispatchEvent(new DragEvent('drop', {dataTransfer: data, bubbles: true, cancelable: true})); })()''' % (json.dumps(content), json.dumps(name)))
        for _ in range(200):
            if self.text('said'):
                break
            time.sleep(0.02)
        self.settle()


if __name__ == '__main__':
    if not browser.installed() and not {'-h', '--help'} & set(sys.argv):
        print('not tested: no browser is installed; `apt-get install chromium`, or name one by MIXEGORTA_BROWSER')
        sys.exit(2)
    unittest.main()
