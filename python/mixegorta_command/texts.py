"""Texts that people write for a job, as `mixegorta job --help` lists their entries, and the jobs they give."""
import re
import struct
from decimal import Decimal

from . import kinds
from .streams import Stop, tell

LARGEST_BYTE, LARGEST_TWO, LARGEST_FOUR = 0xFF, 0xFFFF, 0xFFFFFFFF
DECIMALS = 9
LARGEST_AMOUNT = Decimal(LARGEST_FOUR).scaleb(-DECIMALS)
NUMBERS = {'frequency': LARGEST_BYTE, 'steps': LARGEST_BYTE, 'reversion': LARGEST_TWO, 'volatility': LARGEST_FOUR, 'version': LARGEST_BYTE}
REQUIRED = ('frequency', 'reversion', 'volatility')
OTHER_NAMES = {'pull': 'reversion'}
QUOTE_KINDS = {'discount': 5, 'rate': 6, 'yield': 9}
OPTION_KINDS = {('european', 'call'): 1, ('european', 'put'): 2, ('american', 'call'): 3, ('american', 'put'): 4}
SIDES = {'call': 1, 'put': 2}
STRIKE_OF = {8: 4, 10: 3}
MOST_DATES = LARGEST_TWO - 5
FLOAT = re.compile(r'[+-]?((\d+\.?\d*|\.\d+)(e[+-]?\d+)?|nan|inf|infinity)', re.ASCII | re.IGNORECASE)
MOST_ERRORS = 20
UTF_16_MARKS = (b'\xff\xfe', b'\xfe\xff')
LOW_TAG = re.compile(rb'[\x01-\x08]')
LINE_END = re.compile(r'\r\n?|\n')
AMOUNT = re.compile(r'-?(\d+\.?\d*|\.\d+)', re.ASCII)
# Volatilities up to 5 basis points a year look like ones in basis points.
ODD_VOLATILITY = 500
ODD_RATE, LEAST_AMOUNT, MOST_AMOUNT = 0.2, 10 ** (DECIMALS - 3), 2 * 10 ** DECIMALS


class Wrong(Exception):
    """Something in the text that no job can hold."""


# Figures that look like another unit: they are taken as they stand, and told.

def odd_quote(name, value):
    """What is odd about a rate or a yield; None where nothing is."""
    if name == 'discount' or not ODD_RATE < abs(value) < float('inf'):
        return None
    return f'{name} {value:g} is {100 * value:g} % a year; it is a part of one, {value / 100:g} for {value:g} %'


def odd_amount(name, amount):
    """What is odd about a flow or a strike in billionths; None where nothing is."""
    if amount == 0 or LEAST_AMOUNT <= amount <= MOST_AMOUNT:
        return None
    return f'{name} {Decimal(amount).scaleb(-DECIMALS).normalize():f} is far from one; amounts are for a notional of one, 1.02 for 102 per 100'


def odd_reversion(single):
    """What is odd about the reversion of a step over a year; None where nothing is."""
    yearly = Decimal(single['reversion'] * single['frequency']).scaleb(-4)
    if yearly <= 1:
        return None
    return f'reversion {single["reversion"]} is {yearly:f} a year; it is per step, in ten-thousandths: a yearly one of 0.03 with monthly steps is 25'


def odd_volatility(millionths):
    """What is odd about a volatility; None where nothing is."""
    if not 0 < millionths <= ODD_VOLATILITY:
        return None
    percent = Decimal(millionths).scaleb(-4).normalize()
    return (f'volatility {millionths} is {percent:f} % a year; it is in millionths, 8000 for 0.8 %, which is 80 basis '
            'points')


# Words

def whole(word, name, largest):
    if not re.fullmatch(r'-?\d+', word, re.ASCII):
        raise Wrong(f'{name} is a whole number, not {word!r}')
    number = Decimal(word)
    if not 0 <= number <= largest:
        raise Wrong(f'{name} {word} does not fit its field: 0 to {largest}')
    return int(number)


def billionths(word, name):
    """The amount in billionths, exactly."""
    if not AMOUNT.fullmatch(word):
        raise Wrong(f'{name} is a decimal amount such as 1.025, not {word!r}')
    if len(word.partition('.')[2]) > DECIMALS:
        raise Wrong(f'{name} {word} has more than {DECIMALS} decimals')
    amount = Decimal(word)
    if not 0 <= amount <= LARGEST_AMOUNT:
        raise Wrong(f'{name} {word} does not fit its field: 0 to {LARGEST_AMOUNT}')
    return int(amount.scaleb(DECIMALS))


def figure(word, name):
    if not FLOAT.fullmatch(word):
        raise Wrong(f'{name} is a number such as 0.03, not {word!r}')
    return float(word)


def repeated(words, name):
    """The one value after a name and how often it stands."""
    if len(words) == 3 and words[1] == 'x':
        count = whole(words[2], 'the count', LARGEST_BYTE)
        if count == 0:
            raise Wrong('the count is at least 1')
        return words[0], count
    if len(words) != 1:
        raise Wrong(f'write `{name} VALUE` or `{name} VALUE x COUNT`')
    return words[0], 1


def option_of_kind(words):
    if len(words) != 4:
        raise Wrong('write `option STYLE KIND EXPIRY STRIKE`, for example `option american put 8 1.01`')
    kind = OPTION_KINDS.get((words[0].lower(), words[1].lower()))
    if kind is None:
        raise Wrong(f'an option is european, american or dated, call or put, not {words[0]} {words[1]}')
    return 8, 'BBI', kind, whole(words[2], 'expiry', LARGEST_BYTE), billionths(words[3], 'strike')


def dated_option(words):
    if len(words) < 3:
        raise Wrong('write `option dated KIND STRIKE ROWS`, for example `option dated put 1.01 2 4 6`')
    side = SIDES.get(words[1].lower())
    if side is None:
        raise Wrong(f'a dated option is call or put, not {words[1]}')
    dates = bytes(whole(word, 'a row of exercise', LARGEST_BYTE) for word in words[3:])
    if len(dates) > MOST_DATES:
        raise Wrong(f'{len(dates)} rows of exercise do not fit their field: at most {MOST_DATES}')
    return 10, f'BI{len(dates)}s', side, billionths(words[2], 'strike'), dates


def option(words):
    """The tag, form and values of the option's field."""
    return dated_option(words) if words and words[0].lower() == 'dated' else option_of_kind(words)


# Lines

class Text:
    """What the lines say: single entries by name, quotes as (kind, float), flows in billionths; odd is what looks like another unit."""

    def __init__(self):
        self.single, self.line_of, self.quotes, self.flows, self.odd = {}, {}, [], [], []

    def note(self, line, words):
        if words:
            self.odd.append((line, words))

    def put_once(self, name, value, line):
        if name in self.single:
            raise Wrong(f'{name} is given twice, first on line {self.line_of[name]}')
        self.single[name], self.line_of[name] = value, line

    def put_number(self, name, words, line):
        if len(words) != 1:
            raise Wrong(f'write `{name} NUMBER`')
        self.put_once(name, whole(words[0], name, NUMBERS[name]), line)

    def put(self, words, line):
        name, rest = words[0].lower(), words[1:]
        name = OTHER_NAMES.get(name, name)
        if name in NUMBERS:
            self.put_number(name, rest, line)
        elif name in QUOTE_KINDS:
            word, count = repeated(rest, name)
            self.quotes += [(QUOTE_KINDS[name], figure(word, name))] * count
            self.note(line, odd_quote(name, figure(word, name)))
        elif name == 'flow':
            word, count = repeated(rest, name)
            self.flows += [billionths(word, name)] * count
            self.note(line, odd_amount(name, billionths(word, name)))
        elif name == 'option':
            found = option(rest)
            self.put_once(name, found, line)
            self.note(line, odd_amount('strike', found[STRIKE_OF[found[0]]]))
        else:
            raise Wrong(f'unknown entry {words[0]!r}')

    def steps(self):
        return self.single.get('steps', len(self.quotes))

    def lacking(self):
        """What is wrong with the text as a whole, with the line that says otherwise if there is one."""
        for name in REQUIRED:
            if name not in self.single:
                yield None, f'no {name} is given'
        line, steps = self.line_of.get('steps'), self.steps()
        if line is None and not self.quotes:
            yield None, 'no discount, rate or yield is given'
        elif steps > LARGEST_BYTE:
            yield None, f'{steps} quotes do not fit a job: at most {LARGEST_BYTE}'
        for found, what in ((len(self.quotes), 'quotes'), (len(self.flows), 'flows')):
            if found != steps:
                yield line, f'{steps} steps need {steps} {what}, one for each row; {found} given'


def read(text):
    """The text's entries, and the errors as pairs of line and message."""
    found, errors = Text(), []
    for line, content in enumerate(LINE_END.split(text), 1):
        words = content.partition('#')[0].split()
        try:
            if words:
                found.put(words, line)
        except Wrong as wrong:
            errors.append((line, str(wrong)))
    return found, errors or list(found.lacking())


# The job

def field(tag, form, *values):
    data = struct.pack('>' + form, *values)
    return struct.pack('>BH', tag, len(data)) + data


def encode(text):
    single = text.single
    job = field(1, 'B', single['frequency']) + field(2, 'B', text.steps())
    job += field(3, 'H', single['reversion']) + field(4, 'I', single['volatility'])
    job += field(11, 'B', single['version']) if 'version' in single else b''
    job += b''.join(field(kind, 'd', value) for kind, value in text.quotes)
    job += b''.join(field(7, 'I', flow) for flow in text.flows)
    return job + (field(*single['option']) if 'option' in single else b'')


def job_of_text(content, name):
    """The job of a text's bytes; what is wrong stops the tool, with the name and the lines."""
    kinds.expected(content, name, 'text of a job', kinds.TEXT, kinds.PLAIN)
    try:
        text, errors = read(content.decode('utf-8-sig'))
    except UnicodeDecodeError:
        raise Stop(f'{name}: not a text in UTF-8')
    if errors:
        more = [f'{name}: {len(errors) - MOST_ERRORS} more lines are wrong'] if len(errors) > MOST_ERRORS else []
        raise Stop('\n'.join([f'{name}:{line}: {message}' if line else f'{name}: {message}' for line, message in errors[:MOST_ERRORS]] + more))
    tell_odd(text, name)
    return encode(text)


def tell_odd(text, name):
    """Tells on standard error what looks like another unit; it is taken as it stands."""
    text.note(text.line_of['reversion'], odd_reversion(text.single))
    text.note(text.line_of['volatility'], odd_volatility(text.single['volatility']))
    for line, words in text.odd[:MOST_ERRORS]:
        tell(f'{name}:{line}: warning: {words}')
    if len(text.odd) > MOST_ERRORS:
        tell(f'{name}: {len(text.odd) - MOST_ERRORS} more warnings')


def job_of(content, name):
    """The job of a file that is a job or a text. A job has zero bytes in its lengths and tags below 9; a text in UTF-8 has neither."""
    kinds.expected(content, name, 'text of a job and no job', kinds.JOB, kinds.TEXT, kinds.PLAIN)
    zero = content.find(b'\0')
    if zero < 0 or content[:2] in UTF_16_MARKS:
        return job_of_text(content, name)
    if not LOW_TAG.search(content):
        line = len(LINE_END.findall(content[:zero].decode(errors='replace'))) + 1
        raise Stop(f'{name}:{line}: a zero byte, which no text in UTF-8 has; and without the tags of a job this is none')
    return content


def has_option(job):
    """Whether a well-formed job has an option's field."""
    at, tags = 0, []
    while at + 3 <= len(job):
        tags.append(job[at])
        at += 3 + int.from_bytes(job[at + 1:at + 3], 'big')
    return 8 in tags or 10 in tags
