"""What a file is, by its first bytes, and which command takes it: one that is handed to another command is named, and
nothing is valued of it."""
import json
import re

from .streams import Stop

BOOK, JOB, TEXT, SHEET, REPORT, PART, CURVES, PAGE, PICTURE, PLAIN = (
    'book', 'job', 'text', 'sheet', 'report', 'part', 'curves', 'page', 'picture', 'plain')
# How a sentence calls each kind, and what takes it; None where no part of the command does.
TOLD = {
    BOOK: ('a book of jobs',
           '`mixegorta books FILE` reports it, `mixegorta scenarios FILE --curves TABLE` values it under other curves'),
    JOB: ('a job', '`mixegorta price FILE` prices it, `mixegorta book --frame FILE..` makes a book of jobs'),
    TEXT: ('the text of a job',
           '`mixegorta price FILE` prices it, `mixegorta book --frame FILE..` makes a book of texts'),
    SHEET: ('a sheet', '`mixegorta draw < FILE` draws it'),
    REPORT: ("a book's report", None),
    PART: ('a report that `mixegorta books --json` wrote', '`mixegorta books --join FILE..` takes it'),
    CURVES: ('a table of curves', '`mixegorta scenarios BOOK --curves FILE` takes it'),
    PAGE: ('a page of HTML', 'a browser shows it'),
    PICTURE: ('a picture', 'a browser shows it'),
    PLAIN: ('a plain text', None),
}
BOOK_TAG, JOB_START = b'\x10', b'\x01\0\x01'
# The first bytes are enough, and a table of many curves need not be read whole.
LOOKED_AT = 4_096
ENTRY = re.compile(r'^\s*(frequency|steps|reversion|pull|volatility|version|discount|rate|yield|flow|option)\s',
                   re.I | re.M)
STARTS = ((re.compile(r'(node 0 0 |refused \d+\n)'), SHEET), (re.compile(r'(priced|books) \d+\n'), REPORT),
          (re.compile(r'(<\?xml[^>]*>\s*)?<svg', re.I), PICTURE), (re.compile(r'<(!doctype )?html', re.I), PAGE),
          (re.compile(r'\W*scenario\W*[,;]', re.I), CURVES))


def _plain_text(content):
    """The first of the bytes as a text in UTF-8 without control characters, or None."""
    text = content[:LOOKED_AT].decode('utf-8-sig', errors='ignore' if len(content) > LOOKED_AT else 'replace')
    return None if '\ufffd' in text or re.search(r'[\0-\x08\x0e-\x1f]', text) else text


def _is_part(content):
    try:
        found = json.loads(content)
    except ValueError:
        return False
    return isinstance(found, dict) and {'books', 'fields', 'priced'} <= found.keys()


def kind_of(content):
    """The kind of a file's bytes, or None where they are none that is known; a damaged book is none, and no bytes are
    an empty book."""
    if content.startswith(BOOK_TAG):
        return BOOK
    if content.startswith(JOB_START):
        return JOB
    text = _plain_text(content) if content else None
    if text is None:
        return None
    for start, kind in STARTS:
        if start.match(text):
            return kind
    if text.lstrip().startswith('{') and _is_part(content):
        return PART
    return TEXT if ENTRY.search(text) else PLAIN


def mistaken(content, *wanted):
    """What the bytes are and what takes them, where they are known and none of the kinds that are wanted; None where
    they may be taken."""
    kind = kind_of(content)
    if kind is None or kind in wanted:
        return None
    what, taken = TOLD[kind]
    return f'this is {what}' + (f': {taken}' if taken else '')


def expected(content, name, called, *wanted):
    """The bytes, where they may be of a kind that is wanted; else a sentence that says what they are."""
    wrong = mistaken(content, *wanted)
    if wrong:
        raise Stop(f'{name}: no {called}: {wrong}')
    return content
