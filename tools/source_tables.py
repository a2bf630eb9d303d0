"""The tables of refusals and of limits: blocks that begin with a word and a name, and have an indented line for each field."""
import pathlib
from collections import namedtuple

HERE = pathlib.Path(__file__).resolve().parent
SINGLE = {'refusal': ('constant', 'exception', 'cause', 'note', 'row', 'remedy', 'entries'), 'limit': ('value', 'type', 'says')}
OPTIONAL = ('note', 'row')

Refusal = namedtuple('Refusal', 'number constant exception cause note row remedy entries')
Limit = namedtuple('Limit', 'name value type says stands')


class Broken(Exception):
    """A line of a table that says nothing."""


def blocks(word, text):
    """Pairs of a name and its fields, each field with the list of its texts."""
    found = []
    for number, line in enumerate(text.splitlines(), 1):
        parts = line.split(maxsplit=1)
        if not parts or line.startswith('#'):
            continue
        if len(parts) < 2 or not line.startswith((' ', word)) or line.startswith(' ') and not found:
            raise Broken(f'line {number} of the table is no {word} and no field: {line}')
        if line.startswith(word):
            found.append((parts[1].strip(), {}))
        else:
            found[-1][1].setdefault(parts[0], []).append(parts[1].strip())
    return found


def single(word, name, fields):
    """The fields that stand once, an optional one as an empty text where it is left out."""
    for field in SINGLE[word]:
        if len(fields.get(field, [])) != 1 and (field in fields or field not in OPTIONAL):
            raise Broken(f'{word} {name} has not one {field}')
    unknown = fields.keys() - {*SINGLE[word], 'stands'}
    if unknown:
        raise Broken(f'{word} {name} has a field that nothing reads: {", ".join(sorted(unknown))}')
    return {field: fields.get(field, [''])[0] for field in SINGLE[word]}


def limits(text=None):
    """The limits in the table's order."""
    found = []
    for name, fields in blocks('limit', (HERE / 'limits.txt').read_text() if text is None else text):
        one = single('limit', name, fields)
        found.append(Limit(name, int(one['value'].replace(',', '')), one['type'], one['says'], fields.get('stands', [])))
    return found


def refusals(text=None, known=None):
    """The refusals by number, with their limits filled in."""
    written = {limit.name: f'{limit.value:,}' for limit in (limits() if known is None else known)}
    found = []
    for name, fields in blocks('refusal', (HERE / 'refusals.txt').read_text() if text is None else text):
        one = {field: said.format(**written) for field, said in single('refusal', name, fields).items()}
        found.append(Refusal(int(name), **{**one, 'entries': one['entries'].split()}))
    if [refusal.number for refusal in found] != list(range(1, len(found) + 1)):
        raise Broken('the refusals are not numbered 1, 2 and so on')
    return found
