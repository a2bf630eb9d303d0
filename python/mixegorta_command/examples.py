"""The examples that the command carries: their names with what they say of themselves, and one of them as it is."""
import pathlib

from . import answers
from .streams import Stop, put

HERE = pathlib.Path(__file__).resolve().parent
# The folder of the installed package, or that of a clone.
PLACES = (HERE / 'examples', HERE.parent.parent / 'examples')
PATTERNS = ('*.txt', '*.book', '*.csv', 'notes/*.txt', 'notes/*.book', 'notes/*.csv')
BOOK = 'a book of jobs, for `mixegorta books` and `mixegorta scenarios`'


def files(place=None):
    """The files of the examples by their names: a text without its ending, the others with theirs."""
    folder = place or next((place for place in PLACES if place.is_dir()), None)
    if folder is None:
        raise Stop(f'this needs the folder {PLACES[-1]}, which is not there: run it in a whole clone or with the '
                   'installed package')
    found = [path for pattern in PATTERNS for path in sorted(folder.glob(pattern))]
    return {path.stem if path.suffix == '.txt' else path.name: path for path in found}


def words_of(path):
    """What an example says of itself, the first line of a text without its mark, or what it is for: curves are for the
    book beside them."""
    if path.suffix == '.csv':
        return f'curves to value {next(path.parent.glob("*.book")).name} under, for `mixegorta scenarios`'
    return BOOK if path.suffix == '.book' else path.read_text(encoding='utf-8').partition('\n')[0].lstrip('# ')


def put_example(name, form):
    """Shows an example, or lists all of them. The status."""
    found = files()
    if name is not None:
        path = found.get(name[:-4] if name.endswith('.txt') else name)
        if path is None:
            raise Stop(f'there is no example {name!r}: `mixegorta example` lists them')
        put(path.read_bytes())
        return answers.SHOWN
    rows = [(each, words_of(path)) for each, path in found.items()]
    width = max(len(each) for each in found)
    if form == 'json':
        answers.put_json([{'example': each, 'words': words} for each, words in rows])
    elif form == 'csv':
        answers.put_csv(('example', 'words'), rows)
    else:
        put(''.join(f'{each:{width}}  {words}\n' for each, words in rows).encode())
    return answers.SHOWN
