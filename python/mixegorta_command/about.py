"""What a page says of itself: the version of the command, and when it was drawn."""
import datetime
import os


def version():
    """The version, which stands in the package mixegorta; it is read and not imported, so that it is told without a
    library too."""
    place = os.path.join(os.path.dirname(os.path.dirname(os.path.abspath(__file__))), 'mixegorta', '__init__.py')
    with open(place, encoding='utf-8') as file:
        return next(line.split('"')[1] for line in file if line.startswith('__version__'))


def drawn_on():
    """Today in UTC, or the day of the seconds that SOURCE_DATE_EPOCH names, so that a page can be made again byte for
    byte."""
    named = os.environ.get('SOURCE_DATE_EPOCH', '')
    now = datetime.datetime.now(datetime.timezone.utc)
    when = datetime.datetime.fromtimestamp(int(named), datetime.timezone.utc) if named.isdecimal() else now
    return when.strftime('%Y-%m-%d')


def source_of(name):
    """A line that says which file a page is of, when it was drawn and by which version. The file has no ending here, since
    a text and its job have one page."""
    return f'{os.path.splitext(os.path.basename(name))[0] or name}, drawn on {drawn_on()} by mixegorta {version()}'
