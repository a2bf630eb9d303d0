"""The reference: the rules of the documents in whole numbers and fractions, written apart from the engine. It is the file
reference/reference.py of the source folder, which the installed package carries as a copy."""
import importlib
import pathlib
import sys

from .streams import Stop

HERE = pathlib.Path(__file__).resolve().parent
PLACES = (HERE / 'reference', HERE.parent.parent / 'reference')


def module(name='reference'):
    """The reference, or another module beside it."""
    place = next((place for place in PLACES if (place / f'{name}.py').is_file()), None)
    if place is None:
        raise Stop(f'this needs {PLACES[-1]}/{name}.py, which is not there: run it in a whole clone or with the installed package')
    if str(place) not in sys.path:
        sys.path.insert(0, str(place))
    return importlib.import_module(name)
