"""A Hull-White trinomial rate tree in whole billionths, over the proved shared object.

Any whole numbers may be passed: a call gives its full answer or raises a Refused, with the engine's number, the name of the argument
and, where a quote or flow is at fault, its row; of haircut bands, with the place of a bad band or the row and price that fail. A number
beyond the bits of its parameter, 8 for a quote kind or an exercise date and 64 for any other, raises OverflowError.

Tree is one fitted tree with memories of its own, Shelf up to eight trees in one memory, Bands a table of haircuts, and Pair a rate tree and a
spread tree together. Tree takes version=2 for the model's own mean and variance of a step. The option_strip of Tree and Shelf prices up to
16 strikes of one option together. A Job is read from bytes and written to the same bytes; sheet() draws its sheet.
prices_of_job values a job without its sheet, book_report a whole book of jobs, which book_of_jobs makes. report_of_file gives the totals of a book as
a Report, and joined_reports those of many.

Amounts are whole billionths: ONE is 1,000,000,000. Where they are asked for, a Decimal or a str such as "1.01" will do too and is
converted by billionths(), which is exact or says so; a float is a TypeError. The figures of quotes are floats.

Slices are numbers in any iterable that has an order: a dict, a set and a str are TypeErrors, and so is an array of numpy's some of whose
numbers are masked. A contiguous buffer of the engine's own type, 64-bit unsigned numbers, or bytes for dates and jobs, is
lent without a copy: array, memoryview, numpy and ctypes arrays. During a call that is lent such a buffer the interpreter's lock is kept,
so that no thread of Python's writes it; during any other call with memory it is given up.

The shared object is that of the package, or in a source folder ../target/libmixegorta.so; MIXEGORTA_LIBRARY names another.
"""
__version__ = "0.14.2"

from . import _bands, _books, _engine, _job, _limits, _pair, _reports, _units, refusals
from ._bands import *
from ._books import *
from ._engine import *
from ._job import *
from ._limits import *
from ._pair import *
from ._reports import *
from ._shelf import Shelf, ShelvedTree
from ._tree import Tree
from .amounts import Amount, Amounts, InexactAmount, billionths
from .refusals import *

__all__ = ["Amount", "Amounts", "InexactAmount", "Shelf", "ShelvedTree", "Tree", "billionths"]
__all__ += _bands.__all__
__all__ += _books.__all__
__all__ += _engine.__all__
__all__ += _job.__all__
__all__ += _limits.__all__
__all__ += _pair.__all__
__all__ += _reports.__all__
__all__ += refusals.__all__
_units.describe(__all__, globals())
