"""Reports of books that are joined: the totals of the reports of document 02, request (xiv), over any number of files. Amounts are billionths."""
from collections import namedtuple

from book import MOST_FIELDS, NUMBERS
from reference import ONE, refuse_if

HIGHEST_PRICE, HIGHEST_BOUND = 8 * ONE, 10 ** 6
# As many bonds of the highest price are worth less than 2^64.
MOST_SIZE = (2 ** 64 - 1) // HIGHEST_PRICE

# refused has a count for each of NUMBERS; book and place are from 1, or 0 with nothing priced.
Report = namedtuple('Report', 'books fields priced refused bonds options error_bounds dearest book place')


def can_be_given(r):
    """Whether the figures of a report are within what so many books and fields can give. Each file may have one refusal more than its fields, for its end."""
    total = r.priced + sum(r.refused)
    named = 1 <= r.place <= MOST_FIELDS and 1 <= r.book <= r.books if r.priced else r.place == r.book == 0
    return (r.books + r.fields <= MOST_SIZE and r.fields <= r.books * MOST_FIELDS and r.priced <= r.fields <= total <= r.fields + r.books and named
            and r.dearest <= r.bonds <= r.priced * HIGHEST_PRICE and r.options <= r.priced * HIGHEST_PRICE and r.error_bounds <= r.priced * HIGHEST_BOUND)


def joined(a, b):
    """The report of the books of both, the second's after the first's; 1 and 12 are the refusals."""
    refuse_if(not can_be_given(a) or not can_be_given(b), 1)
    refuse_if(a.books + a.fields + b.books + b.fields > MOST_SIZE, 12)
    later = b.place and (not a.place or b.dearest > a.dearest)
    dearest = (b.dearest, a.books + b.book, b.place) if later else (a.dearest, a.book, a.place)
    return Report(a.books + b.books, a.fields + b.fields, a.priced + b.priced, tuple(a.refused[k] + b.refused[k] for k in range(len(NUMBERS))),
                  a.bonds + b.bonds, a.options + b.options, a.error_bounds + b.error_bounds, *dearest)
