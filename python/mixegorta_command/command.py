"""The command `mixegorta` and its parts: what a person types, and what each part does with it."""
import argparse
import sys

from . import answers, book, books, drawing, exact, examples, jobs, scenarios
from .about import version
from .streams import Stop, content_of, named, put, run

SUMMARY = 'A Hull-White trinomial rate tree in whole billionths, fitted, priced and proved.'
ENTRIES = '''One entry to a line, in any order; # starts a comment:

    frequency 2                   steps a year
    steps 12                      may be left out: as many as there are quotes
    reversion 500                 per step, in ten-thousandths; `pull` means the same
    volatility 8000               yearly, in millionths
    version 2                     how the fit takes the reversion, 1 or 2; may be left out, which is version 1
    discount 0.99                 quote of the next row, a discount factor ...
    rate 0.03                     ... or a simple yearly rate ...
    yield 0.03                    ... or a yearly yield by continuous compounding
    flow 1.025                    flow of the next row, at most nine decimals
    option american put 8 1.01    european or american, call or put, expiry row, strike ...
    option dated put 1.01 2 4 6   ... or dated, call or put, strike, and the rows of exercise, none or more

`x COUNT` after a discount, rate, yield or flow repeats it: `flow 0.02 x 59`. All but steps, version and option must be given.
Only what no job can hold is an error here. Limits are left to the engine, so that its refusal can be seen. A figure that looks like another unit
(a rate above 20 %, a flow or strike above 2 or below a thousandth, a reversion above 1 a year, a volatility of at most
5 basis points a year) is taken, and standard error warns of it.'''
OUTSIDE = 'A convenience outside the proved core: the engine is proved, this command is not.'

# What each part says of itself: a line for the list of parts, then what --help tells.
ABOUT = {
    'price': ('price a job: its bond and its option, each with its error bound', '''The prices of a job, each with how far from the exact price it may be.

FILE is a text as `mixegorta job --help` describes it, or a job. With --tree the whole sheet is shown, as the sheet program prints it: the
nodes, the rows and then the prices.

Exit status: 0 the prices are shown; 1 the job was refused, and standard error tells the number, the cause and what to do; 2 there are no
prices, and standard error tells why: the file, the program or output is lost. MIXEGORTA_SHEET names another program than the engine's own.'''),
    'job': ('write a job, the input of the sheet program, from a text', f'''Writes a job, the binary input of the sheet program, from a readable text.

{ENTRIES}

With --json and --csv the job is shown instead, and FILE may be a job too.
Exit status: 0 it is written; 1 the text is wrong, or FILE is no job, which standard error tells.'''),
    'draw': ('draw the tree of a job or of a sheet', '''Draws the fitted tree of a job, or of a sheet as the sheet program prints it.

FILE is a text as `mixegorta job --help` describes it, or a job. Without FILE standard input is a sheet, a text or a job.

--job FILE is the job of a sheet that comes by standard input. With a job the axis is in years, rates are a year's, and the area of a mark is the
node's state price, which the reference works out from the job. A sheet that is not the job's own, by any line, is not drawn.
--page writes one HTML file that needs nothing else: the tree, a table of its rows, and the numbers of a node where it is pointed at.

Places in the picture are floats. Exit status: 0 a tree was drawn, 1 the job is refused, which gives a small picture that says so, 2 there is no sheet
or another thing is missing, which standard error tells.'''),
    'book': ('report a book of jobs: sums, refusals and the dearest bond', '''Frames jobs into a book and shows its report.

Each FILE is a text as `mixegorta job --help` describes it, or a job; without FILE standard input is one book. --frame writes the book itself, the
input of the book program: one field for each job, in this order.

The report tells how many jobs are priced, how many refused with each number, the sums, and the place of the dearest bond. More than 500 files are left to
the engine, which counts one of the rest under 1. Exit status: 0 the report is shown; 2 there is none, and standard error tells why.
MIXEGORTA_BOOK names another program than the engine's own.'''),
    'books': ('report many books as one, on all processors or on a Dask cluster', """Values many books and shows one report of them all.

Each FILE is a book: fields of tag 10 (hex) with one job each, as `mixegorta book --frame` writes it. The report is that of all books in the order of
their names: how many, their fields, the jobs priced and refused with each number, the sums, the price of the dearest bond, the first one if equal, and the
number of its book with its place there, both from 1. The reports of the files are joined by the engine's proved entry, so that the result is the same
bytes whatever the number of processes or workers and whatever is lost and run again.

A file that cannot be read, is no book but a text, a job or the like, or kills every process that values it, is named,
counted as `unvalued`, and has no number among the books. The rest goes on; where no file is a book there is no report.
--scheduler hands the files to the workers of a Dask cluster, which need this version of mixegorta; files are read here. --resume STATE is a folder where the
report of each finished file is kept, by the hash of its bytes and the version, so that the same command goes on where one was broken off.
--join takes reports that --json wrote instead of books, and joins them in their order. --progress shows the bar where standard error is no terminal too.

Exit status: 0 the report is shown; 1 it is shown, and some file is not in it, which standard error names; 2 there is none, and standard error tells why."""),
    'scenarios': ('value one book under many curves, the worst first', """Values a book as it is and under each curve of a table.

FILE is a book, as `mixegorta book --frame` writes it. TABLE is CSV: the head `scenario,frequency,kind,1,2,..`, and then lines of a scenario's name, the
steps a year, `discount`, `rate` or `yield`, and a figure for each row of the curve, 0.03 for 3 %. Cells may stand
between semicolons, figures may have decimal commas, and words any letter case. A scenario has a line for each frequency
of the book's jobs, with at least as many figures as these have steps. Its figures take the place of every job's quotes,
and nothing else of a job changes.

Shown are the base, which is the book as it is, and then a row for each scenario. `from base` is the difference of the
bonds from the base, with the least and the most that the exact difference can be, over the jobs that base and scenario
both price; `compared` tells how many. Scenarios that refuse jobs which the base prices come first, are marked, and are
told on standard error; the others follow, the greatest loss first. --held compares and ranks what a desk holds: bonds,
less the calls and with the puts that jobs have.
--keep FOLDER writes the book of each scenario there. --picture FILE draws the differences as SVG. --progress shows the
bar where standard error is no terminal too.

Exit status: 0 the scenarios are shown; 2 they are not, and standard error tells why."""),
    'check': ("hold a job's prices against the exact ones", '''Works the exact prices of a job out in fractions and shows them beside the engine's.

FILE is a text as `mixegorta job --help` describes it, or a job. The reference, written apart from the engine, fits the tree itself and prices on it
without rounding. Shown are the price, the exact price to 15 decimals, their difference in billionths and its share of the error bound. A job of sixty
steps takes some seconds.

Exit status: 0 every price is within its bound and the reference's sheet is the engine's; 1 the job was refused; 2 there are no prices; 3 the two differ,
or a price is further from the exact one than its bound.'''),
    'example': ('list the examples that the command carries, or print one', '''Lists the examples, or prints one.

They are texts of jobs, books, and curves for scenarios. `mixegorta example coupon-put > FILE` keeps one, and
`mixegorta price FILE` prices it. A text may be named with or without its ending.

Exit status: 0 the list or the example is shown; 2 there is none of that name, and standard error says so.'''),
}


class Parser(argparse.ArgumentParser):
    """Bad usage is one sentence."""

    def error(self, message):
        raise Stop(f'{message}: see `{self.prog} --help`')


def forms(parser):
    for form in ('json', 'csv'):
        parser.add_argument(f'--{form}', dest='form', action='store_const', const=form, help=f'in the form of {form.upper()}')


def file_and_forms(parser, files=False):
    parser.add_argument('file', nargs='*' if files else '?', metavar='FILE', help='a book' if parser.prog.endswith(('books', 'scenarios')) else 'a text or a job; without it standard input')
    forms(parser)


def fill(parser, part):
    """The arguments of a part."""
    if part == 'example':
        parser.add_argument('name', nargs='?', metavar='NAME', help='an example; without it all of them are listed')
        forms(parser)
        return
    file_and_forms(parser, files=part in ('book', 'books'))
    if part == 'price':
        parser.add_argument('--tree', action='store_true', help='the whole sheet: nodes, rows and prices')
    if part == 'draw':
        parser.add_argument('--job', metavar='FILE', help="the job of a sheet that comes by standard input")
        parser.add_argument('--page', action='store_true', help='a page of HTML instead of a picture')
    if part == 'book':
        parser.add_argument('--frame', action='store_true', help='write the book instead of its report')
    if part == 'books':
        fill_books(parser)
    if part == 'scenarios':
        parser.add_argument('--curves', metavar='TABLE', help='the curves: CSV with a line for each scenario and frequency')
        parser.add_argument('--keep', metavar='FOLDER', help="write each scenario's book there")
        parser.add_argument('--picture', metavar='FILE', help='draw the totals, as SVG')
        parser.add_argument('--processes', metavar='N', help='so many processes; without it one for each processor')
        parser.add_argument('--held', action='store_true', help='compare and rank what a desk holds, with the options')
        parser.add_argument('--progress', action='store_true', help='show the progress without a terminal too')


def fill_books(parser):
    parser.add_argument('--names', metavar='NAMES', help='a file with the names of further books, one to a line; - is standard input')
    parser.add_argument('--processes', metavar='N', help='so many processes; without it one for each processor')
    parser.add_argument('--scheduler', metavar='ADDRESS', help='the scheduler of a Dask cluster, as tcp://host:8786')
    parser.add_argument('--resume', metavar='STATE', help='a folder that keeps what is done')
    parser.add_argument('--progress', action='store_true', help='show the progress without a terminal too')
    parser.add_argument('--join', action='store_true', help='join reports that --json wrote')


def part_parser(part, name):
    """The parser of one part; name is how it was called."""
    parser = Parser(prog=name, description=f'{ABOUT[part][1]}\n\n{OUTSIDE}', formatter_class=argparse.RawDescriptionHelpFormatter)
    fill(parser, part)
    return parser


def overview():
    listed = ''.join(f'    mixegorta {part:9} {ABOUT[part][0]}\n' for part in ABOUT)
    return f'{SUMMARY}\n\n{listed}\n`mixegorta PART --help` tells more of each, `mixegorta --version` the version.\n'


def content(name, called):
    """The bytes of a file, or of standard input, where there is one to read."""
    if name is None and sys.stdin is not None and sys.stdin.isatty():
        raise Stop(f'name a file, or hand a text or a job in by standard input: {called} FILE')
    return content_of(name)


# The parts

def price(given, called):
    found = answers.answer(content(given.file, called), named(given.file))
    if isinstance(found.sheet, int):
        return answers.refused(found.sheet, given.form)
    if given.form == 'json':
        answers.put_json({**drawing.prices_data(found.sheet), **(drawing.tree_data(found.sheet) if given.tree else {})})
    elif given.form == 'csv' and given.tree:
        answers.put_csv(('row', 'node', 'discount', 'step_rate_in_percent'), drawing.node_rows(found.sheet))
    elif given.form == 'csv':
        answers.put_csv(('entry', 'price', 'error_bound_in_billionths'), answers.prices(found.sheet))
    elif given.tree:
        put(found.printed)
    else:
        put(''.join(f'{name:6}  {value}   exact on this tree to {bound} billionths\n' for name, value, bound in answers.prices(found.sheet)).encode())
    return answers.SHOWN


def job(given, called):
    return jobs.put_job(content(given.file, called), named(given.file), given.form)


def draw(given, called):
    if given.file is not None and given.job is not None:
        raise Stop('name a text or a job, or hand a sheet in by standard input with --job FILE, not both')
    beside = content_of(given.job) if given.job is not None else None
    found = drawing.drawn_answer(content(given.file, called), named(given.file), beside, named(given.job))
    return drawing.put_drawing(found, given.form, given.page, named(given.file if given.job is None else given.job))


def report(given, called):
    return book.put_report(given.file, given.form, given.frame, lambda: content(None, called))


def many(given, called):
    return books.put_books(given)


def scenario(given, called):
    return scenarios.put_scenarios(given)


def check(given, called):
    found = answers.answer(content(given.file, called), named(given.file))
    return answers.refused(found.sheet, given.form) if isinstance(found.sheet, int) else exact.put_check(found, given.form)


def example(given, called):
    return examples.put_example(given.name, given.form)


PARTS = {'price': (price, answers.NOT_SHOWN), 'job': (job, answers.REFUSED), 'draw': (draw, answers.NOT_SHOWN), 'book': (report, answers.NOT_SHOWN),
         'books': (many, answers.NOT_SHOWN), 'scenarios': (scenario, answers.NOT_SHOWN),
         'check': (check, answers.NOT_SHOWN), 'example': (example, answers.NOT_SHOWN)}


def run_part(part, called, arguments):
    """The status of one part."""
    work, failure = PARTS[part]
    return run(lambda: work(part_parser(part, called).parse_args(arguments), called), failure)


def no_part(arguments):
    if arguments in (['-h'], ['--help']):
        put(overview().encode())
    elif arguments == ['--version']:
        put(f'mixegorta {version()}\n'.encode())
    elif not arguments:
        raise Stop(f'name one of {", ".join(PARTS)}: see `mixegorta --help`')
    else:
        raise Stop(f'there is no part {arguments[0]!r}, only {", ".join(PARTS)}: see `mixegorta --help`')
    return answers.SHOWN


def main(arguments=None):
    """The command `mixegorta`."""
    arguments = sys.argv[1:] if arguments is None else arguments
    if arguments and arguments[0] in PARTS:
        return run_part(arguments[0], f'mixegorta {arguments[0]}', arguments[1:])
    return run(lambda: no_part(arguments), answers.NOT_SHOWN)
