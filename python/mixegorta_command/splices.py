"""One book under many curves: quotes are put between the bytes of its jobs that stay, and each scenario is valued by
itself."""
from collections import namedtuple

from .curves import FREQUENCIES, QUOTE_BYTES
from .nights import library
from .streams import Stop

TAG, HEAD_BYTES, MOST_FIELDS, MOST_STEPS = 0x10, 3, 500, 60
# Where a job's quotes start: behind the fields of frequency, steps, reversion and volatility, and that of the version
# where it has one.
QUOTES_START, VERSION_TAG, VERSION_BYTES = 20, 11, 4
CALL, PUT, NONE = -1, 1, 0

# A job whose quotes are exchanged: its bytes, where its quotes start, its frequency, its steps and the sign of its
# option in what a desk holds.
Job = namedtuple('Job', 'content start frequency steps sign')
# Jobs of one sign that the base prices, or refuses; with the base's report of each and of all.
Group = namedtuple('Group', 'jobs sign template reports base')
# What a scenario gives over the jobs of its book; what is compared is over those that the base prices too. Amounts are
# whole billionths.
Totals = namedtuple('Totals', 'priced refused bonds options error_bounds held held_bounds compared bonds_moved '
                              'bonds_open held_moved held_open causes')


def framed(job):
    return bytes([TAG]) + len(job).to_bytes(2, 'big') + job


def fields_of(book):
    """The jobs of a book's fields, and what is left of it, as the engine takes them."""
    jobs, at = [], 0
    while len(jobs) < MOST_FIELDS and at + HEAD_BYTES <= len(book) and book[at] == TAG:
        end = at + HEAD_BYTES + int.from_bytes(book[at + 1:at + HEAD_BYTES], 'big')
        if end > len(book):
            break
        jobs.append(book[at + HEAD_BYTES:end])
        at = end
    return jobs, book[at:]


def sign_of(package, option):
    """How an option counts in what a desk holds: a call is taken off the bond, a put comes on top."""
    if option is None:
        return NONE
    side = option.side if isinstance(option, package.DatedOption) else 1 + (option.kind + 1) % 2
    return CALL if side == package.CALL else PUT


def read_job(content):
    """A job whose quotes can be exchanged, or None for one that the engine refuses whatever its quotes are: for its
    form, its steps a year or its steps."""
    package = library()
    try:
        record = package.Job.read(content)
    except package.Refused:
        return None
    if record.frequency not in FREQUENCIES or not 1 <= len(record.quotes) <= MOST_STEPS:
        return None
    start = QUOTES_START + (VERSION_BYTES if content[QUOTES_START] == VERSION_TAG else 0)
    return Job(content, start, record.frequency, len(record.quotes), sign_of(package, record.option))


class Template:
    """Framed jobs without their quotes: the bytes that stay, and between them what stands there in each scenario."""

    def __init__(self, jobs, rest=b''):
        """A job is a Job, or bytes that stay as they are; rest is what stands behind them all."""
        self.fixed, self.keys, before = [], [], b''
        for job in jobs:
            if not isinstance(job, Job):
                before += framed(job)
                continue
            end = job.start + QUOTE_BYTES * job.steps
            self.fixed.append(before + framed(job.content)[:HEAD_BYTES + job.start])
            self.keys.append((job.frequency, job.steps))
            before = job.content[end:]
        self.fixed.append(before + rest)
        self.cuts = sorted(set(self.keys))

    def filled(self, curves):
        """The book with these quotes by frequency, of which each job takes as many as it has steps."""
        cut = {(frequency, steps): curves[frequency][:QUOTE_BYTES * steps] for frequency, steps in self.cuts}
        parts = [b''] * (2 * len(self.keys) + 1)
        parts[::2], parts[1::2] = self.fixed, [cut[key] for key in self.keys]
        return b''.join(parts)


class Plan:
    """A book made ready for any number of curves: its jobs by the sign of their option and by whether the base prices
    them."""

    def __init__(self, book):
        package = library()
        contents, rest = fields_of(book)
        self.jobs = [read_job(content) or content for content in contents]
        self.whole, self.base = Template(self.jobs, rest), package.report_of_file(book)
        singles = [(job, package.report_of_file(framed(job.content))) for job in self.jobs if isinstance(job, Job)]
        parts = [[(job, report) for job, report in singles if (job.sign, report.priced) == (sign, priced)]
                 for priced in (1, 0) for sign in (NONE, CALL, PUT)]
        self.groups = [group_of(part) for part in parts if part]
        # how many rows a frequency needs, and the first job that needs them
        self.needs = {}
        for place, job in enumerate(self.jobs, 1):
            if isinstance(job, Job):
                self.needs.setdefault((job.frequency, job.steps), place)
        # what no quotes can mend counts in every scenario: jobs that stay as they are, and what breaks the file
        self.refused = sum(self.base.refused) - sum(sum(report.refused) for _, report in singles)

    def checked(self, scenario, curves):
        """Stops where a job needs more figures than a scenario has."""
        for (frequency, steps), place in self.needs.items():
            if len(curves.get(frequency, b'')) < QUOTE_BYTES * steps:
                raise Stop(
                    f'--curves: scenario {scenario!r} has no curve of {steps} rows for {frequency} steps a year, '
                    f'which job {place} of the book needs')

    def totals(self, curves):
        """The totals of the book under the quotes of a scenario."""
        return added(self.refused, [(group, *valued(group, curves)) for group in self.groups])

    def base_totals(self):
        """The totals of the book as it is."""
        return added(self.refused, [
            (group, group.base, [(group.base, group.base)] if group.base.priced else []) for group in self.groups])


def group_of(singles):
    """A group of jobs of one sign with the base's report of each."""
    jobs = [job for job, _ in singles]
    reports = [report for _, report in singles]
    return Group(jobs, jobs[0].sign if jobs else NONE, Template(jobs), reports, library().all_joined(reports))


def valued(group, curves):
    """The report of a group under the quotes of a scenario, and pairs of reports, the base's and the scenario's, of
    jobs that both price."""
    report = library().report_of_file(group.template.filled(curves))
    if report.priced == 0 or group.base.priced == 0:
        return report, []
    if report.priced == len(group.jobs):
        return report, [(group.base, report)]
    middle = len(group.jobs) // 2
    halves = [group_of(list(zip(group.jobs, group.reports))[part]) for part in (slice(middle), slice(middle, None))]
    return report, [pair for half in halves for pair in valued(half, curves)[1]]


def added(refused, parts):
    """Totals from triples of a group, its report and the pairs that are compared."""
    held = sum(report.bonds + group.sign * report.options for group, report, _ in parts)
    # the bound of an option is that of its bond: both are the tree's
    held_bounds = sum(report.error_bounds * (1 + abs(group.sign)) for group, report, _ in parts)
    pairs = [(group.sign, former, own) for group, _, found in parts for former, own in found]
    moved = [(own.bonds - former.bonds, sign * (own.options - former.options)) for sign, former, own in pairs]
    opened = [(own.error_bounds + former.error_bounds, 1 + abs(sign)) for sign, former, own in pairs]
    causes = [sum(counts) for counts in zip(*(report.refused for group, report, _ in parts if group.base.priced))]
    reports = [report for _, report, _ in parts]
    return Totals(sum(report.priced for report in reports), refused + sum(sum(report.refused) for report in reports),
                  sum(report.bonds for report in reports), sum(report.options for report in reports),
                  sum(report.error_bounds for report in reports), held, held_bounds,
                  sum(own.priced for _, _, own in pairs), sum(bonds for bonds, _ in moved),
                  sum(bound for bound, _ in opened), sum(bonds + options for bonds, options in moved),
                  sum(bound * times for bound, times in opened), causes)
