#!/usr/bin/env python3
"""The files of this crate and of the programs book and report_cases, and the report of each, worked out by reference/reference.py from documents 01
and 02 alone.

    vectors.py    writes the files stdin and stdout beside itself, in ../book and in ../report_cases

stdin: files one after the other, each after its length in two bytes, high byte first; of the program book one file. stdout: their reports; of
report_cases the report of all files together, twice.
"""
import importlib.util
import os
import random
import struct
import sys

HERE = os.path.dirname(os.path.abspath(__file__))
sys.dont_write_bytecode = True
spec = importlib.util.spec_from_file_location('sheets', os.path.join(HERE, '..', 'sheet_cases', 'vectors.py'))
sheets = importlib.util.module_from_spec(spec)
spec.loader.exec_module(sheets)

TAG, MOST_FIELDS = 16, 500
VERSION_AT, VERSIONS = 20, (None, 1, 2)
known = {}


def billionths(figure):
    whole, decimals = figure.split(b'.')
    return int(whole) * 10 ** 9 + int(decimals)


def prices(job):
    """Number, bond, its allowance and option of a job, from its sheet."""
    if job not in known:
        number, bond, allowance, option = 0, 0, 0, 0
        for line in sheets.reference.sheet(job).splitlines():
            words = line.split()
            if words[0] == b'refused':
                number = int(words[1])
            elif words[0] == b'bond':
                bond, allowance = billionths(words[1]), int(words[2])
            elif words[0] == b'option':
                option = billionths(words[1])
        known[job] = number, bond, allowance, option
    return known[job]


def totals(data):
    """Fields, counts of refusals, priced jobs, sums of bonds, options and allowances, and the dearest bond with its place."""
    refused, priced, sums, best, place = [0] * 14, 0, [0, 0, 0], -1, 0
    at = seen = 0
    while at < len(data):
        end = at + 3 + int.from_bytes(data[at + 1:at + 3], 'big')
        if seen == MOST_FIELDS or at + 3 > len(data) or data[at] != TAG or end > len(data):
            refused[1] += 1
            break
        seen += 1
        number, bond, allowance, option = prices(data[at + 3:end])
        at = end
        if number:
            refused[number] += 1
            continue
        priced += 1
        sums = [total + one for total, one in zip(sums, (bond, option, allowance))]
        if bond > best:
            best, place = bond, seen
    return seen, refused, priced, sums, best, place


def amount(word, value):
    return '%s %d.%09d' % ((word,) + divmod(value, 10 ** 9))


def figures(priced, refused, sums):
    lines = ['priced %d' % priced] + ['refused %d %d' % (k, refused[k]) for k in range(1, 14)]
    return lines + [amount('bonds', sums[0]), amount('options', sums[1]), 'allowances %d' % sums[2]]


def text(lines):
    return '\n'.join(lines).encode() + b'\n'


def report(data):
    _, refused, priced, sums, _, place = totals(data)
    return text(figures(priced, refused, sums) + ['dearest %d' % place])


def joined(cases):
    fields, refused, priced, sums, dearest = 0, [0] * 14, 0, [0, 0, 0], (-1, 0, 0)
    for book, case in enumerate(cases, 1):
        seen, numbers, some, three, best, place = totals(case)
        fields, priced = fields + seen, priced + some
        refused = [total + one for total, one in zip(refused, numbers)]
        sums = [total + one for total, one in zip(sums, three)]
        if best > dearest[0]:
            dearest = best, book, place
    lines = ['books %d' % len(cases), 'fields %d' % fields] + figures(priced, refused, sums)
    return text(lines + [amount('price', max(dearest[0], 0)), 'dearest %d %d' % dearest[1:]])


def field(job, tag=TAG):
    return struct.pack('>BH', tag, len(job)) + job


def versioned(job, version):
    """The job with a version's field, or as it is for None."""
    return job if version is None else job[:VERSION_AT] + struct.pack('>BHB', 11, 1, version) + job[VERSION_AT:]


def files(small, wrong):
    """Whole files and damaged ones. The bond of `low` is 0, of `high` above that of `mid`, and `twin` has mid's bond with an option on it; those of
    `steep` have options on listed dates."""
    mid, high = (sheets.job(f=1, s=0, quotes=[(5, 0.9)], flows=[flow]) for flow in (10 ** 9, 2 * 10 ** 9))
    low = sheets.job(f=1, s=0, quotes=[(5, 0.9)], flows=[0])
    twin = sheets.job(f=1, s=0, quotes=[(5, 0.9)], flows=[10 ** 9], option=(1, 0, 5 * 10 ** 8))
    over = sheets.job(f=1, s=0, quotes=[(5, 0.9)], flows=[2 * 10 ** 9], option=(5, 0, 0))
    steep = [sheets.job(f=1, b=5_000, s=20_000, quotes=sheets.rates(4, 0.03), flows=flows, option=(1, 10 ** 9), dates=[0, 2])
             for flows in ([0, 0, 0, 10 ** 9], [10 ** 8] * 3 + [11 * 10 ** 8])]
    yield b''
    for jobs in ([low], [mid], [low, low], [low, mid], [mid, high], [high, mid], [mid, twin], [twin, mid], [over, mid], [over], [mid, over, high, high]):
        yield b''.join(map(field, jobs))
    for version in VERSIONS:
        yield b''.join(field(versioned(made, version)) for made in steep)
    yield b''.join(field(versioned(made, version)) for made in steep for version in (*VERSIONS, 0, 3))
    yield b''.join(map(field, wrong))
    yield field(b'') + field(mid)
    yield field(bytes(4_700)) + field(bytes(4_701)) + field(bytes(9_999)) + field(mid)
    yield field(mid) + field(high, tag=10) + field(high)
    for cut in (b'\x10', b'\x10\x00', b'\x10\x00\x01', b'\x00', b'\x11\x00\x00', field(high)[:-1], field(mid)[:3]):
        yield field(mid) + cut
        yield cut
    empty = field(b'')
    yield empty * 500
    yield empty * 499 + field(mid)
    yield empty * 500 + field(mid)
    yield empty * 500 + b'\x10'
    yield empty * 498 + field(mid) + field(high)
    draw = random.Random(14)
    for _ in range(30):
        whole = b''.join(field(draw.choice(small)) for _ in range(draw.randrange(12)))
        yield whole if draw.random() < 0.5 else whole[:draw.randrange(len(whole) + 1)]


def long_file(small):
    """499 fields that are mostly short, one of 65,535 bytes, and one more."""
    draw = random.Random(15)
    return b''.join(field(draw.choice(small)) for _ in range(499)) + field(bytes(65_535)) + field(small[0])


def write(name, content):
    with open(os.path.join(HERE, name), 'wb') as file:
        file.write(content)


def main():
    made = [job for _, job in sheets.jobs()]
    small = [job for job in made if len(job) < 200 and job[:3] == b'\x01\x00\x01'] + [b'']
    wrong = {}
    for job in made:
        wrong.setdefault(prices(job)[0], job)
    cases = list(files(small, [wrong[number] for number in sorted(wrong)]))
    if sorted(wrong) != [0, 1, 2, 3, 4, 5, 7, 8, 9, 10, 11, 12, 13] or max(map(len, cases)) > 65_535:
        raise SystemExit('a number is missing, or a file is too long')
    priced = [job for job in small if prices(job)[0] == 0]
    told = {job[VERSION_AT + 3] if job[VERSION_AT] == 11 else None for job in priced}
    if told != set(VERSIONS) or not any(struct.pack('>BH', 10, 6) in job for job in priced):
        raise SystemExit('a version or a list of dates is missing')
    framed = b''.join(struct.pack('>H', len(case)) + case for case in cases)
    write('stdin', framed)
    write('../report_cases/stdin', framed)
    write('../report_cases/stdout', joined(cases) * 2)
    write('stdout', b''.join(map(report, cases)))
    whole = long_file(small)
    write('../book/stdin', whole)
    write('../book/stdout', report(whole))
    print(len(cases), 'files,', len(small), 'small jobs,', len(whole), 'bytes of the long file')


if __name__ == '__main__':
    main()
