#!/usr/bin/env python3
"""The book report of document 02, request (xiv).

    book.py < file > report

A file is up to 500 fields of tag 10 (hex), each with a length of two bytes, high byte first, and one job. Amounts are billionths.
"""
import sys
from collections import namedtuple
from fractions import Fraction

import reference
from reference import Refused, amount

TAG = 0x10
MOST_FIELDS = 500
NUMBERS = range(1, 14)

# The bond's price and allowance, and the option's price, 0 where the job has none; of a refused job its number and zeros.
Prices = namedtuple('Prices', 'number bond option allowance')
# refused has a count for each of NUMBERS; dearest is a place among the fields, from 1, or 0.
Report = namedtuple('Report', 'priced refused bonds options allowances dearest')


def framed(job):
    """The field of a job, which has at most 65,535 bytes."""
    return bytes([TAG]) + len(job).to_bytes(2, 'big') + job


def taken(file):
    """The jobs of a file's fields, and whether something ends the file: a broken field, or any byte after the 500th."""
    jobs, at = [], 0
    while at < len(file):
        head = file[at:at + 3]
        end = at + 3 + int.from_bytes(head[1:], 'big')
        if len(jobs) == MOST_FIELDS or len(head) < 3 or head[0] != TAG or end > len(file):
            return jobs, True
        jobs.append(file[at + 3:end])
        at = end
    return jobs, False


def prices(job):
    try:
        found = reference.worked(job)
    except Refused as refusal:
        return Prices(refusal.number, 0, 0, 0)
    return Prices(0, found.bond, found.option or 0, found.allowance)


def report(answers, broken):
    """The report of a file by the prices of its jobs."""
    priced = [answer for answer in answers if answer.number == 0]
    refused = [sum(answer.number == number for answer in answers) for number in NUMBERS]
    refused[0] += broken
    highest = max((answer.bond for answer in priced), default=None)
    places = [place for place, answer in enumerate(answers, 1) if answer.number == 0 and answer.bond == highest]
    return Report(len(priced), refused, *(sum(answer[k] for answer in priced) for k in (1, 2, 3)), places[0] if places else 0)


def lines(found):
    out = ['priced %d' % found.priced]
    out += ['refused %d %d' % pair for pair in zip(NUMBERS, found.refused)]
    out += ['bonds ' + amount(found.bonds), 'options ' + amount(found.options)]
    return out + ['allowances %d' % found.allowances, 'dearest %d' % found.dearest]


def text(file, known=prices):
    """The printed report of a file; known gives a job's prices."""
    jobs, broken = taken(file)
    return ''.join(line + '\n' for line in lines(report([known(job) for job in jobs], broken))).encode()


def exact_total(file):
    """The exact bonds of the priced jobs, each on its working reversion and its fit's discounts, summed."""
    total = Fraction(0)
    for job in taken(file)[0]:
        if prices(job).number == 0:
            found, told = reference.worked(job), reference.read(job)
            total += reference.exact_bond_rows(told.n, found.b, found.discounts, told.flows)[0][0]
    return total


if __name__ == '__main__':
    sys.stdout.buffer.write(text(sys.stdin.buffer.read()))
