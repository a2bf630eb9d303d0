"""How long two threads take for 2,000 trees, measured against one thread: at most 0.6 of its time is wanted on two processors.

Usage: python3 threads.py, where the package is installed. The trees are the largest, sixty steps without reversion. Two
processes do the same work beside it, to show what the machine has to give; where they too take more than 0.55 of one thread's time, or
there is one processor alone, nothing is judged. Prints the ratios; exit status 1 where the threads take too long."""
import os
import sys
import threading
import time

import mixegorta as m

TREES, WANTED, IDLE = 2_000, 0.6, 0.55
CURVE = m.Curve(m.Point(row, m.DISCOUNT_FACTOR, 0.997**row) for row in range(1, 61))


def fits(count):
    for place in range(count):
        m.Tree(12, 60, 0, 10_000 + place, CURVE)


def in_threads(work, count):
    threads = [threading.Thread(target=work, args=(TREES // count,)) for _ in range(count)]
    for thread in threads:
        thread.start()
    for thread in threads:
        thread.join()


def in_processes(work, count):
    children = []
    for _ in range(count):
        child = os.fork()
        if child == 0:
            work(TREES // count)
            os._exit(0)
        children.append(child)
    for child in children:
        os.waitpid(child, 0)


def seconds(run, *arguments):
    start = time.perf_counter()
    run(*arguments)
    return time.perf_counter() - start


def ratios(work, rounds):
    """Of two threads and of two processes to one thread, each by its least time: other work on the machine comes and goes."""
    runs = (in_threads, 1), (in_threads, 2), (in_processes, 2)
    alone, threads, processes = map(min, zip(*([seconds(run, work, count) for run, count in runs] for _ in range(rounds))))
    return threads / alone, processes / alone


def main():
    if len(os.sched_getaffinity(0)) < 2:
        print("skipped: there is one processor")
        return 0
    threads, processes = ratios(fits, 20)
    print(f"{TREES} trees: two threads take {threads:.2f} of one thread's time, two processes {processes:.2f}")
    if threads > WANTED and processes > IDLE:
        print("skipped: the machine is busy")
    return 1 if threads > WANTED and processes <= IDLE else 0


if __name__ == "__main__":
    sys.exit(main())
