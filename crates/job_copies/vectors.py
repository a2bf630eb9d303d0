#!/usr/bin/env python3
"""The jobs of this crate, those of job_cases, and what is written of each: a well-formed one as it is, of any other the number 1.

    vectors.py    writes the files stdin and stdout beside itself
"""
import importlib.util, os, struct

here = os.path.dirname(os.path.abspath(__file__))
spec = importlib.util.spec_from_file_location("vectors", os.path.join(here, "..", "job_cases", "vectors.py"))
readings = importlib.util.module_from_spec(spec)
spec.loader.exec_module(readings)


def framed(parts):
    return b"".join(struct.pack(">H", len(part)) + part for part in parts)


def copied(job):
    return b"\x01" if readings.answer(job) == ["job 1 0 0 0 0 0"] else job


if __name__ == "__main__":
    jobs = list(readings.jobs())
    for name, parts in [("stdin", jobs), ("stdout", [copied(job) for job in jobs])]:
        with open(os.path.join(here, name), "wb") as out:
            out.write(framed(parts))
