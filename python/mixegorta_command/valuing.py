"""The task of a night: a pure function of the bytes of some books, so that any process on any machine gives the same answer."""
import pickle
import subprocess
import sys

# A book of 500 fields of 65,535 bytes has one byte less: whatever stands behind them is counted once under 1, as the first byte of it already is.
MOST_BYTES = 500 * (3 + 65_535) + 1


def valued(contents):
    """The version of the library, and the report of each book as plain numbers."""
    import mixegorta
    return mixegorta.__version__, [tuple(mixegorta.report_of_file(content)) for content in contents]


def valued_apart(contents):
    """The same by a program of its own, which shares nothing with this one but the path; None where it dies."""
    command = [
        sys.executable, '-B', '-c',
        f'import sys; sys.path[:] = {sys.path!r}; from mixegorta_command import valuing; valuing.main()']
    made = subprocess.run(command, input=pickle.dumps(contents), stdout=subprocess.PIPE, stderr=subprocess.DEVNULL)
    return pickle.loads(made.stdout) if made.returncode == 0 else None


def main():
    sys.stdout.buffer.write(pickle.dumps(valued(pickle.load(sys.stdin.buffer))))
