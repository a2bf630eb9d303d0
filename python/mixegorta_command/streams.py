"""Files and streams of the tools: what cannot be read or written ends a tool with a sentence and a status, never with a traceback."""
import os
import sys
import traceback

INTERRUPTED = 130
# The status of a fault of the command itself: none of the statuses that its parts give, and not Python's own 1.
FAULT = 70


class Stop(Exception):
    """Ends a tool with these words on standard error."""


def named(name):
    """How a sentence calls a file, or standard input where there is none."""
    return 'standard input' if name in (None, '-') else name or "''"


def content_of(name=None):
    """The bytes of a file, or of standard input."""
    try:
        if name in (None, '-'):
            return sys.stdin.buffer.read() if sys.stdin else b''
        with open(name, 'rb') as file:
            return file.read()
    except (OSError, ValueError) as error:
        raise Stop(f'{named(name)}: {getattr(error, "strerror", None) or "no name of a file"}')


def put(content):
    """Writes all of it to standard output."""
    left = memoryview(content)
    try:
        while left:
            left = left[os.write(1, left):]
    except OSError as error:
        raise Stop(f'output is lost: standard output could not be written ({error.strerror})')


def tell(words):
    try:
        os.write(2, f'{words}\n'.encode(errors='surrogateescape'))
    except OSError:
        pass


def run(main, failure):
    """The status of a command, or `failure` where it stops."""
    try:
        return main()
    except Stop as stop:
        tell(stop)
        return failure
    except KeyboardInterrupt:
        return INTERRUPTED
    except SystemExit:
        raise
    except BaseException as error:
        return fault(error)


def fault(error):
    """Tells of an exception that nobody expected; with MIXEGORTA_TRACEBACK set, also where it was raised."""
    if os.environ.get('MIXEGORTA_TRACEBACK'):
        tell(traceback.format_exc().rstrip())
    words = ' '.join(str(error).split())[:300]
    told = f'{type(error).__name__}{": " if words else ""}{words}'
    tell(f'this is a fault of the command itself ({told}): please report it; with MIXEGORTA_TRACEBACK=1 it says where')
    return FAULT
