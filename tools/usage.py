"""What every script of the tools answers alike: --help at once, and a word that it does not know in one sentence."""
import os
import sys


def answer(text, arguments, options=(), most=0):
    """Ends the script with its text where help is asked for, and with a sentence where an argument is none of its own."""
    if '-h' in arguments or '--help' in arguments:
        print(text.strip())
        sys.exit(0)
    plain = [word for word in arguments if not word.startswith('-')]
    unknown = [word for word in arguments if word.startswith('-') and word not in options] + plain[most:]
    if unknown:
        print(f'{unknown[0]!r} is no argument of this: see `{os.path.basename(sys.argv[0])} --help`', file=sys.stderr)
        sys.exit(2)


def library(text):
    """The package of the source folder, for a script that cannot do without."""
    try:
        import mixegorta
    except ImportError as error:
        if '-h' in sys.argv or '--help' in sys.argv:
            answer(text, ['--help'])
        print(error, file=sys.stderr)
        sys.exit(2)
    return mixegorta
