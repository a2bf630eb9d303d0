"""A part of the command `mixegorta` from a source folder, for tools/price and tools/book: part.py PART ARGUMENTS."""
import pathlib
import sys

sys.path.insert(0, str(pathlib.Path(__file__).resolve().parent.parent / 'python'))
from mixegorta_command.command import run_part

sys.exit(run_part(sys.argv[1], f'tools/{sys.argv[1]}', sys.argv[2:]))
