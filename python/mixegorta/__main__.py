"""`python3 -m mixegorta`: the command of the package mixegorta_command."""
import sys

from mixegorta_command.command import main

sys.exit(main())
