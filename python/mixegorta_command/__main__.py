"""`python3 -m mixegorta_command`: the command without the library, which prices alone need."""
import sys

from .command import main

sys.exit(main())
