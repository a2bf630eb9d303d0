"""The command `mixegorta`: conveniences for people over the proved engine. Nothing is proved of this package, and it needs python3 alone."""
