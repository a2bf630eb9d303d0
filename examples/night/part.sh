#!/bin/sh
# Values one part of a night and leaves its report beside it, whole or not at all: part.sh NAMES
# Status 1 of the command says that some file is not in the report, which names it; the part is done all the same, where
# the report is there to its last line. Any other status is a part that is not done.
set -u
[ -e "$1.json" ] && exit 0
mixegorta books --processes 1 --json --names "$1" >"$1.part"
status=$?
[ $status -le 1 ] && [ "$(tail -n 1 "$1.part")" = '}' ] && mv "$1.part" "$1.json"
