#!/bin/sh
# A night on the processors of one machine by plain processes: xargs.sh FOLDER PARTS [PROCESSES]
# The same command again values only what is missing; remove PARTS to start anew.
set -eu
here=$(dirname "$0") parts=$2
[ -e "$parts" ] || sh "$here/names.sh" "$1" "$parts" >/dev/null
find "$parts" -name 'names.??????' | LC_ALL=C sort | xargs -P "${3:-$(nproc)}" -n 1 sh "$here/part.sh"
mixegorta books --join "$parts"/names.*.json
