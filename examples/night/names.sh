#!/bin/sh
# Lists the books of a folder and cuts the list into parts of some files each: names.sh FOLDER PARTS [FILES]
# PARTS is a new folder; its files names.000000, names.000001 and so on have one name to a line, in the order of the whole list. Prints how many parts.
set -eu
books=$1 parts=$2 files=${3:-100}
mkdir "$parts"
find "$books" -name '*.book' | LC_ALL=C sort >"$parts/names"
split -l "$files" -d -a 6 "$parts/names" "$parts/names."
find "$parts" -name 'names.*' | wc -l
