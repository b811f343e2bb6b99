#!/bin/sh
# Writes the paths of the folder's `.log` files, parted by commas, to a file. Its status is 0 if the list has changed, and 1 if
# not, or if there is no such file.
#
# usage: files.sh FOLDER FILE
set -eu
list=$(find "$1" -maxdepth 1 -name '*.log' -type f | LC_ALL=C sort | paste -sd , -)
[ -n "$list" ] || exit 1
[ "$list" != "$(cat "$2" 2>/dev/null)" ] || exit 1
printf '%s\n' "$list" > "$2.new"
mv "$2.new" "$2"
