#!/bin/sh
# Does the same without systemd: runs the program over the `.log` files of a folder, and starts it anew when the list has changed.
#
# usage: watch.sh FOLDER CONFIGURATION
set -eu
here=$(cd "$(dirname "$0")" && pwd)
list=$(mktemp)
program=
stop() {
  [ -z "$program" ] || kill -TERM "$program" 2>/dev/null || true
  [ -z "$program" ] || wait "$program" || true
  rm -f "$list"
}
trap 'stop; exit 0' TERM INT
while :; do
  if sh "$here/files.sh" "$1" "$list"; then
    [ -z "$program" ] || kill -TERM "$program" || true
    [ -z "$program" ] || wait "$program" || true
    FILES=$(cat "$list") env --block-signal=TERM,INT "${FWD:-fwd}" run -c "$2" &
    program=$!
  fi
  sleep 1
done
