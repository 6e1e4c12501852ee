#!/usr/bin/env bash
# Runs a command as on a machine that kept nothing: for it and what it starts, an empty folder stands where rt keeps what was proved.
#
#     tools/from_nothing.sh COMMAND ..        in a fresh clone, as root: time tools/from_nothing.sh taskset -c 0,1 ./test
#
# A check begins with what any other checkout on the machine kept of a crate of the same text, and `rt ci` takes what it passed before. So
# without this a fresh clone measures nothing where another was proved.
set -euo pipefail
kit=$(dirname "$(dirname "$(readlink -f "$(command -v rt)")")")
kept=$(dirname "$kit")/rattle-kept
room=$(mktemp -d)
trap 'rm -rf "$room"' EXIT
mkdir -p "$kept"
unshare --mount sh -c 'mount --bind "$1" "$2" && shift 2 && exec "$@"' sh "$room" "$kept" "$@"
