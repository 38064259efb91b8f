#!/usr/bin/env bash
# Compiles the program as its sources are, UNPROVED, and runs a script by it. What is proved is built by scripts/build.
#
# usage: unproved.sh SCRIPT REPLIES [PROGRAM]
#
# The replies to SCRIPT go to the file REPLIES. `rt try` makes the program in a folder of its own, runs it, and removes it: where
# PROGRAM is given, it is linked to that name while SCRIPT runs. Such a program checks itself as it runs, and is slow. It is compiled
# from a copy of the crates in which `boxoffice version` says `unproved`.
set -eu
here=$(cd "$(dirname "$0")" && pwd)
script=$(realpath "$1") replies=$(realpath "$2")
room=$(mktemp -d "$replies.XXXXXX")
trap 'rm -rf "$room"' EXIT
tar -C "$here/.." --exclude=out -cf - HANDLES crates.txt crates | tar -C "$room" -xf -
sed -i 's/\\nproved\\n/\\nunproved\\n/' "$room/crates/operator_cli/src/version.rt"
echo 'Compiling boxoffice and the crates below it, unproved: two to four minutes.' >&2
(cd "$room/crates/boxoffice" && TMPDIR=$room exec rt try -- world < "$script" > "$replies" 2> "$room/log") &
compiling=$!
while kill -0 $compiling 2> /dev/null; do
    [ ! -t 2 ] || printf '\rcompiling: %3d s ' $SECONDS >&2
    made=$(find "$room" -name program -type f 2> /dev/null | head -n 1)
    [ $# -lt 3 ] || [ -z "$made" ] || [ -e "$3" ] || ln "$made" "$3" 2> /dev/null || true
    sleep 0.1
done
[ ! -t 2 ] || printf '\n' >&2
wait $compiling || { cat "$room/log" >&2; exit 1; }
[ $# -lt 3 ] || [ -e "$3" ] || { echo 'rt try left no program that could be kept' >&2; exit 1; }
