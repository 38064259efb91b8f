#!/usr/bin/env bash
# Two box offices sell from records of their own, cede by file, are looked through, and sell at once behind one port (7000, or that
# of PORT). Their files stay in the folder that is named at the end.
#
# usage: two-offices.sh                 builds the program, which proves it first
#        two-offices.sh --unproved      compiles it in some minutes, unless that was done, and proves nothing
#        two-offices.sh PROGRAM         takes a boxoffice that is there
set -eu
port=${PORT:-7000}
here=$(cd "$(dirname "$0")" && pwd)
folder=$(mktemp -d "${TMPDIR:-/tmp}/two-offices.XXXXXX")
case ${1:-} in
'')
    "$here/../scripts/build"
    boxoffice="$here/../crates/boxoffice/out/boxoffice"
    ;;
--unproved)
    "$here/../scripts/build" --unproved
    boxoffice="$here/../crates/boxoffice/out/boxoffice-unproved"
    ;;
*)
    boxoffice=$(realpath "$1")
    ;;
esac
cd "$folder"

# Shows a command and runs it; what it refuses is part of the story.
show() {
    echo "\$ boxoffice $*"
    "$boxoffice" "$@" || [ $? -eq 1 ]
}

# Shows the lines of a session and what they are answered.
session() {
    echo "\$ boxoffice ask $1"
    "$boxoffice" ask "$1" < "$2" > replies
    paste -d '\t' "$2" replies | sed 's/^/    /' | expand -t 36
}

show init north.db 0 2 1000
show init south.db 1 2 1000
printf '%s\n' 'announce 1 gala' 'release 2 gala 100' 'cede 3 gala 40 1' 'sell 4 gala 3' 'sell 5 gala 61' > north.lines
session north.db north.lines
echo '$ boxoffice export north.db 1 > to-south'
"$boxoffice" export north.db 1 > to-south
cat to-south
echo '$ boxoffice import south.db < to-south'
"$boxoffice" import south.db < to-south
printf '%s\n' 'sell 1 gala 40' 'sell 2 gala 1' 'left gala' > south.lines
session south.db south.lines
show list north.db gala
show list south.db gala
show find north.db 3
show find south.db 9
show audit north.db south.db

# Connects, once somebody listens, as the descriptor of this number.
connect() {
    for _ in $(seq 300); do
        if eval "exec $1<>/dev/tcp/127.0.0.1/$port" 2> /dev/null; then return; fi
        sleep 0.1
    done
    echo "nobody listens at port $port" >&2
    exit 1
}

# Shows a line that a caller sends, and what it is answered.
call() {
    echo "$2" >&"$1"
    read -r reply <&"$1"
    printf '    %s\n' "$2"$'\t'"$reply" | expand -t 36
}

echo "\$ boxoffice serve $port 2 10 north.db south.db &"
"$boxoffice" serve "$port" 2 10 north.db south.db &
serving=$!
trap 'kill $serving 2> /dev/null || true' EXIT
connect 3
connect 4
call 3 'sell 6 gala 50'
call 4 'sell 3 gala 1'
echo quit >&3
echo quit >&4
wait $serving
trap - EXIT
echo "The records are plain SQLite files: sqlite3 $folder/north.db 'SELECT * FROM entries'"
