#!/usr/bin/env bash
# Three box offices in network namespaces of their own, each with a broker. All sell; east is cut off, and all sell on; then the
# line is back. Last `balance` cedes by itself what north can spare, and the files of all are summed up. Each line shows a request,
# its reply, and what each city has left to sell then. The files stay in the folder that is named at the end.
#
# usage: three-cities.sh                 builds the program, which proves it first
#        three-cities.sh --unproved      compiles it in some minutes, unless that was done, and proves nothing
#        three-cities.sh PROGRAM         takes a boxoffice that is there
#
# East is cut off for CUT seconds (10). The script needs root, for the namespaces, and the packages iproute2, mosquitto,
# mosquitto-clients, openssl and python3.
set -eu
cut=${CUT:-10}
here=$(cd "$(dirname "$0")" && pwd)
lacks=
for program in ip mosquitto mosquitto_pub mosquitto_sub openssl python3; do
    command -v $program > /dev/null || lacks="$lacks $program"
done
if [ -z "$lacks" ] && ! { ip netns add "probe-$$" && ip netns del "probe-$$"; } 2> /dev/null; then
    lacks=' the right to make network namespaces'
fi
if [ -n "$lacks" ]; then
    echo "three-cities.sh lacks$lacks" >&2
    exit 1
fi
folder=$(mktemp -d "${TMPDIR:-/tmp}/three-cities.XXXXXX")
case ${1:-} in
'')
    "$here/../scripts/build"
    boxoffice="$here/../crates/boxoffice/out/boxoffice"
    ;;
--unproved)
    "$here/../scripts/build" --unproved
    boxoffice="$here/../crates/boxoffice/out/boxoffice-unproved"
    ;;
*)
    boxoffice=$(realpath "$1")
    ;;
esac
cd "$folder"
cities=(north south east)
running=()

clean() {
    kill "${running[@]}" 2> /dev/null || true
    wait
    for city in hub "${cities[@]}"; do ip netns del "$city-$$" 2> /dev/null || true; done
}
trap clean EXIT

in_city() { ip netns exec "$1-$$" "${@:2}"; }

# Each city has a line to a switch, and the address 10.79.0.SITE + 1.
make_lines() {
    ip netns add "hub-$$"
    ip -n "hub-$$" link add switch type bridge
    ip -n "hub-$$" link set switch up
    for site in 0 1 2; do
        local city=${cities[site]}
        ip netns add "$city-$$"
        ip link add line netns "$city-$$" type veth peer name "$city" netns "hub-$$"
        ip -n "hub-$$" link set "$city" master switch up
        ip -n "$city-$$" address add "10.79.0.$((site + 1))/24" dev line
        ip -n "$city-$$" link set lo up
        ip -n "$city-$$" link set line up
    done
}

# Starts a program in a city; what it says goes to CITY.said.
start() {
    ip netns exec "$1-$$" "${@:2}" >> "$1.said" 2>&1 < /dev/null &
    running+=($!)
}

# A city's script publishes at the brokers of the others, and takes what comes at its own.
open_city() {
    local city=${cities[$1]} peers=()
    for peer in 0 1 2; do [ $peer = "$1" ] || peers+=("$peer=10.79.0.$((peer + 1)):8883"); done
    mkdir "$city"
    cp ca.crt "$1.crt" "$1.key" "$city"
    (cd "$city" && "$here/../exchange/mqtt/configure" "$1" 8883)
    start "$city" mosquitto -c "$city/broker.conf"
    "$boxoffice" init "$city.db" "$1" 3 10000 > /dev/null
    start "$city" "$boxoffice" open 7000 "$city.db"
    for _ in $(seq 300); do
        if grep -qx open "$city.said"; then break; fi
        sleep 0.1
    done
    start "$city" env "XDG_CONFIG_HOME=$folder/$city" "$here/../exchange/mqtt/boxoffice-exchange" "$1" "$city.db" "${peers[@]}"
    echo "$city is open, as site $1"
}

# The reply to a line at a city's port.
reply() {
    # shellcheck disable=SC2016
    in_city "$1" bash -c 'exec 3<> /dev/tcp/127.0.0.1/7000 && printf "%s\nquit\n" "$1" >&3 && head -n 1 <&3' bash "$2"
}

# What each city has left to sell.
left() {
    local city
    for city in "${cities[@]}"; do printf '%6s' "$(reply "$city" 'left gala' | sed 's/^left //; s/^unknown$/-/')"; done
}

show() { printf '    %-30s%-52s%s\n' "$1" "$2" "$(left)"; }

sell() { show "$1: $2" "$(reply "$1" "$2")"; }

# Waits for a minute until a line is answered so at each of the cities that are named.
await() {
    local begin=$SECONDS city
    for city in "${@:3}"; do
        until [ "$(reply "$city" "$1")" = "$2" ]; do
            ((SECONDS < begin + 60)) || { echo "$city does not answer $2 to $1" >&2; exit 1; }
            sleep 0.2
        done
        show "$city: $1" "$2"
    done
    echo "    (after $((SECONDS - begin)) s)"
}

"$here/../exchange/mqtt/certificates" 0=10.79.0.1 1=10.79.0.2 2=10.79.0.3
make_lines
for site in 0 1 2; do open_city $site; done

printf '%86s%6s%6s%6s\n' '' "${cities[@]}"
echo 'North releases 300 seats, and cedes 100 to each of the others:'
for line in 'announce 1 gala' 'release 2 gala 300' 'cede 3 gala 100 1' 'cede 4 gala 100 2'; do sell north "$line"; done
await 'left gala' 'left 100' north south east
echo 'All sell:'
sell north 'sell 5 gala 10'
sell south 'sell 1 gala 20'
sell east 'sell 1 gala 30'
await 'totals gala' 'totals released 300 sold 60 refunded 0 open 240' "${cities[@]}"

ip -n "east-$$" link set line down
echo 'East is cut off. All sell on, and north cedes 20 more to it:'
sell north 'sell 6 gala 40'
sell north 'cede 7 gala 20 2'
sell south 'sell 2 gala 80'
sell east 'sell 2 gala 70'
sell east 'sell 3 gala 1'
await 'totals gala' 'totals released 300 sold 180 refunded 0 open 120' north south
sleep "$cut"

ip -n "east-$$" link set line up
echo "East is back after $cut s and more, and gets what was ceded meanwhile:"
await 'left gala' 'left 20' east
sell east 'sell 4 gala 20'
await 'totals gala' 'totals released 300 sold 270 refunded 0 open 30' "${cities[@]}"

echo 'North alone has seats. At each city balance is started, and north cedes some by itself:'
for city in "${cities[@]}"; do start "$city" "$here/../exchange/balance" "$city.db" 7000; done
await 'left gala' 'left 6' south east
sed -n 's/^\(gala: .* done\): .*/    north: \1/p' north.said
sell south 'sell 3 gala 6'
await 'totals gala' 'totals released 300 sold 276 refunded 0 open 24' "${cities[@]}"

for city in "${cities[@]}"; do "$boxoffice" close "$city.db"; done
echo '$ boxoffice audit north.db south.db east.db'
"$boxoffice" audit north.db south.db east.db
echo "Files, and what each city said: $folder"
