#!/bin/sh
# A control program that drives `ecat master` through two named pipes: the valves follow the switches.
#
#   examples/follow.sh CYCLES COMMAND..
#
# COMMAND is an `ecat master` with its options. The program lights the lamp, runs so many cycles, and after each one sets the two
# valves as the first two switches are. It prints both at the end. It ends with status 1 if a cycle isn't taken.
set -eu
here=$(cd "$(dirname "$0")" && pwd)
cycles=$1
shift

folder=$(mktemp -d)
trap 'rm -rf "$folder"' EXIT
mkfifo "$folder/orders" "$folder/answers"
"$@" < "$folder/orders" > "$folder/answers" &
exec 3> "$folder/orders" 4< "$folder/answers"

give_up() {
    echo "follow: $1" >&2
    exit 1
}

{ cat "$here/small_machine.toml"; echo '%%'; } >&3

# a start-up fails until the slaves answer
tries=50
echo ready >&3
read -r answer <&4
while [ "$answer" != ready ]; do
    tries=$((tries - 1))
    [ "$tries" -gt 0 ] || give_up "$answer"
    echo ready >&3
    read -r answer <&4
done

echo 'set lamp 1' >&3
valves=0
while [ "$cycles" -gt 0 ]; do
    cycles=$((cycles - 1))
    echo cycle >&3
    read -r report <&4
    case $report in
        *untaken* | fault* | no*) give_up "$report" ;;
    esac
    echo show >&3
    read -r _ switches <&4
    read -r _ _force <&4
    valves=$((switches % 4))
    echo "set valves $valves" >&3
done

exec 3>&-
wait
echo "switches $switches valves $valves"
