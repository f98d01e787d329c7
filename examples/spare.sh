#!/bin/sh
# Three nodes and a spare on the loopback interface, each a process of its own, and what happens when the server is
# killed.
#
# 1. The Ringmaster, the server s1 and the spare s2 of join.circus start. s2 joins: it takes the state of s1.
# 2. s1 is killed.
# 3. The client q1 starts. It has no answer of s1, finds after about two seconds that s1 is down, hears of s2 from the
#    Ringmaster, and has both its tickets of s2.
#
# It takes about twelve seconds, needs the UDP ports 9000 to 9003, and writes the ends of the records of q1 and s2.
# CIRCUS may name a command to be called in the place of ../circus. It ends with status 0 where both records end as they
# should, and else with status 1.
set -eu

top=$(CDPATH='' cd -- "$(dirname -- "$0")/.." && pwd)
circus=${CIRCUS:-$top/circus}
cd "$top/examples"

records=$(mktemp -d)
started=
clean_up() {
    for pid in $started; do kill "$pid" 2>/dev/null || :; done
    rm -rf "$records"
}
trap clean_up EXIT
trap 'exit 130' INT
trap 'exit 143' TERM

# serve NODE TURNS: starts a node, which writes its record when it has made so many takes.
serve() {
    "$circus" node join.circus "$1" "$2" >"$records/$1" 2>"$records/$1.said" &
    pid=$!
    started="$started $pid"
}

# The program is made first, if it isn't there: until then no node would answer.
"$circus" run join.circus >/dev/null

serve ring 48
serve s1 48
server=$pid
serve s2 48
spare=$pid
sleep 1
echo 'spare: the server s1 is killed' >&2
kill -9 "$server"
serve q1 32
client=$pid
wait "$client" || :
wait "$spare" || :

# The last lines of a record, which show what the member did.
for node in q1 s2; do
    echo "spare: the record of $node ends so" >&2
    sed -n '/^member /,$p' "$records/$node"
done
for node in q1 s2; do
    if [ "$(tail -n 1 "$records/$node")" != 'now idle state [2]' ]; then
        echo "spare: the record of $node should end with 'now idle state [2]'" >&2
        exit 1
    fi
done
