#!/bin/sh
# Serves two programs of this folder, each node as a process of its own that talks to the others over the loopback
# interface, and looks at how the records of their clients end.
#
# 1. first.circus: the Ringmaster, the server s1 and the client m1. The record of m1 ends with the state [5].
# 2. bank.circus, without the spare l4: the ledger l3 is killed while the first payment is under way. The tellers find
#    that it is down and go on with the other two ledgers, and the record of the client d1 ends with 16 payments.
#
# It needs the proved program, which ./build makes, and that nobody else has the UDP ports 9000 to 9002 and 9100 to
# 9110, which the programs name. CIRCUS may name a command to be called in the place of ../circus.
#
# It ends with status 0 where both records end so, with status 1 where one doesn't, and with status 2 where it can't
# begin. All it says goes to standard error.
set -eu

top=$(CDPATH='' cd -- "$(dirname -- "$0")/.." && pwd)
circus=${CIRCUS:-$top/circus}

say() {
    echo "serve: $*" >&2
}

if [ -z "${CIRCUS-}" ] && [ ! -x "$top/crates/circus/out/circus" ]; then
    say 'there is no proved program; make it by ./build'
    exit 2
fi
cd "$top/examples"

# For each node that was started: its record NODE, what it said NODE.said, and while it isn't awaited NODE.pid.
records=$(mktemp -d)

clean_up() {
    for file in "$records"/*.pid; do
        if [ -f "$file" ]; then kill "$(cat "$file")" 2>/dev/null || :; fi
    done
    rm -rf "$records"
}
trap clean_up EXIT
trap 'exit 129' HUP
trap 'exit 130' INT
trap 'exit 143' TERM

# start PROGRAM TURNS NODE..: starts nodes of a program, each for so many takes.
start() {
    program=$1
    turns=$2
    shift 2
    for node in "$@"; do
        "$circus" node "$program" "$node" "$turns" >"$records/$node" 2>"$records/$node.said" &
        echo "$!" >"$records/$node.pid"
    done
}

# await NODE..: waits until nodes have ended. One that isn't served to its end is told, with its status and what it said.
await() {
    for node in "$@"; do
        status=0
        wait "$(cat "$records/$node.pid")" || status=$?
        rm "$records/$node.pid"
        if [ "$status" -ne 0 ]; then
            say "node $node ended with status $status: $(tail -n 1 "$records/$node")"
            cat "$records/$node.said" >&2
        fi
    done
}

# crash NODE: kills a node, which then writes no record. It must not have ended before.
crash() {
    pid=$(cat "$records/$1.pid")
    kill -9 "$pid" 2>/dev/null || :
    status=0
    wait "$pid" 2>/dev/null || status=$?
    rm "$records/$1.pid"
    if [ "$status" -le 128 ]; then
        say "node $1 ended with status $status before it was killed: $(tail -n 1 "$records/$1")"
        cat "$records/$1.said" >&2
        exit 1
    fi
}

# expect NODE LINE: the record of a node has to end with this line.
expect() {
    last=$(tail -n 1 "$records/$1")
    if [ "$last" != "$2" ]; then
        say "the record of $1 should end with '$2', and its last line is '$last'"
        exit 1
    fi
    say "the record of $1 ends with '$2'"
}

say 'first.circus: the nodes ring, s1 and m1'
start first.circus 40 ring s1
start first.circus 40 m1
await m1 s1 ring
expect m1 'now idle state [5]'

# A teller begins a payment once two members of the day have asked for it. So none is made before d2 and d3 are there,
# and l3 is killed behind the first ask and before the first payment is made. Of the others the records of d1 and t1
# are enough; the rest are stopped at the end.
say 'bank.circus: ring, three ledgers, three tellers and three members of the day'
start bank.circus 400 ring l1 l2 l3 t1 t2 t3
start bank.circus 250 d1
sleep 1
say 'bank.circus: the ledger l3 is killed'
crash l3
start bank.circus 250 d2 d3
await d1
expect d1 'now idle state [16]'
await t1
if ! grep -q '^event [0-9][0-9]* down l3$' "$records/t1"; then
    say 'the record of t1 should tell that l3 is down, and has no such event'
    exit 1
fi
say 'the record of t1 tells that l3 is down'
