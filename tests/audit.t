Records of nodes, and what an audit says of them. The ports are others than those of the examples.

  $ sed 's/PORT 90/PORT 95/g' "$TESTDIR/../examples/first.circus" >first
  $ sed 's/PORT 90/PORT 95/g' "$TESTDIR/programs/two_calls.circus" >two_calls
  $ sed 's/MEMBERS s1 PORT 9501/&, s2 PORT 9503/; s/REPLIES FIRST MEMBERS m1/REPLIES WATCHDOG MEMBERS m1/' first >watched

# What nodes write

Before any take.

  $ circus node first m1 0 >m1; circus audit first m1
  circus audit 1
  yes

Nothing ever comes, and whom the node waits for is declared down.

  $ circus node first m1 8 >silent; circus audit first silent
  circus audit 1
  yes
  $ circus node watched m1 8 >both; circus audit watched both
  circus audit 1
  yes

A spare that is told to join, and the Ringmaster's node.

  $ circus node two_calls s2 1 >s2; circus audit two_calls s2
  circus audit 1
  yes
  $ circus node two_calls ring 0 >ring; circus audit two_calls ring
  circus audit 1
  yes

Three nodes, whose client has its reply.

  $ circus node first ring 16 >ring1 & circus node first s1 16 >s1 &
  > circus node first m1 12 >m2; wait
  $ for r in ring1 s1 m2; do circus audit first $r | tail -n 1; done
  yes
  yes
  yes

A datagram that is no segment, and one of no node; and a server that says that 5 and 0 are 6.

  $ send() { python3 "$TESTDIR/send.py" "$@"; }
  $ circus node first s1 16 >strayed &
  > sleep 1; send 9502 9501 00; send 9599 9501 0102; wait
  $ grep -c '^foreign' strayed; circus audit first strayed
  1
  circus audit 1
  yes
  $ circus node first m1 16 >lied &
  > sleep 1; send 9501 9502 010001010000000000000002000000010000000000000006; wait
  $ circus audit first lied
  run 0 does not stand
  [13]

# Each line

The record of `m1` before any take has seven lines. Each is left out, stands twice, and stands behind the next one.

  $ cat m1
  circus node 1 m1
  event 0 boot
  give s1 00000101000000000000000100010000000100000001000000000000000000010001000200000000000000000005
  member m1 Main live from 0 at 0 count 0
  run 0 step 0 path Main procedure 0 clock 0,0 arguments []
  ask 0 step 0 to Counter index 0 procedure 1 arguments [5] state [0]
  now waiting ask 0 state [0]
  $ for i in 1 2 3 4 5 6 7; do sed "${i}d" m1 >r; circus audit first r; done
  record line 1: bad line
  record line 2: bad line
  not a run of m1
  record line 4: bad line
  record line 5: bad line
  record line 6: bad line
  record line 7: bad line
  [13]
  $ for i in 1 2 3 4 5 6 7; do sed "${i}p" m1 >r; circus audit first r; done
  record line 2: bad line
  record line 3: bad line
  not a run of m1
  record line 5: bad line
  record line 6: bad line
  record line 7: bad line
  record line 8: bad line
  [13]
  $ for i in 1 2 3 4 5 6; do sed "${i}{h;d;};$((i + 1)){G;}" m1 >r; circus audit first r; done
  record line 1: bad line
  record line 2: bad line
  record line 4: bad line
  record line 4: bad line
  record line 5: bad line
  record line 6: bad line
  [13]

Of each line something is changed. The node is another one; the event is; the datagram is.

  $ changed() { sed "$1" m1 >r; circus audit first r; }
  $ changed '1s/1 m1/2 m1/'; changed '1s/m1/m2/'; changed '1s/m1/s1/'; changed '1s/m1/ring/'
  record line 1: bad line
  record line 1: bad line
  record line 3: bad line
  record line 4: bad line
  [13]
  $ changed '2s/0/1/'; changed '2s/0/00/'; changed '2s/boot/tick/'; changed '2s/boot/join/'; changed '2s/boot/down s1/'; changed '2s/boot/down m1/'; changed '2s/boot/datagram s1 /'
  record line 2: bad line
  record line 2: bad line
  not a run of m1
  not a run of m1
  not a run of m1
  record line 2: bad line
  not a run of m1
  [13]
  $ changed '3s/5$/6/'; changed '3s/s1/ring/'; changed '3s/s1/m1/'; changed '3s/s1/s2/'; changed '3s/5$//'; changed '3s/05$/0A/'
  not a run of m1
  not a run of m1
  record line 3: bad line
  record line 3: bad line
  record line 3: bad line
  record line 3: bad line
  [13]

So it is with what the member did.

  $ changed '4s/at 0/at 1/'; changed '4s/from 0/from 1/'; changed '4s/count 0/count 1/'; changed '4s/live/crashed 0/'; changed '4s/Main/Counter/'
  record line 4: bad line
  record line 4: bad line
  record line 7: bad line
  record line 4: bad line
  record line 4: bad line
  [13]
  $ changed '5s/run 0/run 1/'; changed '5s/step 0/step 1/'; changed '5s/procedure 0/procedure 1/'; changed '5s/0,0/0/'; changed '5s/\[\]/[1]/'; changed '5s/path Main/path Counter/'
  record line 5: bad line
  record line 5: bad line
  record line 5: bad line
  record line 5: bad line
  record line 5: bad line
  record line 5: bad line
  [13]
  $ changed '5s/0,0/0,1/'; changed '5s/path Main/path Main.0/'
  not a run of m1
  not a run of m1
  [13]
  $ changed '6s/ask 0/ask 1/'; changed '6s/step 0/step 1/'; changed '6s/Counter/Main/'; changed '6s/procedure 1/procedure 2/'; changed '6s/5/65536/'; changed '6s/\[0\]/[]/'
  record line 6: bad line
  record line 6: bad line
  record line 6: bad line
  record line 6: bad line
  record line 6: bad line
  record line 6: bad line
  [13]
  $ changed '6s/5/6/'; changed '6s/\[0\]/[1]/'; changed '6s/index 0/index 1/'
  not a run of m1
  not a run of m1
  not a run of m1
  [13]
  $ changed '7s/ask 0/ask 1/'; changed '7s/waiting ask 0/idle/'; changed '7s/\[0\]/[1]/'
  record line 7: bad line
  record line 7: bad line
  not a run of m1
  [13]

What is no text of lines, and no text at all.

  $ printf '' >r; circus audit first r
  record line 1: bad line
  [13]
  $ { cat m1; echo; } >r; circus audit first r
  record line 8: bad line
  [13]
  $ { cat m1; printf n; } >r; circus audit first r
  record line 8: bad line
  [13]
  $ printf %s "$(cat m1)" >r; circus audit first r
  record line 7: bad line
  [13]
  $ sed 's/$/\r/' m1 >r; circus audit first r
  record line 1: bad line
  [13]

# Replies that differ

The lie of `s2` was not taken.

  $ cat >differs <<END
  > circus node 1 m1
  > event 0 boot
  > give s1 00000101000000000000000100010000000100000001000000000000000000010001000200000000000000000005
  > give s2 00000101000000000000000100010000000100000001000000000000000000010001000200000000000000000005
  > event 1 datagram s1 010001010000000000000002000000010000000000000005
  > give s1 0101010100000000
  > event 2 datagram s2 010001010000000000000002000000010000000000000006
  > give s2 0101010100000000
  > differ run 0 ask 0 s1 clock 1,0 returned [5] s2 clock 1,0 returned [6]
  > member m1 Main live from 0 at 0 count 1
  > run 0 step 0 path Main procedure 0 clock 0,0 arguments []
  > ask 0 step 0 to Counter index 0 procedure 1 arguments [5] state [0]
  > reply 0 step 1 clock 1,0 returned [5]
  > end 0 step 1 clock 1,0 returned [] state [5]
  > now idle state [5]
  > END
  $ circus audit watched differs
  circus audit 1
  yes
  $ changed() { sed "$1" differs >r; circus audit watched r; }

A `differ` line stands there once. It names a run and an ask that stand below, and replies that its procedure may give.

  $ changed 9d; changed 9p; changed '9s/6/7/'; changed '9s/s1/s2/; 9s/s2 clock 1,0 returned .6/s1 clock 1,0 returned [6/'
  not a run of m1
  not a run of m1
  not a run of m1
  not a run of m1
  [13]
  $ changed '9s/run 0/run 1/'; changed '9s/ask 0/ask 1/'; changed '9s/s2/m1/'; changed '9s/s2/s3/'; changed '9s/1,0/1/'; changed '9s/6/65536/'
  record line 15: bad line
  record line 14: bad line
  record line 9: bad line
  record line 9: bad line
  record line 9: bad line
  record line 9: bad line
  [13]
  $ changed '8{h;d;};9{G;}'
  record line 9: bad line
  [13]

What came is another thing; what followed is.

  $ changed '5s/5$/6/'; changed '7s/6$/5/'; changed '6d'; changed '13s/step 1/step 2/'; changed '13s/step 1/step 3/'; changed '13s/5/6/'
  not a run of m1
  not a run of m1
  not a run of m1
  not a run of m1
  record line 13: bad line
  not a run of m1
  [13]
  $ changed '14s/state .5/state [6/'; changed '14s/returned/raised 60001/'; changed '14s/returned/raised 7/'; changed '14d'; changed '15s/5/6/'
  not a run of m1
  not a run of m1
  record line 14: bad line
  record line 14: bad line
  not a run of m1
  [13]

What is foreign stands behind what was given and what differed, and counts for nothing.

  $ changed '4a foreign 9501 00'; changed '9a foreign 65535 '
  circus audit 1
  yes
  circus audit 1
  yes
  $ changed '1a foreign 9501 00'; changed '7a foreign 9501 00'; changed '9a foreign 65536 00'; changed '10a foreign 9501 00'
  record line 2: bad line
  record line 9: bad line
  record line 10: bad line
  record line 11: bad line
  [13]

# Declarations, joins and the Ringmaster

A declaration stands directly behind the tick that suspects the node, and nowhere else.

  $ tail -n 7 silent
  give s1 00020101000000000000000100010000000100000001000000000000000000010001000200000000000000000005
  event 9 down s1
  give ring 0000010100000000000100030000000100000000
  member m1 Main live from 0 at 0 count 0
  run 0 step 0 path Main procedure 0 clock 0,0 arguments []
  ask 0 step 0 to Counter index 0 procedure 1 arguments [5] state [0]
  now waiting ask 0 state [0]
  $ changed() { sed "$1" silent >r; circus audit first r; }
  $ changed '/down s1/,/give ring/d'; changed 's/down s1/down ring/'; changed 's/down s1/tick/'; changed 's/event 8 tick/event 8 down s1/'
  not a run of m1
  not a run of m1
  not a run of m1
  not a run of m1
  [13]

The second event of a spare is its join, and no other one is.

  $ printf 'circus node 1 s2\nevent 0 boot\nmember s2 Counter live outside\n' >r; circus audit two_calls r
  not a run of s2
  [13]
  $ printf 'circus node 1 s2\nmember s2 Counter live outside\n' >r; circus audit two_calls r
  not a run of s2
  [13]
  $ sed 's/tick/join/' s2 >r; circus audit two_calls r
  not a run of s2
  [13]
  $ sed 's/asking/fetching/' s2 >r; circus audit two_calls r
  not a run of s2
  [13]

A spare performs from the state that is given to it. That is the one behind the run that was made before it; or it is
another one, or there are not so many runs.

  $ given() {
  >   cat <<END
  > circus node 1 s2
  > event 0 boot
  > event 1 join
  > give ring 0000010100000000000100010000000200000000
  > event 2 datagram ring 010001010000000000040000000000000002000200010001000000000002000000000000
  > give ring 0101010100000000
  > give s1 00000101000000000002000000000002
  > event 3 datagram s1 01000101000000000003$1$2
  > give s1 0101010100000000
  > give ring 00000101000000010001000200000002$1
  > member s2 Counter live from $3 at 3 count $3
  > now idle state [$4]
  > END
  > }
  $ given 00000001 0005 1 5 >r; circus audit two_calls r
  circus audit 1
  yes
  $ given 00000001 0009 1 9 >r; circus audit two_calls r
  run 1 does not stand
  [13]
  $ given 00000002 000c 2 12 >r; circus audit two_calls r
  circus audit 1
  yes
  $ given 00000003 000c 3 12 >r; circus audit two_calls r
  run 3 does not stand
  [13]
  $ given 00000001 0005 1 9 >r; circus audit two_calls r
  not a run of s2
  [13]

A false state that is given doesn't show where each run sets another one. Where a later
run is wrong, the answer is the place from which the spare began, and not that run.

  $ sed 's/PORT 90/PORT 95/g' "$TESTDIR/programs/keeper.circus" >keeper
  $ set_to() {
  >   hex=$(printf %04x "$2")
  >   cat <<END
  > circus node 1 s2
  > event 0 boot
  > event 1 join
  > give ring 0000010100000000000100010000000200000000
  > event 2 datagram ring 010001010000000000040000000000000002000200010001000000000002000000000000
  > give ring 0101010100000000
  > give s1 00000101000000000002000000000002
  > event 3 datagram s1 0100010100000000000300000001$1
  > give s1 0101010100000000
  > give ring 0000010100000001000100020000000200000001
  > event 4 datagram m1 00000101000000000000000100010001000100000001000000000000000000030001000200000001000000000007
  > give m1 0001010100000000
  > give m1 010001010000000000000002000000020000000000000007
  > event 5 datagram m1 0000010100000001000000010001000200010000000100000000000000000003000100020000000200000000$hex
  > give m1 0001010100000001
  > give m1 01000101000000010000000200000003000000000000$hex
  > member s2 Keeper live from 1 at 3 count 3
  > run 1 step 4 path Main.1 procedure 1 clock 2,0 arguments [7]
  > end 1 step 4 clock 2,0 returned [7] state [7]
  > run 2 step 5 path Main.2 procedure 1 clock 3,0 arguments [$2]
  > end 2 step 5 clock 3,0 returned [$2] state [$2]
  > now idle state [$2]
  > END
  > }
  $ set_to 0005 9 >r; circus audit keeper r
  circus audit 1
  yes
  $ set_to 0004 9 >r; circus audit keeper r
  circus audit 1
  yes
  $ set_to 0005 8 >r; circus audit keeper r
  run 2 does not stand
  [13]
  $ set_to 0004 8 >r; circus audit keeper r
  run 1 does not stand
  [13]

The Ringmaster's views are those of the requests that came to it.

  $ cat ring
  circus node 1 ring
  event 0 boot
  ringmaster ring live
  view Counter 1 s1=0
  view Main 1 m1=0
  $ changed() { sed "$1" ring >r; circus audit two_calls r; }
  $ changed '4s/1/2/'; changed '4s/s1=0/s1=1/'; changed '4s/s1=0/s1=joining/'; changed '4s/s1=0//; 4s/ $//'; changed '4s/s1=0/ring=0/'
  not a run of ring
  not a run of ring
  not a run of ring
  not a run of ring
  not a run of ring
  [13]
  $ changed 2d; changed 3d; changed 4d; changed 5d; changed '4{h;d;};5{G;}'; changed '3s/live/crashed 0/'; changed '4s/s1/s3/'
  not a run of ring
  record line 3: bad line
  record line 4: bad line
  record line 5: bad line
  record line 4: bad line
  record line 3: bad line
  record line 4: bad line
  [13]
  $ changed '2a differ run 0 ask 0 s1 clock 1,0 returned [5] s2 clock 1,0 returned [6]'
  record line 3: bad line
  [13]

# Another program

  $ sed 's/\[5\]/[6]/' first >other; circus audit other m1
  not a run of m1
  [13]
  $ circus audit first both
  record line 4: bad line
  [13]
  $ circus audit first s2
  record line 1: bad line
  [13]
  $ sed 's/Counter/Tally/g' first >other; circus audit other m1
  record line 6: bad line
  [13]

What is a lie about one program is true of another, whose server replies so.

  $ sed 's/total + n/total + n + 1/' first >other; circus audit other lied
  circus audit 1
  yes
