Nodes that are processes of their own, over the loopback interface of the machine. A node takes a datagram, or
waits a quarter of a second for one, which is a tick. The ports are others than those of the examples.

  $ sed 's/PORT 90/PORT 93/g' "$TESTDIR/../examples/first.circus" >first
  $ sed 's/PORT 90/PORT 93/g' "$TESTDIR/programs/two_calls.circus" >two_calls
  $ sed 's/MEMBERS s1 PORT 9301/&, s2 PORT 9303/; s/REPLIES FIRST MEMBERS m1/REPLIES WATCHDOG MEMBERS m1/' first >watched

Before any take.

  $ circus node first m1 0
  circus node 1 m1
  event 0 boot
  give s1 00000101000000000000000100010000000100000001000000000000000000010001000200000000000000000005
  member m1 Main live from 0 at 0 count 0
  run 0 step 0 path Main procedure 0 clock 0,0 arguments []
  ask 0 step 0 to Counter index 0 procedure 1 arguments [5] state [0]
  now waiting ask 0 state [0]

Nothing ever comes.

  $ circus node first m1 8
  circus node 1 m1
  event 0 boot
  give s1 00000101000000000000000100010000000100000001000000000000000000010001000200000000000000000005
  event 1 tick
  give s1 00020101000000000000000100010000000100000001000000000000000000010001000200000000000000000005
  event 2 tick
  give s1 00020101000000000000000100010000000100000001000000000000000000010001000200000000000000000005
  event 3 tick
  give s1 00020101000000000000000100010000000100000001000000000000000000010001000200000000000000000005
  event 4 tick
  give s1 00020101000000000000000100010000000100000001000000000000000000010001000200000000000000000005
  event 5 tick
  give s1 00020101000000000000000100010000000100000001000000000000000000010001000200000000000000000005
  event 6 tick
  give s1 00020101000000000000000100010000000100000001000000000000000000010001000200000000000000000005
  event 7 tick
  give s1 00020101000000000000000100010000000100000001000000000000000000010001000200000000000000000005
  event 8 tick
  give s1 00020101000000000000000100010000000100000001000000000000000000010001000200000000000000000005
  event 9 down s1
  give ring 0000010100000000000100030000000100000000
  member m1 Main live from 0 at 0 count 0
  run 0 step 0 path Main procedure 0 clock 0,0 arguments []
  ask 0 step 0 to Counter index 0 procedure 1 arguments [5] state [0]
  now waiting ask 0 state [0]

Two servers are silent.

  $ circus node watched m1 8 | grep -v 'tick$\|^give s'
  circus node 1 m1
  event 0 boot
  event 9 down s1
  give ring 0000010100000000000100030000000100000000
  event 10 down s2
  give ring 0000010100000001000100030000000200000000
  member m1 Main live from 0 at 0 count 0
  run 0 step 0 path Main procedure 0 clock 0,0 arguments []
  ask 0 step 0 to Counter index 0 procedure 1 arguments [5] state [0]
  now waiting ask 0 state [0]

A spare is told to join.

  $ circus node two_calls s2 1
  circus node 1 s2
  event 0 boot
  event 1 join
  give ring 0000010100000000000100010000000200000000
  event 2 tick
  give ring 0002010100000000000100010000000200000000
  member s2 Counter live asking

The Ringmaster's node.

  $ circus node two_calls ring 0
  circus node 1 ring
  event 0 boot
  ringmaster ring live
  view Counter 1 s1=0
  view Main 1 m1=0

A program has no such node, and is none.

  $ circus node first x9 2
  program has no node x9
  [2]
  $ printf 'CIRCUS 1;\n' >p; circus node p m1 2
  program line 2: syntax
  [2]

A port that another process has.

  $ circus node first m1 8 >first_m1 &
  > sleep 1; circus node first m1 0
  link fault
  [6]
  $ wait; tail -n 1 first_m1
  now waiting ask 0 state [0]

Three nodes, whose client has its reply. Steps are left out, and so are ticks, since they depend on when the
others answer.

  $ circus node first ring 16 >ring & circus node first s1 16 >s1 &
  > circus node first m1 12 >m1; wait
  $ sed -n '/^member/,$p' m1 | sed 's/step [1-9][0-9]* //'
  member m1 Main live from 0 at 0 count 1
  run 0 step 0 path Main procedure 0 clock 0,0 arguments []
  ask 0 step 0 to Counter index 0 procedure 1 arguments [5] state [0]
  reply 0 clock 1,0 returned [5]
  end 0 clock 1,0 returned [] state [5]
  now idle state [5]
  $ sed -n '/^member/,$p' s1 | sed 's/step [1-9][0-9]* //'
  member s1 Counter live from 0 at 0 count 1
  run 0 path Main.0 procedure 1 clock 1,0 arguments [5]
  end 0 clock 1,0 returned [5] state [5]
  now idle state [5]
  $ grep -v tick ring
  circus node 1 ring
  event 0 boot
  ringmaster ring live
  view Counter 1 s1=0
  view Main 1 m1=0

Datagrams by hand: what is no segment, what comes from no node, and one that is too long, of which the first
2,048 bytes are taken.

  $ circus node first s1 16 >s1 &
  > sleep 1
  > send() { python3 "$TESTDIR/send.py" "$@"; }
  > send 9302 9301 00; send 9399 9301 0102; send 9399 9301 $(printf %2100s '' | sed 's/ /ab/g'); wait
  $ sed '/tick/d; s/^event [1-9][0-9]*/event/; s/\(ab\)*$//' s1
  circus node 1 s1
  event 0 boot
  event datagram m1 00
  foreign 9399 0102
  foreign 9399 
  member s1 Counter live from 0 at 0 count 0
  now idle state [0]
  $ grep '^foreign .*ab' s1 | tr -d '\n' | wc -c
  4109

A call that comes twice is performed once. What is sent again at ticks is left out.

  $ circus node first s1 16 >s1 &
  > sleep 1; call=00000101000000000000000100010000000100000001000000000000000000010001000200000000000000000005
  > send 9302 9301 $call; send 9302 9301 $call; wait
  $ sed '/tick/d; /^give m1 0102/d; s/^event [1-9][0-9]*/event/; s/step [1-9][0-9]* //' s1
  circus node 1 s1
  event 0 boot
  event datagram m1 00000101000000000000000100010000000100000001000000000000000000010001000200000000000000000005
  give m1 0001010100000000
  give m1 010001010000000000000002000000010000000000000005
  event datagram m1 00000101000000000000000100010000000100000001000000000000000000010001000200000000000000000005
  member s1 Counter live from 0 at 0 count 1
  run 0 path Main.0 procedure 1 clock 1,0 arguments [5]
  end 0 clock 1,0 returned [5] state [5]
  now idle state [5]

Replies that differ, to a root that waits for the first and looks at the others.

  $ circus node watched m1 32 >m1 &
  > sleep 1
  > send 9301 9302 010001010000000000000002000000010000000000000005
  > send 9303 9302 010001010000000000000002000000010000000000000006; wait
  $ grep '^differ\|^reply\|^now' m1 | sed 's/step [1-9][0-9]* //'
  differ run 0 ask 0 s1 clock 1,0 returned [5] s2 clock 1,0 returned [6]
  reply 0 clock 1,0 returned [5]
  now idle state [5]

A standard output that takes nothing.

  $ circus run first >/dev/full
  [5]
  $ circus node first m1 0 >/dev/full
  [5]

A standard output that is closed: before the first line, or by a reader that has had enough of a report of some
megabytes. Nothing is said on standard error.

  $ circus run first >&-
  [5]
  $ yes "tick m1" | head -n 20000 >s
  $ { circus replay first s; echo $? >status; } | head -n 1
  circus report 1
  $ sleep 1; cat status
  5
