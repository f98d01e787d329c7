Replays of one program under short schedules. In a schedule \n is a newline.

  $ . "$TESTDIR/cases.sh"
  $ cp "$TESTDIR"/programs/*.circus "$TESTDIR"/../examples/*.circus .

  $ replayed first.circus 'deliver 0\ndeliver 1\ndeliver 2\ndeliver 3\n'
  circus report 1
  datagram 0 step 0 from m1 to s1 00000101000000000000000100010000000100000001000000000000000000010001000200000000000000000005
  datagram 1 step 1 from s1 to m1 0001010100000000
  datagram 2 step 1 from s1 to m1 010001010000000000000002000000010000000000000005
  datagram 3 step 3 from m1 to s1 0101010100000000
  ringmaster ring live
  view Counter 1 s1=0
  view Main 1 m1=0
  member s1 Counter live from 0 at 0 count 1
  run 0 step 1 path Main.0 procedure 1 clock 1,0 arguments [5]
  end 0 step 1 clock 1,0 returned [5] state [5]
  now idle state [5]
  member m1 Main live from 0 at 0 count 1
  run 0 step 0 path Main procedure 0 clock 0,0 arguments []
  ask 0 step 0 to Counter index 0 procedure 1 arguments [5] state [0]
  reply 0 step 3 clock 1,0 returned [5]
  end 0 step 3 clock 1,0 returned [] state [5]
  now idle state [5]

Nothing is delivered.

  $ replayed first.circus ''
  circus report 1
  datagram 0 step 0 from m1 to s1 00000101000000000000000100010000000100000001000000000000000000010001000200000000000000000005
  ringmaster ring live
  view Counter 1 s1=0
  view Main 1 m1=0
  member s1 Counter live from 0 at 0 count 0
  now idle state [0]
  member m1 Main live from 0 at 0 count 0
  run 0 step 0 path Main procedure 0 clock 0,0 arguments []
  ask 0 step 0 to Counter index 0 procedure 1 arguments [5] state [0]
  now waiting ask 0 state [0]

A call that comes again isn't performed again.

  $ replayed first.circus 'deliver 0\ndeliver 0\ndeliver 0\n'
  circus report 1
  datagram 0 step 0 from m1 to s1 00000101000000000000000100010000000100000001000000000000000000010001000200000000000000000005
  datagram 1 step 1 from s1 to m1 0001010100000000
  datagram 2 step 1 from s1 to m1 010001010000000000000002000000010000000000000005
  ringmaster ring live
  view Counter 1 s1=0
  view Main 1 m1=0
  member s1 Counter live from 0 at 0 count 1
  run 0 step 1 path Main.0 procedure 1 clock 1,0 arguments [5]
  end 0 step 1 clock 1,0 returned [5] state [5]
  now idle state [5]
  member m1 Main live from 0 at 0 count 0
  run 0 step 0 path Main procedure 0 clock 0,0 arguments []
  ask 0 step 0 to Counter index 0 procedure 1 arguments [5] state [0]
  now waiting ask 0 state [0]

  $ replayed greatest.circus 'deliver 0\ndeliver 1\ndeliver 2\ndeliver 3\n'
  circus report 1
  datagram 0 step 0 from m1 to s1 0000010100000000000000010001000000010000000100000000000000000001000100020000000000000000ffff
  datagram 1 step 1 from s1 to m1 0001010100000000
  datagram 2 step 1 from s1 to m1 01000101000000000000000200000001000000000000ffff
  datagram 3 step 3 from m1 to s1 0101010100000000
  ringmaster ring live
  view Counter 1 s1=0
  view Main 1 m1=0
  member s1 Counter live from 0 at 0 count 1
  run 0 step 1 path Main.0 procedure 1 clock 1,0 arguments [65535]
  end 0 step 1 clock 1,0 returned [65535] state [65535]
  now idle state [65535]
  member m1 Main live from 0 at 0 count 1
  run 0 step 0 path Main procedure 0 clock 0,0 arguments []
  ask 0 step 0 to Counter index 0 procedure 1 arguments [65535] state [0]
  reply 0 step 3 clock 1,0 returned [65535]
  end 0 step 3 clock 1,0 returned [] state [65535]
  now idle state [65535]

A datagram that was not sent.

  $ replayed first.circus 'deliver 9'
  circus report 1
  datagram 0 step 0 from m1 to s1 00000101000000000000000100010000000100000001000000000000000000010001000200000000000000000005
  schedule line 1: no datagram 9, 1 sent
  [3]

A call that isn't acknowledged goes again at a tick.

  $ replayed first.circus 'tick m1\n'
  circus report 1
  datagram 0 step 0 from m1 to s1 00000101000000000000000100010000000100000001000000000000000000010001000200000000000000000005
  datagram 1 step 1 from m1 to s1 00020101000000000000000100010000000100000001000000000000000000010001000200000000000000000005
  ringmaster ring live
  view Counter 1 s1=0
  view Main 1 m1=0
  member s1 Counter live from 0 at 0 count 0
  now idle state [0]
  member m1 Main live from 0 at 0 count 0
  run 0 step 0 path Main procedure 0 clock 0,0 arguments []
  ask 0 step 0 to Counter index 0 procedure 1 arguments [5] state [0]
  now waiting ask 0 state [0]

The Ringmaster alone.

  $ replayed no_troupes.circus 'tick ring\n'
  circus report 1
  ringmaster ring live

  $ replayed no_troupes.circus 'deliver 0\ndeliver 1\ndeliver 2\ndeliver 3\n'
  circus report 1
  schedule line 1: no datagram 0, 0 sent
  [3]

# Calls that come again, from several members, and early

Performed once; sent again and then asked for at a tick.

  $ replayed first.circus 'deliver 0\ndeliver 0\ndeliver 0\ntick m1\ndeliver 3\ndeliver 4\ntick m1\n'
  circus report 1
  datagram 0 step 0 from m1 to s1 00000101000000000000000100010000000100000001000000000000000000010001000200000000000000000005
  datagram 1 step 1 from s1 to m1 0001010100000000
  datagram 2 step 1 from s1 to m1 010001010000000000000002000000010000000000000005
  datagram 3 step 4 from m1 to s1 00020101000000000000000100010000000100000001000000000000000000010001000200000000000000000005
  datagram 4 step 5 from s1 to m1 0001010100000000
  datagram 5 step 7 from m1 to s1 0002010000000000
  ringmaster ring live
  view Counter 1 s1=0
  view Main 1 m1=0
  member s1 Counter live from 0 at 0 count 1
  run 0 step 1 path Main.0 procedure 1 clock 1,0 arguments [5]
  end 0 step 1 clock 1,0 returned [5] state [5]
  now idle state [5]
  member m1 Main live from 0 at 0 count 0
  run 0 step 0 path Main procedure 0 clock 0,0 arguments []
  ask 0 step 0 to Counter index 0 procedure 1 arguments [5] state [0]
  now waiting ask 0 state [0]

A server waits for all callers.

  $ replayed two_of_each.circus 'deliver 0\ndeliver 2\n'
  circus report 1
  datagram 0 step 0 from r1 to s1 00000101000000000000000100010000000100000001000000000000000000010001000200000000000000000005
  datagram 1 step 0 from r1 to s2 00000101000000000000000100010000000100000001000000000000000000010001000200000000000000000005
  datagram 2 step 0 from r2 to s1 00000101000000000000000100010000000100000001000000000000000000010001000200000000000000000005
  datagram 3 step 0 from r2 to s2 00000101000000000000000100010000000100000001000000000000000000010001000200000000000000000005
  datagram 4 step 1 from s1 to r1 0001010100000000
  datagram 5 step 2 from s1 to r2 0001010100000000
  datagram 6 step 2 from s1 to r1 010001010000000000000002000000010000000000000005
  datagram 7 step 2 from s1 to r2 010001010000000000000002000000010000000000000005
  ringmaster ring live
  view Counter 1 s1=0 s2=0
  view Main 1 r1=0 r2=0
  member s1 Counter live from 0 at 0 count 1
  run 0 step 2 path Main.0 procedure 1 clock 1,0 arguments [5]
  end 0 step 2 clock 1,0 returned [5] state [5]
  now idle state [5]
  member s2 Counter live from 0 at 0 count 0
  now idle state [0]
  member r1 Main live from 0 at 0 count 0
  run 0 step 0 path Main procedure 0 clock 0,0 arguments []
  ask 0 step 0 to Counter index 0 procedure 1 arguments [5] state [0]
  now waiting ask 0 state [0]
  member r2 Main live from 0 at 0 count 0
  run 0 step 0 path Main procedure 0 clock 0,0 arguments []
  ask 0 step 0 to Counter index 0 procedure 1 arguments [5] state [0]
  now waiting ask 0 state [0]

A server waits for the first one.

  $ replayed first_of_each.circus 'deliver 1\ndeliver 3\n'
  circus report 1
  datagram 0 step 0 from r1 to s1 00000101000000000000000100010000000100000001000000000000000000010001000200000000000000000005
  datagram 1 step 0 from r1 to s2 00000101000000000000000100010000000100000001000000000000000000010001000200000000000000000005
  datagram 2 step 0 from r2 to s1 00000101000000000000000100010000000100000001000000000000000000010001000200000000000000000005
  datagram 3 step 0 from r2 to s2 00000101000000000000000100010000000100000001000000000000000000010001000200000000000000000005
  datagram 4 step 1 from s2 to r1 0001010100000000
  datagram 5 step 1 from s2 to r1 010001010000000000000002000000010000000000000005
  datagram 6 step 2 from s2 to r2 0001010100000000
  datagram 7 step 2 from s2 to r2 010001010000000000000002000000010000000000000005
  ringmaster ring live
  view Counter 1 s1=0 s2=0
  view Main 1 r1=0 r2=0
  member s1 Counter live from 0 at 0 count 0
  now idle state [0]
  member s2 Counter live from 0 at 0 count 1
  run 0 step 1 path Main.0 procedure 1 clock 1,0 arguments [5]
  end 0 step 1 clock 1,0 returned [5] state [5]
  now idle state [5]
  member r1 Main live from 0 at 0 count 0
  run 0 step 0 path Main procedure 0 clock 0,0 arguments []
  ask 0 step 0 to Counter index 0 procedure 1 arguments [5] state [0]
  now waiting ask 0 state [0]
  member r2 Main live from 0 at 0 count 0
  run 0 step 0 path Main procedure 0 clock 0,0 arguments []
  ask 0 step 0 to Counter index 0 procedure 1 arguments [5] state [0]
  now waiting ask 0 state [0]

The second call comes before the first one.

  $ replayed two_steps.circus 'deliver 0\ndeliver 2\ndeliver 5\ndeliver 7\ndeliver 9\ndeliver 12\ndeliver 3\n'
  circus report 1
  datagram 0 step 0 from r1 to a1 00000101000000000000000300010000000300000001000000000001000000010001000400000000000000000000000000000000
  datagram 1 step 1 from a1 to r1 0001010100000000
  datagram 2 step 1 from a1 to m1 0000010100000000000000030002000000000001000000010000000000000000000100010004000000000000000100000000000000000001
  datagram 3 step 1 from a1 to m2 0000010100000000000000030002000000000001000000010000000000000000000100010004000000000000000100000000000000000001
  datagram 4 step 2 from m1 to a1 0001010100000000
  datagram 5 step 2 from m1 to a1 0100010100000000000000040000000100000001000000000000000000000001
  datagram 6 step 3 from a1 to m1 0101010100000000
  datagram 7 step 3 from a1 to r1 010001010000000000000004000000010000000100000000000000000000
  datagram 8 step 4 from r1 to a1 0101010100000000
  datagram 9 step 4 from r1 to b1 00000101000000000000000300010001000300000001000000000002000000010001000400000001000000010000000000000000
  datagram 10 step 5 from b1 to r1 0001010100000000
  datagram 11 step 5 from b1 to m1 0000010100000000000000030002000100000002000000010000000000000000000100010004000000010000000100000001000000000002
  datagram 12 step 5 from b1 to m2 0000010100000000000000030002000100000002000000010000000000000000000100010004000000010000000100000001000000000002
  datagram 13 step 6 from m2 to b1 0001010100000000
  datagram 14 step 7 from m2 to a1 0001010100000000
  datagram 15 step 7 from m2 to a1 0100010100000000000000040000000100000001000000000000000000000001
  datagram 16 step 7 from m2 to b1 0100010100000000000000040000000200000001000000010000000000000003
  ringmaster ring live
  view Counter 1 m1=0 m2=0
  view A 1 a1=0
  view B 1 b1=0
  view Main 1 r1=0
  member m1 Counter live from 0 at 0 count 1
  run 0 step 2 path Main.0.0 procedure 1 clock 1,1,0,0 arguments [1]
  end 0 step 2 clock 1,1,0,0 returned [1] state [1]
  now idle state [1]
  member m2 Counter live from 0 at 0 count 2
  run 0 step 7 path Main.0.0 procedure 1 clock 1,1,0,0 arguments [1]
  end 0 step 7 clock 1,1,0,0 returned [1] state [1]
  run 1 step 7 path Main.1.0 procedure 1 clock 2,1,1,0 arguments [2]
  end 1 step 7 clock 2,1,1,0 returned [3] state [3]
  now idle state [3]
  member a1 A live from 0 at 0 count 1
  run 0 step 1 path Main.0 procedure 1 clock 0,1,0,0 arguments []
  ask 0 step 1 to Counter index 0 procedure 1 arguments [1] state []
  reply 0 step 3 clock 1,1,0,0 returned [1]
  end 0 step 3 clock 1,1,0,0 returned [] state []
  now idle state []
  member b1 B live from 0 at 0 count 0
  run 0 step 5 path Main.1 procedure 1 clock 1,1,1,0 arguments []
  ask 0 step 5 to Counter index 1 procedure 1 arguments [2] state []
  now waiting ask 0 state []
  member r1 Main live from 0 at 0 count 0
  run 0 step 0 path Main procedure 0 clock 0,0,0,0 arguments []
  ask 0 step 0 to A index 0 procedure 1 arguments [] state []
  reply 0 step 4 clock 1,1,0,0 returned []
  ask 1 step 4 to B index 0 procedure 1 arguments [] state []
  now waiting ask 1 state []

# The bank

  $ replayed bank.circus ''
  circus report 1
  datagram 0 step 0 from d1 to t1 0000010100000000000000020001000000020000000100000000000100000001000100030000000000000000000000000000000100000006
  datagram 1 step 0 from d1 to t2 0000010100000000000000020001000000020000000100000000000100000001000100030000000000000000000000000000000100000006
  datagram 2 step 0 from d1 to t3 0000010100000000000000020001000000020000000100000000000100000001000100030000000000000000000000000000000100000006
  datagram 3 step 0 from d2 to t1 0000010100000000000000020001000000020000000100000000000100000001000100030000000000000000000000000000000100000006
  datagram 4 step 0 from d2 to t2 0000010100000000000000020001000000020000000100000000000100000001000100030000000000000000000000000000000100000006
  datagram 5 step 0 from d2 to t3 0000010100000000000000020001000000020000000100000000000100000001000100030000000000000000000000000000000100000006
  datagram 6 step 0 from d3 to t1 0000010100000000000000020001000000020000000100000000000100000001000100030000000000000000000000000000000100000006
  datagram 7 step 0 from d3 to t2 0000010100000000000000020001000000020000000100000000000100000001000100030000000000000000000000000000000100000006
  datagram 8 step 0 from d3 to t3 0000010100000000000000020001000000020000000100000000000100000001000100030000000000000000000000000000000100000006
  ringmaster ring live
  view Ledger 1 l1=0 l2=0 l3=0
  view Teller 1 t1=0 t2=0 t3=0
  view Day 1 d1=0 d2=0 d3=0
  member l1 Ledger live from 0 at 0 count 0
  now idle state [{0, 0, 0, 0}, FALSE]
  member l2 Ledger live from 0 at 0 count 0
  now idle state [{0, 0, 0, 0}, FALSE]
  member l3 Ledger live from 0 at 0 count 0
  now idle state [{0, 0, 0, 0}, FALSE]
  member l4 Ledger live outside
  member t1 Teller live from 0 at 0 count 0
  now idle state [0]
  member t2 Teller live from 0 at 0 count 0
  now idle state [0]
  member t3 Teller live from 0 at 0 count 0
  now idle state [0]
  member d1 Day live from 0 at 0 count 0
  run 0 step 0 path Day procedure 0 clock 0,0,0 arguments []
  ask 0 step 0 to Teller index 0 procedure 1 arguments [0, 1, 6] state [0]
  now waiting ask 0 state [0]
  member d2 Day live from 0 at 0 count 0
  run 0 step 0 path Day procedure 0 clock 0,0,0 arguments []
  ask 0 step 0 to Teller index 0 procedure 1 arguments [0, 1, 6] state [0]
  now waiting ask 0 state [0]
  member d3 Day live from 0 at 0 count 0
  run 0 step 0 path Day procedure 0 clock 0,0,0 arguments []
  ask 0 step 0 to Teller index 0 procedure 1 arguments [0, 1, 6] state [0]
  now waiting ask 0 state [0]

  $ replayed bank.circus 'deliver 9\n'
  circus report 1
  datagram 0 step 0 from d1 to t1 0000010100000000000000020001000000020000000100000000000100000001000100030000000000000000000000000000000100000006
  datagram 1 step 0 from d1 to t2 0000010100000000000000020001000000020000000100000000000100000001000100030000000000000000000000000000000100000006
  datagram 2 step 0 from d1 to t3 0000010100000000000000020001000000020000000100000000000100000001000100030000000000000000000000000000000100000006
  datagram 3 step 0 from d2 to t1 0000010100000000000000020001000000020000000100000000000100000001000100030000000000000000000000000000000100000006
  datagram 4 step 0 from d2 to t2 0000010100000000000000020001000000020000000100000000000100000001000100030000000000000000000000000000000100000006
  datagram 5 step 0 from d2 to t3 0000010100000000000000020001000000020000000100000000000100000001000100030000000000000000000000000000000100000006
  datagram 6 step 0 from d3 to t1 0000010100000000000000020001000000020000000100000000000100000001000100030000000000000000000000000000000100000006
  datagram 7 step 0 from d3 to t2 0000010100000000000000020001000000020000000100000000000100000001000100030000000000000000000000000000000100000006
  datagram 8 step 0 from d3 to t3 0000010100000000000000020001000000020000000100000000000100000001000100030000000000000000000000000000000100000006
  schedule line 1: no datagram 9, 9 sent
  [3]

  $ replayed bank.circus 'deliver 8\n'
  circus report 1
  datagram 0 step 0 from d1 to t1 0000010100000000000000020001000000020000000100000000000100000001000100030000000000000000000000000000000100000006
  datagram 1 step 0 from d1 to t2 0000010100000000000000020001000000020000000100000000000100000001000100030000000000000000000000000000000100000006
  datagram 2 step 0 from d1 to t3 0000010100000000000000020001000000020000000100000000000100000001000100030000000000000000000000000000000100000006
  datagram 3 step 0 from d2 to t1 0000010100000000000000020001000000020000000100000000000100000001000100030000000000000000000000000000000100000006
  datagram 4 step 0 from d2 to t2 0000010100000000000000020001000000020000000100000000000100000001000100030000000000000000000000000000000100000006
  datagram 5 step 0 from d2 to t3 0000010100000000000000020001000000020000000100000000000100000001000100030000000000000000000000000000000100000006
  datagram 6 step 0 from d3 to t1 0000010100000000000000020001000000020000000100000000000100000001000100030000000000000000000000000000000100000006
  datagram 7 step 0 from d3 to t2 0000010100000000000000020001000000020000000100000000000100000001000100030000000000000000000000000000000100000006
  datagram 8 step 0 from d3 to t3 0000010100000000000000020001000000020000000100000000000100000001000100030000000000000000000000000000000100000006
  datagram 9 step 1 from t3 to d3 0001010100000000
  ringmaster ring live
  view Ledger 1 l1=0 l2=0 l3=0
  view Teller 1 t1=0 t2=0 t3=0
  view Day 1 d1=0 d2=0 d3=0
  member l1 Ledger live from 0 at 0 count 0
  now idle state [{0, 0, 0, 0}, FALSE]
  member l2 Ledger live from 0 at 0 count 0
  now idle state [{0, 0, 0, 0}, FALSE]
  member l3 Ledger live from 0 at 0 count 0
  now idle state [{0, 0, 0, 0}, FALSE]
  member l4 Ledger live outside
  member t1 Teller live from 0 at 0 count 0
  now idle state [0]
  member t2 Teller live from 0 at 0 count 0
  now idle state [0]
  member t3 Teller live from 0 at 0 count 0
  now idle state [0]
  member d1 Day live from 0 at 0 count 0
  run 0 step 0 path Day procedure 0 clock 0,0,0 arguments []
  ask 0 step 0 to Teller index 0 procedure 1 arguments [0, 1, 6] state [0]
  now waiting ask 0 state [0]
  member d2 Day live from 0 at 0 count 0
  run 0 step 0 path Day procedure 0 clock 0,0,0 arguments []
  ask 0 step 0 to Teller index 0 procedure 1 arguments [0, 1, 6] state [0]
  now waiting ask 0 state [0]
  member d3 Day live from 0 at 0 count 0
  run 0 step 0 path Day procedure 0 clock 0,0,0 arguments []
  ask 0 step 0 to Teller index 0 procedure 1 arguments [0, 1, 6] state [0]
  now waiting ask 0 state [0]

A day, in which every datagram is delivered once, in the order of sending.

  $ seq 0 1439 | sed 's/^/deliver /' >s; circus replay bank.circus s >r
  $ grep -c ^datagram r
  1440
  $ sed -n '/^datagram 1439/,$p' r | grep -v '^run\|^ask\|^reply\|^end [0-9] \|^end 1[0-8] '
  datagram 1439 step 1431 from d3 to t3 0101010100000013
  ringmaster ring live
  view Ledger 1 l1=0 l2=0 l3=0
  view Teller 1 t1=0 t2=0 t3=0
  view Day 1 d1=0 d2=0 d3=0
  member l1 Ledger live from 0 at 0 count 20
  end 19 step 1390 clock 20,20,0 raised 1 [2] state [{4, 96, 0, 0}, TRUE]
  now idle state [{4, 96, 0, 0}, TRUE]
  member l2 Ledger live from 0 at 0 count 20
  end 19 step 1391 clock 20,20,0 raised 1 [2] state [{4, 96, 0, 0}, TRUE]
  now idle state [{4, 96, 0, 0}, TRUE]
  member l3 Ledger live from 0 at 0 count 20
  end 19 step 1392 clock 20,20,0 raised 1 [2] state [{4, 96, 0, 0}, TRUE]
  now idle state [{4, 96, 0, 0}, TRUE]
  member l4 Ledger live outside
  member t1 Teller live from 0 at 0 count 20
  end 19 step 1411 clock 20,20,0 returned [FALSE] state [4]
  now idle state [4]
  member t2 Teller live from 0 at 0 count 20
  end 19 step 1412 clock 20,20,0 returned [FALSE] state [4]
  now idle state [4]
  member t3 Teller live from 0 at 0 count 20
  end 19 step 1413 clock 20,20,0 returned [FALSE] state [4]
  now idle state [4]
  member d1 Day live from 0 at 0 count 1
  now idle state [16]
  member d2 Day live from 0 at 0 count 1
  now idle state [16]
  member d3 Day live from 0 at 0 count 1
  now idle state [16]
  $ grep '^end 0 .* state .16.$' r
  end 0 step 1425 clock 20,20,0 returned [] state [16]
  end 0 step 1426 clock 20,20,0 returned [] state [16]
  end 0 step 1427 clock 20,20,0 returned [] state [16]
