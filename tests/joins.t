Spares that join.

  $ . "$TESTDIR/cases.sh"
  $ cp "$TESTDIR"/programs/*.circus "$TESTDIR"/../examples/*.circus .

It takes the state behind the first call, and performs the second one.

  $ replayed two_calls.circus 'deliver 0\njoin s2\ndeliver 3\ndeliver 5\ndeliver 7\ndeliver 9\ndeliver 2\ndeliver 13\ndeliver 15\ndeliver 17\ndeliver 19\ndeliver 22\ndeliver 24\n'
  circus report 1
  datagram 0 step 0 from m1 to s1 00000101000000000000000100010000000100000001000000000000000000010001000200000000000000000005
  datagram 1 step 1 from s1 to m1 0001010100000000
  datagram 2 step 1 from s1 to m1 010001010000000000000002000000010000000000000005
  datagram 3 step 2 from s2 to ring 0000010100000000000100010000000200000000
  datagram 4 step 3 from ring to s2 0001010100000000
  datagram 5 step 3 from ring to s2 010001010000000000040000000000000002000200010001000000000002000000000000
  datagram 6 step 4 from s2 to ring 0101010100000000
  datagram 7 step 4 from s2 to s1 00000101000000000002000000000002
  datagram 8 step 5 from s1 to s2 0001010100000000
  datagram 9 step 5 from s1 to s2 01000101000000000003000000010005
  datagram 10 step 6 from s2 to s1 0101010100000000
  datagram 11 step 6 from s2 to ring 0000010100000001000100020000000200000001
  datagram 12 step 7 from m1 to s1 0101010100000000
  datagram 13 step 7 from m1 to s1 00000101000000010000000100010001000100000001000000000000000000010001000200000001000000000007
  datagram 14 step 8 from s1 to m1 0001010100000001
  datagram 15 step 8 from s1 to m1 0100010100000001000100000002
  datagram 16 step 9 from m1 to s1 0101010100000001
  datagram 17 step 9 from m1 to ring 0000010100000000000100000000000000000000
  datagram 18 step 10 from ring to m1 0001010100000000
  datagram 19 step 10 from ring to m1 010001010000000000040000000000000002000200010001000000000002000000000000
  datagram 20 step 11 from m1 to ring 0101010100000000
  datagram 21 step 11 from m1 to s1 00000101000000020000000100010001000100000001000000000000000000020001000200000001000000000007
  datagram 22 step 11 from m1 to s2 00000101000000000000000100010001000100000001000000000000000000020001000200000001000000000007
  datagram 23 step 12 from s2 to m1 0001010100000000
  datagram 24 step 12 from s2 to m1 01000101000000000000000200000002000000000000000c
  datagram 25 step 13 from m1 to s2 0101010100000000
  ringmaster ring live
  view Counter 2 s1=0 s2=joining
  view Main 1 m1=0
  member s1 Counter live from 0 at 0 count 1
  run 0 step 1 path Main.0 procedure 1 clock 1,0 arguments [5]
  end 0 step 1 clock 1,0 returned [5] state [5]
  now idle state [5]
  member s2 Counter live from 1 at 6 count 2
  run 1 step 12 path Main.1 procedure 1 clock 2,0 arguments [7]
  end 1 step 12 clock 2,0 returned [12] state [12]
  now idle state [12]
  member m1 Main live from 0 at 0 count 1
  run 0 step 0 path Main procedure 0 clock 0,0 arguments []
  ask 0 step 0 to Counter index 0 procedure 1 arguments [5] state [0]
  reply 0 step 7 clock 1,0 returned [5]
  ask 1 step 7 to Counter index 1 procedure 1 arguments [7] state [5]
  reply 1 step 13 clock 2,0 returned [12]
  end 0 step 13 clock 2,0 returned [] state [12]
  now idle state [12]

A busy member gives its state once its run has ended.

  $ replayed one_step.circus 'deliver 0\njoin a2\ndeliver 3\ndeliver 5\ndeliver 7\ndeliver 2\ndeliver 10\ndeliver 13\n'
  circus report 1
  datagram 0 step 0 from r1 to a1 000001010000000000000002000100000002000000010000000000010000000100010003000000000000000000000000
  datagram 1 step 1 from a1 to r1 0001010100000000
  datagram 2 step 1 from a1 to m1 00000101000000000000000200020000000000010000000100000000000000000001000100030000000000000001000000000001
  datagram 3 step 2 from a2 to ring 0000010100000000000100010001000300000000
  datagram 4 step 3 from ring to a2 0001010100000000
  datagram 5 step 3 from ring to a2 010001010000000000040000000100000002000200020001000000000003000000000000
  datagram 6 step 4 from a2 to ring 0101010100000000
  datagram 7 step 4 from a2 to a1 00000101000000000002000100000002
  datagram 8 step 5 from a1 to a2 0001010100000000
  datagram 9 step 6 from m1 to a1 0001010100000000
  datagram 10 step 6 from m1 to a1 01000101000000000000000300000001000000010000000000000001
  datagram 11 step 7 from a1 to m1 0101010100000000
  datagram 12 step 7 from a1 to r1 0100010100000000000000030000000100000001000000000000
  datagram 13 step 7 from a1 to a2 0100010100000000000300000001
  datagram 14 step 8 from a2 to a1 0101010100000000
  datagram 15 step 8 from a2 to ring 0000010100000001000100020001000300000001
  ringmaster ring live
  view Counter 1 m1=0
  view A 2 a1=0 a2=joining
  view Main 1 r1=0
  member m1 Counter live from 0 at 0 count 1
  run 0 step 6 path Main.0.0 procedure 1 clock 1,1,0 arguments [1]
  end 0 step 6 clock 1,1,0 returned [1] state [1]
  now idle state [1]
  member a1 A live from 0 at 0 count 1
  run 0 step 1 path Main.0 procedure 1 clock 0,1,0 arguments []
  ask 0 step 1 to Counter index 0 procedure 1 arguments [1] state []
  reply 0 step 7 clock 1,1,0 returned [1]
  end 0 step 7 clock 1,1,0 returned [] state []
  now idle state []
  member a2 A live from 1 at 8 count 1
  now idle state []
  member r1 Main live from 0 at 0 count 0
  run 0 step 0 path Main procedure 0 clock 0,0,0 arguments []
  ask 0 step 0 to A index 0 procedure 1 arguments [] state []
  now waiting ask 0 state []

Of two that join, one asks a member that crashed.

  $ replayed two_spares.circus 'deliver 0\njoin s2\njoin s3\ndeliver 3\ndeliver 4\ndeliver 6\ndeliver 8\ndeliver 10\ncrash s1\ndeliver 14\ndeliver 12\n'
  circus report 1
  datagram 0 step 0 from m1 to s1 00000101000000000000000100010000000100000001000000000000000000010001000200000000000000000005
  datagram 1 step 1 from s1 to m1 0001010100000000
  datagram 2 step 1 from s1 to m1 010001010000000000000002000000010000000000000005
  datagram 3 step 2 from s2 to ring 0000010100000000000100010000000200000000
  datagram 4 step 3 from s3 to ring 0000010100000000000100010000000300000000
  datagram 5 step 4 from ring to s2 0001010100000000
  datagram 6 step 4 from ring to s2 010001010000000000040000000000000002000200010001000000000002000000000000
  datagram 7 step 5 from ring to s3 0001010100000000
  datagram 8 step 5 from ring to s3 0100010100000000000400000000000000030003000100010000000000020000000000000003000000000000
  datagram 9 step 6 from s2 to ring 0101010100000000
  datagram 10 step 6 from s2 to s1 00000101000000000002000000000002
  datagram 11 step 7 from s3 to ring 0101010100000000
  datagram 12 step 7 from s3 to s1 00000101000000000002000000000003
  datagram 13 step 8 from s1 to s2 0001010100000000
  datagram 14 step 8 from s1 to s2 01000101000000000003000000010005
  datagram 15 step 10 from s2 to s1 0101010100000000
  datagram 16 step 10 from s2 to ring 0000010100000001000100020000000200000001
  ringmaster ring live
  view Counter 3 s1=0 s2=joining s3=joining
  view Main 1 m1=0
  member s1 Counter crashed 9 from 0 at 0 count 1
  run 0 step 1 path Main.0 procedure 1 clock 1,0 arguments [5]
  end 0 step 1 clock 1,0 returned [5] state [5]
  now idle state [5]
  member s2 Counter live from 1 at 10 count 1
  now idle state [5]
  member s3 Counter live fetching
  member m1 Main live from 0 at 0 count 0
  run 0 step 0 path Main procedure 0 clock 0,0 arguments []
  ask 0 step 0 to Counter index 0 procedure 1 arguments [5] state [0]
  now waiting ask 0 state [0]

A spare of a root doesn't join, and one that asks goes on asking where the Ringmaster is down.

  $ replayed spares.circus 'join m2\ndeliver 1\ndeliver 3\n'
  circus report 1
  datagram 0 step 0 from m1 to s1 00000101000000000000000100010000000100000001000000000000000000010001000200000000000000000005
  datagram 1 step 1 from m2 to ring 0000010100000000000100010001000400000000
  datagram 2 step 2 from ring to m2 0001010100000000
  datagram 3 step 2 from ring to m2 01000101000000000004000100010000000100010003000100000000
  datagram 4 step 3 from m2 to ring 0101010100000000
  ringmaster ring live
  view Counter 1 s1=0
  view Main 1 m1=0
  member s1 Counter live from 0 at 0 count 0
  now idle state [0]
  member s2 Counter live outside
  member m1 Main live from 0 at 0 count 0
  run 0 step 0 path Main procedure 0 clock 0,0 arguments []
  ask 0 step 0 to Counter index 0 procedure 1 arguments [5] state [0]
  now waiting ask 0 state [0]
  member m2 Main live outside
  $ replayed spares.circus 'crash ring\ndown ring s2\njoin s2\ntick s2\n'
  circus report 1
  datagram 0 step 0 from m1 to s1 00000101000000000000000100010000000100000001000000000000000000010001000200000000000000000005
  ringmaster ring crashed 1
  view Counter 1 s1=0
  view Main 1 m1=0
  member s1 Counter live from 0 at 0 count 0
  now idle state [0]
  member s2 Counter live asking
  member m1 Main live from 0 at 0 count 0
  run 0 step 0 path Main procedure 0 clock 0,0 arguments []
  ask 0 step 0 to Counter index 0 procedure 1 arguments [5] state [0]
  now waiting ask 0 state [0]
  member m2 Main live outside

A view of 16 entries takes no other one.

  $ {
  >     sed '/^TROUPE/d' first.circus; printf 'TROUPE Counter CALLS FIRST REPLIES FIRST MEMBERS s1 PORT 9001'
  >     for i in $(seq 2 16); do printf ', s%s PORT %s' $i $((9001 + i)); done; echo ' SPARES s17 PORT 9018;'; tail -n 1 first.circus
  > } >full.circus
  $ replayed full.circus 'join s17\ndeliver 16\ndeliver 18\n' | sed -n '/^datagram 16 /,/^view Main/p; /^member s17/p'
  datagram 16 step 1 from s17 to ring 0000010100000000000100010000001100000000
  datagram 17 step 2 from ring to s17 0001010100000000
  datagram 18 step 2 from ring to s17 0100010100000000000400030000000000010010000100010000000000020001000000000003000100000000000400010000000000050001000000000006000100000000000700010000000000080001000000000009000100000000000a000100000000000b000100000000000c000100000000000d000100000000000e000100000000000f0001000000000010000100000000
  datagram 19 step 3 from s17 to ring 0101010100000000
  ringmaster ring live
  view Counter 1 s1=0 s2=0 s3=0 s4=0 s5=0 s6=0 s7=0 s8=0 s9=0 s10=0 s11=0 s12=0 s13=0 s14=0 s15=0 s16=0
  view Main 1 m1=0
  member s17 Counter live outside
