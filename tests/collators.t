Replies that a root waits for, where a member of its server has crashed.

  $ . "$TESTDIR/cases.sh"
  $ cp "$TESTDIR"/programs/*.circus "$TESTDIR"/../examples/*.circus .

A majority of three, and no majority of four.

  $ replayed majority_of_3.circus 'crash s3\ndeliver 0\ndeliver 1\ndeliver 4\ndeliver 6\n'
  circus report 1
  datagram 0 step 0 from m1 to s1 00000101000000000000000100010000000100000001000000000000000000010001000200000000000000000005
  datagram 1 step 0 from m1 to s2 00000101000000000000000100010000000100000001000000000000000000010001000200000000000000000005
  datagram 2 step 0 from m1 to s3 00000101000000000000000100010000000100000001000000000000000000010001000200000000000000000005
  datagram 3 step 2 from s1 to m1 0001010100000000
  datagram 4 step 2 from s1 to m1 010001010000000000000002000000010000000000000005
  datagram 5 step 3 from s2 to m1 0001010100000000
  datagram 6 step 3 from s2 to m1 010001010000000000000002000000010000000000000005
  datagram 7 step 4 from m1 to s1 0101010100000000
  datagram 8 step 5 from m1 to s2 0101010100000000
  ringmaster ring live
  view Counter 1 s1=0 s2=0 s3=0
  view Main 1 m1=0
  member s1 Counter live from 0 at 0 count 1
  run 0 step 2 path Main.0 procedure 1 clock 1,0 arguments [5]
  end 0 step 2 clock 1,0 returned [5] state [5]
  now idle state [5]
  member s2 Counter live from 0 at 0 count 1
  run 0 step 3 path Main.0 procedure 1 clock 1,0 arguments [5]
  end 0 step 3 clock 1,0 returned [5] state [5]
  now idle state [5]
  member s3 Counter crashed 1 from 0 at 0 count 0
  now idle state [0]
  member m1 Main live from 0 at 0 count 1
  run 0 step 0 path Main procedure 0 clock 0,0 arguments []
  ask 0 step 0 to Counter index 0 procedure 1 arguments [5] state [0]
  reply 0 step 5 clock 1,0 returned [5]
  end 0 step 5 clock 1,0 returned [] state [5]
  now idle state [5]

  $ replayed majority_of_4.circus 'crash s3\ndeliver 0\ndeliver 1\ndeliver 5\ndeliver 7\n'
  circus report 1
  datagram 0 step 0 from m1 to s1 00000101000000000000000100010000000100000001000000000000000000010001000200000000000000000005
  datagram 1 step 0 from m1 to s2 00000101000000000000000100010000000100000001000000000000000000010001000200000000000000000005
  datagram 2 step 0 from m1 to s3 00000101000000000000000100010000000100000001000000000000000000010001000200000000000000000005
  datagram 3 step 0 from m1 to s4 00000101000000000000000100010000000100000001000000000000000000010001000200000000000000000005
  datagram 4 step 2 from s1 to m1 0001010100000000
  datagram 5 step 2 from s1 to m1 010001010000000000000002000000010000000000000005
  datagram 6 step 3 from s2 to m1 0001010100000000
  datagram 7 step 3 from s2 to m1 010001010000000000000002000000010000000000000005
  datagram 8 step 4 from m1 to s1 0101010100000000
  datagram 9 step 5 from m1 to s2 0101010100000000
  ringmaster ring live
  view Counter 1 s1=0 s2=0 s3=0 s4=0
  view Main 1 m1=0
  member s1 Counter live from 0 at 0 count 1
  run 0 step 2 path Main.0 procedure 1 clock 1,0 arguments [5]
  end 0 step 2 clock 1,0 returned [5] state [5]
  now idle state [5]
  member s2 Counter live from 0 at 0 count 1
  run 0 step 3 path Main.0 procedure 1 clock 1,0 arguments [5]
  end 0 step 3 clock 1,0 returned [5] state [5]
  now idle state [5]
  member s3 Counter crashed 1 from 0 at 0 count 0
  now idle state [0]
  member s4 Counter live from 0 at 0 count 0
  now idle state [0]
  member m1 Main live from 0 at 0 count 0
  run 0 step 0 path Main procedure 0 clock 0,0 arguments []
  ask 0 step 0 to Counter index 0 procedure 1 arguments [5] state [0]
  now waiting ask 0 state [0]

A member that crashed is waited for,

  $ replayed all_of_2.circus 'crash s2\ndeliver 0\ndeliver 3\n'
  circus report 1
  datagram 0 step 0 from m1 to s1 00000101000000000000000100010000000100000001000000000000000000010001000200000000000000000005
  datagram 1 step 0 from m1 to s2 00000101000000000000000100010000000100000001000000000000000000010001000200000000000000000005
  datagram 2 step 2 from s1 to m1 0001010100000000
  datagram 3 step 2 from s1 to m1 010001010000000000000002000000010000000000000005
  datagram 4 step 3 from m1 to s1 0101010100000000
  ringmaster ring live
  view Counter 1 s1=0 s2=0
  view Main 1 m1=0
  member s1 Counter live from 0 at 0 count 1
  run 0 step 2 path Main.0 procedure 1 clock 1,0 arguments [5]
  end 0 step 2 clock 1,0 returned [5] state [5]
  now idle state [5]
  member s2 Counter crashed 1 from 0 at 0 count 0
  now idle state [0]
  member m1 Main live from 0 at 0 count 0
  run 0 step 0 path Main procedure 0 clock 0,0 arguments []
  ask 0 step 0 to Counter index 0 procedure 1 arguments [5] state [0]
  now waiting ask 0 state [0]

until it is declared down.

  $ replayed all_of_2.circus 'crash s2\ndeliver 0\ndeliver 3\ndown s2 m1\n'
  circus report 1
  datagram 0 step 0 from m1 to s1 00000101000000000000000100010000000100000001000000000000000000010001000200000000000000000005
  datagram 1 step 0 from m1 to s2 00000101000000000000000100010000000100000001000000000000000000010001000200000000000000000005
  datagram 2 step 2 from s1 to m1 0001010100000000
  datagram 3 step 2 from s1 to m1 010001010000000000000002000000010000000000000005
  datagram 4 step 3 from m1 to s1 0101010100000000
  datagram 5 step 4 from m1 to ring 0000010100000000000100030000000200000000
  ringmaster ring live
  view Counter 1 s1=0 s2=0
  view Main 1 m1=0
  member s1 Counter live from 0 at 0 count 1
  run 0 step 2 path Main.0 procedure 1 clock 1,0 arguments [5]
  end 0 step 2 clock 1,0 returned [5] state [5]
  now idle state [5]
  member s2 Counter crashed 1 from 0 at 0 count 0
  now idle state [0]
  member m1 Main live from 0 at 0 count 1
  run 0 step 0 path Main procedure 0 clock 0,0 arguments []
  ask 0 step 0 to Counter index 0 procedure 1 arguments [5] state [0]
  reply 0 step 4 clock 1,0 returned [5]
  end 0 step 4 clock 1,0 returned [] state [5]
  now idle state [5]

The Ringmaster hears of it, and answers with a view without it.

  $ replayed all_of_2.circus 'crash s2\ndeliver 0\ndeliver 3\ndown s2 m1\ndeliver 5\ndeliver 7\n'
  circus report 1
  datagram 0 step 0 from m1 to s1 00000101000000000000000100010000000100000001000000000000000000010001000200000000000000000005
  datagram 1 step 0 from m1 to s2 00000101000000000000000100010000000100000001000000000000000000010001000200000000000000000005
  datagram 2 step 2 from s1 to m1 0001010100000000
  datagram 3 step 2 from s1 to m1 010001010000000000000002000000010000000000000005
  datagram 4 step 3 from m1 to s1 0101010100000000
  datagram 5 step 4 from m1 to ring 0000010100000000000100030000000200000000
  datagram 6 step 5 from ring to m1 0001010100000000
  datagram 7 step 5 from ring to m1 01000101000000000004000000000000000200010001000100000000
  datagram 8 step 6 from m1 to ring 0101010100000000
  ringmaster ring live
  view Counter 2 s1=0
  view Main 1 m1=0
  member s1 Counter live from 0 at 0 count 1
  run 0 step 2 path Main.0 procedure 1 clock 1,0 arguments [5]
  end 0 step 2 clock 1,0 returned [5] state [5]
  now idle state [5]
  member s2 Counter crashed 1 from 0 at 0 count 0
  now idle state [0]
  member m1 Main live from 0 at 0 count 1
  run 0 step 0 path Main procedure 0 clock 0,0 arguments []
  ask 0 step 0 to Counter index 0 procedure 1 arguments [5] state [0]
  reply 0 step 4 clock 1,0 returned [5]
  end 0 step 4 clock 1,0 returned [] state [5]
  now idle state [5]

At least two of four, and at least four, of whom three are left.

At each declaration the Ringmaster hears who is down, until the known view doesn't have that node any more.

  $ replayed all_of_2.circus 'crash s2\ndeliver 0\ndeliver 3\ndown s2 m1\ndown s2 m1\ndeliver 5\ndeliver 8\ndown s2 m1\ndown s2 ring\n'
  circus report 1
  datagram 0 step 0 from m1 to s1 00000101000000000000000100010000000100000001000000000000000000010001000200000000000000000005
  datagram 1 step 0 from m1 to s2 00000101000000000000000100010000000100000001000000000000000000010001000200000000000000000005
  datagram 2 step 2 from s1 to m1 0001010100000000
  datagram 3 step 2 from s1 to m1 010001010000000000000002000000010000000000000005
  datagram 4 step 3 from m1 to s1 0101010100000000
  datagram 5 step 4 from m1 to ring 0000010100000000000100030000000200000000
  datagram 6 step 5 from m1 to ring 0000010100000001000100030000000200000000
  datagram 7 step 6 from ring to m1 0001010100000000
  datagram 8 step 6 from ring to m1 01000101000000000004000000000000000200010001000100000000
  datagram 9 step 7 from m1 to ring 0101010100000000
  ringmaster ring live
  view Counter 2 s1=0
  view Main 1 m1=0
  member s1 Counter live from 0 at 0 count 1
  run 0 step 2 path Main.0 procedure 1 clock 1,0 arguments [5]
  end 0 step 2 clock 1,0 returned [5] state [5]
  now idle state [5]
  member s2 Counter crashed 1 from 0 at 0 count 0
  now idle state [0]
  member m1 Main live from 0 at 0 count 1
  run 0 step 0 path Main procedure 0 clock 0,0 arguments []
  ask 0 step 0 to Counter index 0 procedure 1 arguments [5] state [0]
  reply 0 step 4 clock 1,0 returned [5]
  end 0 step 4 clock 1,0 returned [] state [5]
  now idle state [5]

  $ replayed two_of_4.circus 'crash s3\ndeliver 0\ndeliver 1\ndeliver 5\ndeliver 7\n'
  circus report 1
  datagram 0 step 0 from m1 to s1 00000101000000000000000100010000000100000001000000000000000000010001000200000000000000000005
  datagram 1 step 0 from m1 to s2 00000101000000000000000100010000000100000001000000000000000000010001000200000000000000000005
  datagram 2 step 0 from m1 to s3 00000101000000000000000100010000000100000001000000000000000000010001000200000000000000000005
  datagram 3 step 0 from m1 to s4 00000101000000000000000100010000000100000001000000000000000000010001000200000000000000000005
  datagram 4 step 2 from s1 to m1 0001010100000000
  datagram 5 step 2 from s1 to m1 010001010000000000000002000000010000000000000005
  datagram 6 step 3 from s2 to m1 0001010100000000
  datagram 7 step 3 from s2 to m1 010001010000000000000002000000010000000000000005
  datagram 8 step 4 from m1 to s1 0101010100000000
  datagram 9 step 5 from m1 to s2 0101010100000000
  ringmaster ring live
  view Counter 1 s1=0 s2=0 s3=0 s4=0
  view Main 1 m1=0
  member s1 Counter live from 0 at 0 count 1
  run 0 step 2 path Main.0 procedure 1 clock 1,0 arguments [5]
  end 0 step 2 clock 1,0 returned [5] state [5]
  now idle state [5]
  member s2 Counter live from 0 at 0 count 1
  run 0 step 3 path Main.0 procedure 1 clock 1,0 arguments [5]
  end 0 step 3 clock 1,0 returned [5] state [5]
  now idle state [5]
  member s3 Counter crashed 1 from 0 at 0 count 0
  now idle state [0]
  member s4 Counter live from 0 at 0 count 0
  now idle state [0]
  member m1 Main live from 0 at 0 count 1
  run 0 step 0 path Main procedure 0 clock 0,0 arguments []
  ask 0 step 0 to Counter index 0 procedure 1 arguments [5] state [0]
  reply 0 step 5 clock 1,0 returned [5]
  end 0 step 5 clock 1,0 returned [] state [5]
  now idle state [5]

  $ replayed four_of_4.circus 'crash s3\ndeliver 0\ndeliver 1\ndeliver 5\ndeliver 7\ndown s3 m1\n'
  circus report 1
  datagram 0 step 0 from m1 to s1 00000101000000000000000100010000000100000001000000000000000000010001000200000000000000000005
  datagram 1 step 0 from m1 to s2 00000101000000000000000100010000000100000001000000000000000000010001000200000000000000000005
  datagram 2 step 0 from m1 to s3 00000101000000000000000100010000000100000001000000000000000000010001000200000000000000000005
  datagram 3 step 0 from m1 to s4 00000101000000000000000100010000000100000001000000000000000000010001000200000000000000000005
  datagram 4 step 2 from s1 to m1 0001010100000000
  datagram 5 step 2 from s1 to m1 010001010000000000000002000000010000000000000005
  datagram 6 step 3 from s2 to m1 0001010100000000
  datagram 7 step 3 from s2 to m1 010001010000000000000002000000010000000000000005
  datagram 8 step 4 from m1 to s1 0101010100000000
  datagram 9 step 5 from m1 to s2 0101010100000000
  datagram 10 step 6 from m1 to ring 0000010100000000000100030000000300000000
  ringmaster ring live
  view Counter 1 s1=0 s2=0 s3=0 s4=0
  view Main 1 m1=0
  member s1 Counter live from 0 at 0 count 1
  run 0 step 2 path Main.0 procedure 1 clock 1,0 arguments [5]
  end 0 step 2 clock 1,0 returned [5] state [5]
  now idle state [5]
  member s2 Counter live from 0 at 0 count 1
  run 0 step 3 path Main.0 procedure 1 clock 1,0 arguments [5]
  end 0 step 3 clock 1,0 returned [5] state [5]
  now idle state [5]
  member s3 Counter crashed 1 from 0 at 0 count 0
  now idle state [0]
  member s4 Counter live from 0 at 0 count 0
  now idle state [0]
  member m1 Main live from 0 at 0 count 0
  run 0 step 0 path Main procedure 0 clock 0,0 arguments []
  ask 0 step 0 to Counter index 0 procedure 1 arguments [5] state [0]
  now waiting ask 0 state [0]
