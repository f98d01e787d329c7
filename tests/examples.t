The replays of the examples.

  $ cd "$TESTDIR/../examples"

  $ circus replay join.circus join.schedule
  circus report 1
  datagram 0 step 0 from q1 to s1 0000010100000000000000010001000000010000000100000000000000000001000100020000000000000000
  datagram 1 step 1 from s1 to q1 0001010100000000
  datagram 2 step 1 from s1 to q1 010001010000000000000002000000010000000000000001
  datagram 3 step 2 from s2 to ring 0000010100000000000100010000000200000000
  datagram 4 step 3 from ring to s2 0001010100000000
  datagram 5 step 3 from ring to s2 010001010000000000040000000000000002000200010001000000000002000000000000
  datagram 6 step 4 from q1 to s1 0101010100000000
  datagram 7 step 4 from q1 to s1 0000010100000001000000010001000100010000000100000000000000000001000100020000000100000000
  datagram 8 step 5 from s2 to ring 0101010100000000
  datagram 9 step 5 from s2 to s1 00000101000000000002000000000002
  datagram 10 step 6 from s1 to s2 0001010100000000
  datagram 11 step 6 from s1 to s2 01000101000000000003000000010001
  datagram 12 step 7 from s2 to s1 0101010100000000
  datagram 13 step 7 from s2 to ring 0000010100000001000100020000000200000001
  datagram 14 step 8 from ring to s2 0001010100000001
  datagram 15 step 8 from ring to s2 010001010000000100040000000000000003000200010001000000000002000100000001
  datagram 16 step 9 from s1 to q1 0001010100000001
  datagram 17 step 9 from s1 to q1 0100010100000001000100000002
  datagram 18 step 10 from q1 to s1 0101010100000001
  datagram 19 step 10 from q1 to ring 0000010100000000000100000000000000000000
  datagram 20 step 11 from ring to q1 0001010100000000
  datagram 21 step 11 from ring to q1 010001010000000000040000000000000003000200010001000000000002000100000001
  datagram 22 step 12 from q1 to ring 0101010100000000
  datagram 23 step 12 from q1 to s1 0000010100000002000000010001000100010000000100000000000000000003000100020000000100000000
  datagram 24 step 12 from q1 to s2 0000010100000000000000010001000100010000000100000000000000000003000100020000000100000000
  datagram 25 step 13 from s1 to q1 0001010100000002
  datagram 26 step 13 from s1 to q1 010001010000000200000002000000020000000000000002
  datagram 27 step 14 from s2 to q1 0001010100000000
  datagram 28 step 14 from s2 to q1 010001010000000000000002000000020000000000000002
  datagram 29 step 15 from q1 to s1 0101010100000002
  datagram 30 step 16 from q1 to s2 0101010100000000
  ringmaster ring live
  view Desk 3 s1=0 s2=1
  view Queue 1 q1=0
  member s1 Desk live from 0 at 0 count 2
  run 0 step 1 path Queue.0 procedure 1 clock 1,0 arguments []
  end 0 step 1 clock 1,0 returned [1] state [1]
  run 1 step 13 path Queue.1 procedure 1 clock 2,0 arguments []
  end 1 step 13 clock 2,0 returned [2] state [2]
  now idle state [2]
  member s2 Desk live from 1 at 7 count 2
  run 1 step 14 path Queue.1 procedure 1 clock 2,0 arguments []
  end 1 step 14 clock 2,0 returned [2] state [2]
  now idle state [2]
  member q1 Queue live from 0 at 0 count 1
  run 0 step 0 path Queue procedure 0 clock 0,0 arguments []
  ask 0 step 0 to Desk index 0 procedure 1 arguments [] state [0]
  reply 0 step 4 clock 1,0 returned [1]
  ask 1 step 4 to Desk index 1 procedure 1 arguments [] state [1]
  reply 1 step 15 clock 2,0 returned [2]
  end 0 step 15 clock 2,0 returned [] state [2]
  now idle state [2]

  $ circus replay majority.circus majority.schedule
  circus report 1
  datagram 0 step 0 from w1 to s1 00000101000000000000000100010000000100000001000000000000000000010001000200000000000000000007
  datagram 1 step 0 from w1 to s2 00000101000000000000000100010000000100000001000000000000000000010001000200000000000000000007
  datagram 2 step 0 from w1 to s3 00000101000000000000000100010000000100000001000000000000000000010001000200000000000000000007
  datagram 3 step 2 from s1 to w1 0001010100000000
  datagram 4 step 2 from s1 to w1 010001010000000000000002000000010000000000000000
  datagram 5 step 3 from s2 to w1 0001010100000000
  datagram 6 step 3 from s2 to w1 010001010000000000000002000000010000000000000000
  datagram 7 step 4 from w1 to s1 0101010100000000
  datagram 8 step 5 from w1 to s2 0101010100000000
  datagram 9 step 5 from w1 to s1 00000101000000010000000100010001000100000001000000000000000000010001000200000001000000000009
  datagram 10 step 5 from w1 to s2 00000101000000010000000100010001000100000001000000000000000000010001000200000001000000000009
  datagram 11 step 5 from w1 to s3 00000101000000010000000100010001000100000001000000000000000000010001000200000001000000000009
  datagram 12 step 6 from s1 to w1 0001010100000001
  datagram 13 step 6 from s1 to w1 010001010000000100000002000000020000000000000007
  datagram 14 step 7 from s2 to w1 0001010100000001
  datagram 15 step 7 from s2 to w1 010001010000000100000002000000020000000000000007
  datagram 16 step 8 from w1 to s1 0101010100000001
  datagram 17 step 9 from w1 to s2 0101010100000001
  datagram 18 step 10 from w1 to ring 0000010100000000000100030000000300000000
  datagram 19 step 11 from ring to w1 0001010100000000
  datagram 20 step 11 from ring to w1 010001010000000000040000000000000002000200010001000000000002000100000000
  ringmaster ring live
  view Store 2 s1=0 s2=0
  view Writer 1 w1=0
  member s1 Store live from 0 at 0 count 2
  run 0 step 2 path Writer.0 procedure 1 clock 1,0 arguments [7]
  end 0 step 2 clock 1,0 returned [0] state [7]
  run 1 step 6 path Writer.1 procedure 1 clock 2,0 arguments [9]
  end 1 step 6 clock 2,0 returned [7] state [9]
  now idle state [9]
  member s2 Store live from 0 at 0 count 2
  run 0 step 3 path Writer.0 procedure 1 clock 1,0 arguments [7]
  end 0 step 3 clock 1,0 returned [0] state [7]
  run 1 step 7 path Writer.1 procedure 1 clock 2,0 arguments [9]
  end 1 step 7 clock 2,0 returned [7] state [9]
  now idle state [9]
  member s3 Store crashed 1 from 0 at 0 count 0
  now idle state [0]
  member w1 Writer live from 0 at 0 count 1
  run 0 step 0 path Writer procedure 0 clock 0,0 arguments []
  ask 0 step 0 to Store index 0 procedure 1 arguments [7] state [0]
  reply 0 step 5 clock 1,0 returned [0]
  ask 1 step 5 to Store index 1 procedure 1 arguments [9] state [0]
  reply 1 step 9 clock 2,0 returned [7]
  end 0 step 9 clock 2,0 returned [] state [7]
  now idle state [7]

  $ circus replay bank.circus bank.schedule
  circus report 1
  datagram 0 step 0 from d1 to t1 0000010100000000000000020001000000020000000100000000000100000001000100030000000000000000000000000000000100000006
  datagram 1 step 0 from d1 to t2 0000010100000000000000020001000000020000000100000000000100000001000100030000000000000000000000000000000100000006
  datagram 2 step 0 from d1 to t3 0000010100000000000000020001000000020000000100000000000100000001000100030000000000000000000000000000000100000006
  datagram 3 step 0 from d2 to t1 0000010100000000000000020001000000020000000100000000000100000001000100030000000000000000000000000000000100000006
  datagram 4 step 0 from d2 to t2 0000010100000000000000020001000000020000000100000000000100000001000100030000000000000000000000000000000100000006
  datagram 5 step 0 from d2 to t3 0000010100000000000000020001000000020000000100000000000100000001000100030000000000000000000000000000000100000006
  datagram 6 step 0 from d3 to t1 0000010100000000000000020001000000020000000100000000000100000001000100030000000000000000000000000000000100000006
  datagram 7 step 0 from d3 to t2 0000010100000000000000020001000000020000000100000000000100000001000100030000000000000000000000000000000100000006
  datagram 8 step 0 from d3 to t3 0000010100000000000000020001000000020000000100000000000100000001000100030000000000000000000000000000000100000006
  datagram 9 step 3 from t1 to d1 0001010100000000
  datagram 10 step 4 from t1 to d2 0001010100000000
  datagram 11 step 4 from t1 to l1 00000101000000000000000200020000000000010000000100000000000000000001000100030000000000000001000000000000000100000006
  datagram 12 step 4 from t1 to l2 00000101000000000000000200020000000000010000000100000000000000000001000100030000000000000001000000000000000100000006
  datagram 13 step 4 from t1 to l3 00000101000000000000000200020000000000010000000100000000000000000001000100030000000000000001000000000000000100000006
  datagram 14 step 5 from l1 to t1 0001010100000000
  datagram 15 step 6 from l1 to ring 0000010100000000000100030001000600000000
  datagram 16 step 7 from l1 to ring 0000010100000001000100030001000700000000
  datagram 17 step 7 from l1 to t1 01000101000000000000000300000001000000010000000000000000005e
  datagram 18 step 8 from t1 to l1 0101010100000000
  ringmaster ring live
  view Ledger 1 l1=0 l2=0 l3=0
  view Teller 1 t1=0 t2=0 t3=0
  view Day 1 d1=0 d2=0 d3=0
  member l1 Ledger live from 0 at 0 count 1
  run 0 step 7 path Day.0.0 procedure 1 clock 1,1,0 arguments [0, 1, 6]
  end 0 step 7 clock 1,1,0 returned [94] state [{94, 6, 0, 0}, TRUE]
  now idle state [{94, 6, 0, 0}, TRUE]
  member l2 Ledger live from 0 at 0 count 0
  now idle state [{0, 0, 0, 0}, FALSE]
  member l3 Ledger live from 0 at 0 count 0
  now idle state [{0, 0, 0, 0}, FALSE]
  member l4 Ledger live outside
  member t1 Teller live from 0 at 0 count 0
  run 0 step 4 path Day.0 procedure 1 clock 0,1,0 arguments [0, 1, 6]
  ask 0 step 4 to Ledger index 0 procedure 1 arguments [0, 1, 6] state [0]
  now waiting ask 0 state [0]
  member t2 Teller crashed 1 from 0 at 0 count 0
  now idle state [0]
  member t3 Teller crashed 2 from 0 at 0 count 0
  now idle state [0]
  member d1 Day live from 0 at 0 count 0
  run 0 step 0 path Day procedure 0 clock 0,0,0 arguments []
  ask 0 step 0 to Teller index 0 procedure 1 arguments [0, 1, 6] state [0]
  now waiting ask 0 state [0]
  member d2 Day live from 0 at 0 count 0
  run 0 step 0 path Day procedure 0 clock 0,0,0 arguments []
  ask 0 step 0 to Teller index 0 procedure 1 arguments [0, 1, 6] state [0]
  now waiting ask 0 state [0]
  member d3 Day live from 0 at 0 count 0
  run 0 step 0 path Day procedure 0 clock 0,0,0 arguments []
  ask 0 step 0 to Teller index 0 procedure 1 arguments [0, 1, 6] state [0]
  now waiting ask 0 state [0]

  $ circus replay first.circus first.schedule
  circus report 1
  datagram 0 step 0 from m1 to s1 00000101000000000000000100010000000100000001000000000000000000010001000200000000000000000005
  datagram 1 step 1 from s1 to m1 0001010100000000
  datagram 2 step 1 from s1 to m1 010001010000000000000002000000010000000000000005
  datagram 3 step 3 from m1 to s1 0101010100000000
  ringmaster ring live
  view Counter 1 s1=0
  view Main 1 m1=0
  member s1 Counter live from 0 at 0 count 1
  run 0 step 1 path Main.0 procedure 1 clock 1,0 arguments [5]
  end 0 step 1 clock 1,0 returned [5] state [5]
  now idle state [5]
  member m1 Main live from 0 at 0 count 1
  run 0 step 0 path Main procedure 0 clock 0,0 arguments []
  ask 0 step 0 to Counter index 0 procedure 1 arguments [5] state [0]
  reply 0 step 3 clock 1,0 returned [5]
  end 0 step 3 clock 1,0 returned [] state [5]
  now idle state [5]

The shop, and what comes of it where a line is another: docs/GUIDE.md speaks of it.

  $ cp shop.circus "$CRAMTMP"; cd "$CRAMTMP"
  $ changed() { sed "$1" shop.circus >p; circus run p; }
  $ changed '13d'
  program line 11: no return
  [2]
  $ changed 's/Store.Add .10./Store.Put [10]/'
  program line 25: unknown name
  [2]
  $ changed 's/Store.Take .4./Store.Take ["four"]/'
  program line 26: type mismatch
  [2]
  $ changed 's/^  VAR kept/  VAR count: CARDINAL;\n&/'
  program line 10: repeated name
  [2]
  $ changed '/^TROUPE Shop/d'
  program line 33: missing Shop
  [2]
