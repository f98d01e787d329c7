Datagrams that are delivered in the order of sending, until none is left.

  $ cp "$TESTDIR"/../examples/*.circus .

  $ circus settle first.circus 100
  circus settle 1
  deliveries 4
  ringmaster ring live
  view Counter 1 s1=0
  view Main 1 m1=0
  member s1 Counter live from 0 at 0 count 1
  run 0 step 1 path Main.0 procedure 1 clock 1,0 arguments [5]
  end 0 step 1 clock 1,0 returned [5] state [5]
  now idle state [5]
  member m1 Main live from 0 at 0 count 1
  run 0 step 0 path Main procedure 0 clock 0,0 arguments []
  ask 0 step 0 to Counter index 0 procedure 1 arguments [5] state [0]
  reply 0 step 3 clock 1,0 returned [5]
  end 0 step 3 clock 1,0 returned [] state [5]
  now idle state [5]

  $ circus settle first.circus 3
  budget 3, 4 sent
  [10]

Twice the segments of the calls and returns of the history suffice, between each two founders. Above, one ask is made by one founder
to one, in one segment there and one back: 4 deliveries do, and 3 leave one. Here one founder makes two asks to three: 24 do, and 23
leave one.

  $ circus run majority.circus | grep -c '^ask'
  2
  $ circus settle majority.circus 24 | head -n 2
  circus settle 1
  deliveries 24
  $ circus settle majority.circus 23
  budget 23, 24 sent
  [10]

The bank needs 1,440.

  $ circus settle bank.circus 1440 >settled
  $ head -n 2 settled
  circus settle 1
  deliveries 1440
  $ grep -A 1 '^member l4' settled | head -n 1
  member l4 Ledger live outside
  $ grep -c '^now idle state .16.$' settled
  3
  $ circus settle bank.circus 1439
  budget 1439, 1440 sent
  [10]

A program that is refused, and a file that is not there.

  $ printf CIRCUS >p; circus settle p 1
  program line 1: syntax
  [2]
  $ circus settle absent 1000000
  shelf fault: absent
  [4]

A client that wants more equal replies than its server has members waits for ever, though nothing is left to deliver.

  $ sed 's/AT LEAST 2/AT LEAST 4/' "$TESTDIR"/programs/two_of_4.circus >all; circus settle all 16 | tail -n 3
  reply 0 step 12 clock 1,0 returned [5]
  end 0 step 12 clock 1,0 returned [] state [5]
  now idle state [5]
  $ sed 's/AT LEAST 2/AT LEAST 5/' "$TESTDIR"/programs/two_of_4.circus >more; circus settle more 16 | tail -n 3
  run 0 step 0 path Main procedure 0 clock 0,0 arguments []
  ask 0 step 0 to Counter index 0 procedure 1 arguments [5] state [0]
  now waiting ask 0 state [0]
