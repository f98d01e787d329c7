Pictures. Those of the examples are in examples/README.md.

  $ cp "$TESTDIR"/../examples/*.circus "$TESTDIR"/programs/*.circus .
  $ picture() { tr ',' '\n' >s; circus picture $1 s; }

An empty schedule, and one call that is delivered with all that comes of it, in the columns of the narrowest names.

  $ echo -n | picture first.circus
  circus picture 1
            ring   s1    m1
             |     |     (    m1 begins 0 Main
             |     |     |    never delivered: 1 of 1
             |     |     |    0 m1 to s1 call Counter.Add Main.0
  $ echo -n deliver 0,deliver 1,deliver 2,deliver 3 | picture first.circus
  circus picture 1
            ring   s1    m1
             |     |     (    m1 begins 0 Main
       1     |     <-----o    0 call Counter.Add Main.0
             |     (     |    s1 begins 0 Main.0
             |     )     |    s1 ends 0 returned [5]
       2     |     o----->    1 ack call 0
       3     |     o----->    2 reply
             |     |     )    m1 ends 0 returned []
       4     |     <-----o    3 ack return 0

A node alone, whose row has nothing behind its name; and a root without calls, whose members begin and end at boot, node by node.

  $ echo -n tick ring,crash ring | picture no_troupes.circus
  circus picture 1
            ring
       1     t    ring ticks
       2     X    ring crashes
  $ echo 'CIRCUS 1; ROOT Main; BEGIN MAIN BEGIN RETURN []; END; END.' >alone.circus
  $ echo 'RINGMASTER ring PORT 9000; TROUPE Main CALLS FIRST REPLIES FIRST MEMBERS m1 PORT 9001, m2 PORT 9002;' >>alone.circus
  $ echo -n crash m1 | picture alone.circus
  circus picture 1
            ring   m1    m2
             |     (     |    m1 begins 0 Main
             |     )     |    m1 ends 0 returned []
             |     |     (    m2 begins 0 Main
             |     |     )    m2 ends 0 returned []
       1     |     X     |    m1 crashes

A datagram that is delivered twice, and one to a node that has crashed; the Ringmaster's node may crash too.

  $ echo -n deliver 0,deliver 0,crash m1,deliver 2,crash ring | picture first.circus
  circus picture 1
            ring   s1    m1
             |     |     (    m1 begins 0 Main
       1     |     <-----o    0 call Counter.Add Main.0
             |     (     |    s1 begins 0 Main.0
             |     )     |    s1 ends 0 returned [5]
       2     |     <-----o    0 call Counter.Add Main.0
       3     |     |     X    m1 crashes
       4     |     o-----X    2 reply
       5     X     |     x    ring crashes
             x     |     x    never delivered: 1 of 3
             x     |     x    1 s1 to m1 ack call 0

What a node sent comes behind its crash too, by an arrow that begins at its column.

  $ echo -n deliver 0,crash s1,deliver 2,deliver 1 | picture first.circus
  circus picture 1
            ring   s1    m1
             |     |     (    m1 begins 0 Main
       1     |     <-----o    0 call Counter.Add Main.0
             |     (     |    s1 begins 0 Main.0
             |     )     |    s1 ends 0 returned [5]
       2     |     X     |    s1 crashes
       3     |     o----->    2 reply
             |     x     )    m1 ends 0 returned []
       4     |     o----->    1 ack call 0
             |     x     |    never delivered: 1 of 4
             |     x     |    3 m1 to s1 ack return 0

A message that is sent again, and a call that is probed, whose return comes late.

  $ echo -n tick m1,deliver 1,deliver 2,tick m1,tick s1,deliver 3 | picture first.circus
  circus picture 1
            ring   s1    m1
             |     |     (    m1 begins 0 Main
       1     |     |     t    m1 ticks
       2     |     <-----o    1 call Counter.Add Main.0 again
             |     (     |    s1 begins 0 Main.0
             |     )     |    s1 ends 0 returned [5]
       3     |     o----->    2 ack call 0
       4     |     |     t    m1 ticks
       5     |     t     |    s1 ticks
       6     |     o----->    3 reply
             |     |     )    m1 ends 0 returned []
             |     |     |    never delivered: 4 of 7
             |     |     |    0 m1 to s1 call Counter.Add Main.0
             |     |     |    4 m1 to s1 probe 0
             |     |     |    5 s1 to m1 reply again
             |     |     |    6 m1 to s1 ack return 0

Messages of two segments: the second one is named by its number, and by that of its call.

  $ sed 's/n: CARDINAL/n: SEQUENCE 40000 OF CARDINAL/; s/LENGTH(q)]/q]/; s/32768/600/' room_32768_2.circus >echo.circus
  $ echo -n tick m1,deliver 2,deliver 3,tick m1,deliver 4,deliver 5,deliver 6,deliver 7 | picture echo.circus | cut -c -68
  circus picture 1
            ring   s1    m1
             |     |     (    m1 begins 0 Main
       1     |     |     t    m1 ticks
       2     |     <-----o    2 call Store.Put Main.0 again
       3     |     o----->    3 ack call 0
       4     |     |     t    m1 ticks
       5     |     <-----o    4 call 0 segment 2 of 2 again
             |     (     |    s1 begins 0 Main.0
             |     )     |    s1 ends 0 returned [{7, 7, 7, 7, 7, 7, 7
       6     |     o----->    5 ack call 0
       7     |     o----->    6 reply
       8     |     o----->    7 return 0 segment 2 of 2
             |     |     )    m1 ends 0 returned []
             |     |     |    never delivered: 3 of 9
             |     |     |    0 m1 to s1 call Store.Put Main.0
             |     |     |    1 m1 to s1 call 0 segment 2 of 2
             |     |     |    8 m1 to s1 ack return 0

A spare joins, and a member that is declared down is taken out of its view.

  $ echo -n deliver 0,join s2,deliver 3,deliver 5,deliver 7,deliver 9,deliver 2,deliver 13,deliver 15,deliver 17,deliver 19,deliver 22,deliver 24 | picture two_calls.circus
  circus picture 1
            ring   s1    s2    m1
             |     |     |     (    m1 begins 0 Main
       1     |     <-----------o    0 call Counter.Add Main.0
             |     (     |     |    s1 begins 0 Main.0
             |     )     |     |    s1 ends 0 returned [5]
       2     |     |     j     |    s2 is told to join
       3     <-----------o     |    3 join s2
       4     o----------->     |    5 table Counter
       5     |     <-----o     |    7 state request Counter
       6     |     o----->     |    9 snapshot 1
             |     |     A     |    s2 is active from 1
       7     |     o----------->    2 reply
       8     |     <-----------o    13 call Counter.Add Main.1
       9     |     o----------->    15 stale 2
      10     <-----------------o    17 lookup Counter
      11     o----------------->    19 table Counter
      12     |     |     <-----o    22 call Counter.Add Main.1
             |     |     (     |    s2 begins 1 Main.1
             |     |     )     |    s2 ends 1 returned [12]
      13     |     |     o----->    24 reply
             |     |     |     )    m1 ends 0 returned []
             |     |     |     |    never delivered: 14 of 26
             |     |     |     |    1 s1 to m1 ack call 0
             |     |     |     |    4 ring to s2 ack call 0
             |     |     |     |    6 s2 to ring ack return 0
             |     |     |     |    8 s1 to s2 ack call 0
             |     |     |     |    10 s2 to s1 ack return 0
             |     |     |     |    11 s2 to ring active s2
             |     |     |     |    12 m1 to s1 ack return 0
             |     |     |     |    14 s1 to m1 ack call 1
             |     |     |     |    16 m1 to s1 ack return 1
             |     |     |     |    18 ring to m1 ack call 0
             |     |     |     |    20 m1 to ring ack return 0
             |     |     |     |    21 m1 to s1 call Counter.Add Main.1
             |     |     |     |    23 s2 to m1 ack call 0
             |     |     |     |    25 m1 to s2 ack return 0
  $ echo -n crash s1,down s1 m1,deliver 1 | picture first.circus
  circus picture 1
            ring   s1    m1
             |     |     (    m1 begins 0 Main
       1     |     X     |    s1 crashes
       2     |     x     !    m1 learns that s1 is down
       3     <-----------o    1 gone s1
             |     x     |    never delivered: 3 of 4
             |     x     |    0 m1 to s1 call Counter.Add Main.0
             |     x     |    2 ring to m1 ack call 0
             |     x     |    3 ring to m1 table Counter

A spare that becomes active with calls in hand: what it does in that step has a row each, in order, and the call that is before
its first one is answered so.

  $ sed 's/\[7\] INTO \[got\];/& CALL Counter.Add [9] INTO [got];/; s/m1 PORT 9002/&, m2 PORT 9004/' two_calls.circus >three_calls.circus
  $ echo -n deliver 0,join s2,deliver 4,deliver 6,deliver 8,deliver 1,deliver 12,deliver 14,deliver 16,deliver 18,deliver 21,deliver 19,deliver 24,deliver 23,deliver 28,deliver 31,deliver 10,deliver 35 | picture three_calls.circus | sed '/never/,$d'
  circus picture 1
            ring   s1    s2    m1    m2
             |     |     |     (     |    m1 begins 0 Main
             |     |     |     |     (    m2 begins 0 Main
       1     |     <-----------o     |    0 call Counter.Add Main.0
             |     (     |     |     |    s1 begins 0 Main.0
             |     )     |     |     |    s1 ends 0 returned [5]
       2     |     |     j     |     |    s2 is told to join
       3     <-----------o     |     |    4 join s2
       4     o----------->     |     |    6 table Counter
       5     |     <-----o     |     |    8 state request Counter
       6     |     <-----------------o    1 call Counter.Add Main.0
       7     |     o----------------->    12 stale 2
       8     <-----------------------o    14 lookup Counter
       9     o----------------------->    16 table Counter
      10     |     <-----------------o    18 call Counter.Add Main.0
      11     |     o----------------->    21 reply
      12     |     |     <-----------o    19 call Counter.Add Main.0
      13     |     |     <-----------o    24 call Counter.Add Main.1
      14     |     <-----------------o    23 call Counter.Add Main.1
             |     (     |     |     |    s1 begins 1 Main.1
             |     )     |     |     |    s1 ends 1 returned [12]
      15     |     o----------------->    28 reply
      16     |     |     <-----------o    31 call Counter.Add Main.2
      17     |     o----->     |     |    10 snapshot 1
             |     |     A     |     |    s2 is active from 1
             |     |     (     |     |    s2 begins 1 Main.1
             |     |     )     |     |    s2 ends 1 returned [12]
             |     |     (     |     |    s2 begins 2 Main.2
             |     |     )     |     |    s2 ends 2 returned [21]
      18     |     |     o----------->    35 before 1

An outcome that is an error.

  $ echo -n deliver 0,deliver 2,deliver 4,deliver 6,deliver 8,deliver 10 | picture shop.circus
  circus picture 1
            ring   s1    c1
             |     |     (    c1 begins 0 Shop
       1     |     <-----o    0 call Store.Add Shop.0
             |     (     |    s1 begins 0 Shop.0
             |     )     |    s1 ends 0 returned [10]
       2     |     o----->    2 reply
       3     |     <-----o    4 call Store.Take Shop.1
             |     (     |    s1 begins 1 Shop.1
             |     )     |    s1 ends 1 returned [6]
       4     |     o----->    6 reply
       5     |     <-----o    8 call Store.Take Shop.2
             |     (     |    s1 begins 2 Shop.2
             |     )     |    s1 ends 2 raised 1 [2]
       6     |     o----->    10 reply
             |     |     )    c1 ends 0 returned []
             |     |     |    never delivered: 6 of 12
             |     |     |    1 s1 to c1 ack call 0
             |     |     |    3 c1 to s1 ack return 0
             |     |     |    5 s1 to c1 ack call 1
             |     |     |    7 c1 to s1 ack return 1
             |     |     |    9 s1 to c1 ack call 2
             |     |     |    11 c1 to s1 ack return 2

Names of one, five and seven letters, in columns of nine characters.

  $ sed 's/ring PORT/r PORT/; s/s1 PORT/three PORT/; s/m1 PORT/seventh PORT/' first.circus >odd.circus
  $ echo -n deliver 0,deliver 2 | picture odd.circus
  circus picture 1
              r      three   seventh
              |        |        (      seventh begins 0 Main
       1      |        <--------o      0 call Counter.Add Main.0
              |        (        |      three begins 0 Main.0
              |        )        |      three ends 0 returned [5]
       2      |        o-------->      2 reply
              |        |        )      seventh ends 0 returned []
              |        |        |      never delivered: 2 of 4
              |        |        |      1 three to seventh ack call 0
              |        |        |      3 seventh to three ack return 0

A program of the second format, with a name of 32 letters.

  $ echo -n deliver 0,deliver 2 | picture long_name.circus
  circus picture 1
                          ring                               s1                                s2                 abcdefghijklmnopqrstuvwxyzABCDEF                 m1                                m2
                           |                                 |                                 |                                 |                                 (                                 |                  m1 begins 0 Main
       1                   |                                 <-----------------------------------------------------------------------------------------------------o                                 |                  0 call Counter.Add Main.0
                           |                                 (                                 |                                 |                                 |                                 |                  s1 begins 0 Main.0
                           |                                 )                                 |                                 |                                 |                                 |                  s1 ends 0 returned [5]
       2                   |                                 o----------------------------------------------------------------------------------------------------->                                 |                  2 reply
                           |                                 |                                 |                                 |                                 )                                 |                  m1 ends 0 returned []
                           |                                 |                                 |                                 |                                 |                                 |                  never delivered: 2 of 4
                           |                                 |                                 |                                 |                                 |                                 |                  1 s1 to m1 ack call 0
                           |                                 |                                 |                                 |                                 |                                 |                  3 m1 to s1 ack return 0
  $ sed 's/^CIRCUS 1/CIRCUS 2/' first.circus >second.circus
  $ echo -n deliver 0,tick m1,deliver 2 | picture second.circus
  circus picture 1
            ring   s1    m1
             |     |     (    m1 begins 0 Main
       1     |     <-----o    0 call Counter.Add Main.0
             |     (     |    s1 begins 0 Main.0
             |     )     |    s1 ends 0 returned [5]
       2     |     |     t    m1 ticks
       3     |     o----->    2 reply
             |     |     )    m1 ends 0 returned []
             |     |     |    never delivered: 3 of 5
             |     |     |    1 s1 to m1 ack call 0
             |     |     |    3 m1 to s1 call Counter.Add Main.0 again
             |     |     |    4 m1 to s1 ack return 0

Many nodes.

  $ echo -n deliver 0,crash t3,deliver 2,deliver 5,tick d3,deliver 10 | picture bank.circus
  circus picture 1
            ring   l1    l2    l3    l4    t1    t2    t3    d1    d2    d3
             |     |     |     |     |     |     |     |     (     |     |    d1 begins 0 Day
             |     |     |     |     |     |     |     |     |     (     |    d2 begins 0 Day
             |     |     |     |     |     |     |     |     |     |     (    d3 begins 0 Day
       1     |     |     |     |     |     <-----------------o     |     |    0 call Teller.Pay Day.0
       2     |     |     |     |     |     |     |     X     |     |     |    t3 crashes
       3     |     |     |     |     |     |     |     X-----o     |     |    2 call Teller.Pay Day.0
       4     |     |     |     |     |     |     |     X-----------o     |    5 call Teller.Pay Day.0
       5     |     |     |     |     |     |     |     x     |     |     t    d3 ticks
       6     |     |     |     |     |     <-----------------------------o    10 call Teller.Pay Day.0 again
             |     |     |     |     |     (     |     x     |     |     |    t1 begins 0 Day.0
             |     |     |     |     |     |     |     x     |     |     |    never delivered: 13 of 17
             |     |     |     |     |     |     |     x     |     |     |    1 d1 to t2 call Teller.Pay Day.0
             |     |     |     |     |     |     |     x     |     |     |    3 d2 to t1 call Teller.Pay Day.0
             |     |     |     |     |     |     |     x     |     |     |    4 d2 to t2 call Teller.Pay Day.0
             |     |     |     |     |     |     |     x     |     |     |    6 d3 to t1 call Teller.Pay Day.0
             |     |     |     |     |     |     |     x     |     |     |    7 d3 to t2 call Teller.Pay Day.0
             |     |     |     |     |     |     |     x     |     |     |    8 d3 to t3 call Teller.Pay Day.0
             |     |     |     |     |     |     |     x     |     |     |    9 t1 to d1 ack call 0
             |     |     |     |     |     |     |     x     |     |     |    11 d3 to t2 call Teller.Pay Day.0 again
             |     |     |     |     |     |     |     x     |     |     |    12 d3 to t3 call Teller.Pay Day.0 again
             |     |     |     |     |     |     |     x     |     |     |    13 t1 to d3 ack call 0
             |     |     |     |     |     |     |     x     |     |     |    14 t1 to l1 call Ledger.Move Day.0.0
             |     |     |     |     |     |     |     x     |     |     |    15 t1 to l2 call Ledger.Move Day.0.0
             |     |     |     |     |     |     |     x     |     |     |    16 t1 to l3 call Ledger.Move Day.0.0

Of what is refused one line is written, and nothing is drawn.

  $ circus picture first.circus
  circus: bad command line
  [1]
  $ circus picture first.circus ''
  circus: bad command line
  [1]
  $ circus picture first.circus s s
  circus: bad command line
  [1]
  $ circus picture absent s
  shelf fault: absent
  [4]
  $ circus picture first.circus absent
  shelf fault: absent
  [4]
  $ printf CIRCUS >p; circus picture p absent
  program line 1: syntax
  [2]
  $ echo -n deliver 0,deliver 9 | picture first.circus
  schedule line 2: no datagram 9, 3 sent
  [3]
  $ echo -n deliver 0,tick x | picture first.circus
  schedule line 2: unknown node x
  [3]
  $ echo -n deliver 0,,tick m1 | picture first.circus
  schedule line 2: bad line
  [3]

A standard output that takes nothing, one that is closed, and a reader that has had enough.

  $ yes 'tick m1' | head -n 20000 >s
  $ circus picture first.circus s >/dev/full
  [5]
  $ circus picture first.circus s >&-
  [5]
  $ { circus picture first.circus s; echo $? >status; } | head -n 1
  circus picture 1
  $ sleep 1; cat status
  5
