Schedules that are refused. Where the text is no schedule, one line is written alone; where a line may not be stepped, the
first line of the report and the datagrams of the lines in front are written before.

  $ . "$TESTDIR/cases.sh"
  $ cp "$TESTDIR"/programs/*.circus "$TESTDIR"/../examples/*.circus .

The program has a spare in each troupe.

  $ cat spares.circus
  CIRCUS 1;
  Count: PROGRAM 1 VERSION 1 =
  BEGIN
    Add: PROCEDURE [n: CARDINAL] RETURNS [sum: CARDINAL] = 1;
  END.
  MODULE Counter IMPLEMENTS Count;
  BEGIN
    VAR total: CARDINAL;
    PROCEDURE Add BEGIN
      total := total + n;
      RETURN [total];
    END;
  END.
  ROOT Main IMPORTS Counter;
  BEGIN
    VAR got: CARDINAL;
    MAIN BEGIN
      CALL Counter.Add [5] INTO [got];
      RETURN [];
    END;
  END.
  RINGMASTER ring PORT 9000;
  TROUPE Counter CALLS FIRST REPLIES FIRST MEMBERS s1 PORT 9001 SPARES s2 PORT 9003;
  TROUPE Main CALLS FIRST REPLIES FIRST MEMBERS m1 PORT 9002 SPARES m2 PORT 9004;

No lines.

  $ replayed spares.circus '\n'
  schedule line 1: bad line
  [3]
  $ replayed spares.circus '\ndeliver 0\n'
  schedule line 1: bad line
  [3]
  $ replayed spares.circus 'deliver 0\n\n'
  schedule line 2: bad line
  [3]
  $ replayed spares.circus 'deliver 0\n \n'
  schedule line 2: bad line
  [3]
  $ replayed spares.circus ' deliver 0'
  schedule line 1: bad line
  [3]
  $ replayed spares.circus 'deliver 0 '
  schedule line 1: bad line
  [3]
  $ replayed spares.circus 'deliver  0'
  schedule line 1: bad line
  [3]
  $ replayed spares.circus 'deliver\t0'
  schedule line 1: bad line
  [3]
  $ replayed spares.circus 'deliver 0\r\n'
  schedule line 1: bad line
  [3]
  $ replayed spares.circus 'deliver 0 0'
  schedule line 1: bad line
  [3]
  $ replayed spares.circus 'deliver 0;'
  schedule line 1: bad line
  [3]
  $ replayed spares.circus '-- deliver 0'
  schedule line 1: bad line
  [3]
  $ replayed spares.circus 'DELIVER 0'
  schedule line 1: bad line
  [3]
  $ replayed spares.circus 'take 0'
  schedule line 1: bad line
  [3]
  $ replayed spares.circus 'deliver'
  schedule line 1: bad line
  [3]
  $ replayed spares.circus 'tick'
  schedule line 1: bad line
  [3]
  $ replayed spares.circus 'tick m1 s1'
  schedule line 1: bad line
  [3]
  $ replayed spares.circus 'down s1'
  schedule line 1: bad line
  [3]
  $ replayed spares.circus 'down s1 m1 m2'
  schedule line 1: bad line
  [3]
  $ replayed spares.circus 'join'
  schedule line 1: bad line
  [3]

No numbers.

  $ replayed spares.circus 'deliver 00'
  schedule line 1: bad line
  [3]
  $ replayed spares.circus 'deliver 01'
  schedule line 1: bad line
  [3]
  $ replayed spares.circus 'deliver +0'
  schedule line 1: bad line
  [3]
  $ replayed spares.circus 'deliver -1'
  schedule line 1: bad line
  [3]
  $ replayed spares.circus 'deliver 0x1'
  schedule line 1: bad line
  [3]
  $ replayed spares.circus 'deliver m1'
  schedule line 1: bad line
  [3]
  $ replayed spares.circus 'deliver 18446744073709551616'
  schedule line 1: bad line
  [3]
  $ replayed spares.circus 'deliver 340282366920938463463374607431768211456'
  schedule line 1: bad line
  [3]

No names, and names that no node has.

  $ replayed spares.circus 'tick 1m'
  schedule line 1: bad line
  [3]
  $ replayed spares.circus 'tick m_1'
  schedule line 1: bad line
  [3]
  $ replayed spares.circus 'tick \0303\0251'
  schedule line 1: bad line
  [3]

33 letters, and 32.

  $ replayed spares.circus 'tick abcdefghijklmnopqrstuvwxyzabcdefg'
  schedule line 1: bad line
  [3]
  $ replayed spares.circus 'tick abcdefghijklmnopqrstuvwxyzabcdef'
  schedule line 1: unknown node abcdefghijklmnopqrstuvwxyzabcdef
  [3]
  $ replayed spares.circus 'tick x9'
  schedule line 1: unknown node x9
  [3]
  $ replayed spares.circus 'tick M1'
  schedule line 1: unknown node M1
  [3]
  $ replayed spares.circus 'tick Main'
  schedule line 1: unknown node Main
  [3]
  $ replayed spares.circus 'tick MODULE'
  schedule line 1: unknown node MODULE
  [3]
  $ replayed spares.circus 'crash x9'
  schedule line 1: unknown node x9
  [3]
  $ replayed spares.circus 'join x9'
  schedule line 1: unknown node x9
  [3]
  $ replayed spares.circus 'down x9 m1'
  schedule line 1: unknown node x9
  [3]
  $ replayed spares.circus 'down s1 x9'
  schedule line 1: unknown node x9
  [3]
  $ replayed spares.circus 'down x8 x9'
  schedule line 1: unknown node x8
  [3]
  $ replayed spares.circus 'down x8 9'
  schedule line 1: bad line
  [3]

The first line that is none counts, also behind one that may not be stepped.

  $ replayed spares.circus 'tick m1\ntick x9\n'
  schedule line 2: unknown node x9
  [3]
  $ replayed spares.circus 'tick x9\nbad\n'
  schedule line 1: unknown node x9
  [3]
  $ replayed spares.circus 'bad\ntick x9\n'
  schedule line 1: bad line
  [3]
  $ replayed spares.circus 'deliver 9\nbad\n'
  schedule line 2: bad line
  [3]
  $ replayed spares.circus 'crash m1\ntick m1\n\n'
  schedule line 3: bad line
  [3]

Datagrams that were not sent.

  $ replayed spares.circus 'deliver 1\n'
  circus report 1
  datagram 0 step 0 from m1 to s1 00000101000000000000000100010000000100000001000000000000000000010001000200000000000000000005
  schedule line 1: no datagram 1, 1 sent
  [3]
  $ replayed spares.circus 'deliver 18446744073709551615\n'
  circus report 1
  datagram 0 step 0 from m1 to s1 00000101000000000000000100010000000100000001000000000000000000010001000200000000000000000005
  schedule line 1: no datagram 18446744073709551615, 1 sent
  [3]
  $ replayed spares.circus 'deliver 5\ndeliver 0\n'
  circus report 1
  datagram 0 step 0 from m1 to s1 00000101000000000000000100010000000100000001000000000000000000010001000200000000000000000005
  schedule line 1: no datagram 5, 1 sent
  [3]
  $ replayed spares.circus 'deliver 0\ndeliver 9\n'
  circus report 1
  datagram 0 step 0 from m1 to s1 00000101000000000000000100010000000100000001000000000000000000010001000200000000000000000005
  datagram 1 step 1 from s1 to m1 0001010100000000
  datagram 2 step 1 from s1 to m1 010001010000000000000002000000010000000000000005
  schedule line 2: no datagram 9, 3 sent
  [3]
  $ replayed spares.circus 'deliver 0\ndeliver 1\ndeliver 2\ndeliver 3\ndeliver 4\n'
  circus report 1
  datagram 0 step 0 from m1 to s1 00000101000000000000000100010000000100000001000000000000000000010001000200000000000000000005
  datagram 1 step 1 from s1 to m1 0001010100000000
  datagram 2 step 1 from s1 to m1 010001010000000000000002000000010000000000000005
  datagram 3 step 3 from m1 to s1 0101010100000000
  schedule line 5: no datagram 4, 4 sent
  [3]
  $ replayed spares.circus 'deliver 0\ndeliver 0\ndeliver 3\n'
  circus report 1
  datagram 0 step 0 from m1 to s1 00000101000000000000000100010000000100000001000000000000000000010001000200000000000000000005
  datagram 1 step 1 from s1 to m1 0001010100000000
  datagram 2 step 1 from s1 to m1 010001010000000000000002000000010000000000000005
  schedule line 3: no datagram 3, 3 sent
  [3]
  $ replayed spares.circus 'crash s1\ndeliver 0\ndeliver 1\n'
  circus report 1
  datagram 0 step 0 from m1 to s1 00000101000000000000000100010000000100000001000000000000000000010001000200000000000000000005
  schedule line 3: no datagram 1, 1 sent
  [3]
  $ replayed spares.circus 'crash s2\ntick m1\ndeliver 2\n'
  circus report 1
  datagram 0 step 0 from m1 to s1 00000101000000000000000100010000000100000001000000000000000000010001000200000000000000000005
  datagram 1 step 2 from m1 to s1 00020101000000000000000100010000000100000001000000000000000000010001000200000000000000000005
  schedule line 3: no datagram 2, 2 sent
  [3]

Nodes that have crashed, and such as have not.

  $ replayed spares.circus 'crash m1\ntick m1\n'
  circus report 1
  datagram 0 step 0 from m1 to s1 00000101000000000000000100010000000100000001000000000000000000010001000200000000000000000005
  schedule line 2: m1 is not live
  [3]
  $ replayed spares.circus 'crash ring\ntick ring\n'
  circus report 1
  datagram 0 step 0 from m1 to s1 00000101000000000000000100010000000100000001000000000000000000010001000200000000000000000005
  schedule line 2: ring is not live
  [3]
  $ replayed spares.circus 'crash s2\ntick s2\n'
  circus report 1
  datagram 0 step 0 from m1 to s1 00000101000000000000000100010000000100000001000000000000000000010001000200000000000000000005
  schedule line 2: s2 is not live
  [3]
  $ replayed spares.circus 'crash m1\ncrash m1\n'
  circus report 1
  datagram 0 step 0 from m1 to s1 00000101000000000000000100010000000100000001000000000000000000010001000200000000000000000005
  schedule line 2: m1 is not live
  [3]
  $ replayed spares.circus 'down s1 m1\n'
  circus report 1
  datagram 0 step 0 from m1 to s1 00000101000000000000000100010000000100000001000000000000000000010001000200000000000000000005
  schedule line 1: s1 has not crashed
  [3]
  $ replayed spares.circus 'down ring m1\n'
  circus report 1
  datagram 0 step 0 from m1 to s1 00000101000000000000000100010000000100000001000000000000000000010001000200000000000000000005
  schedule line 1: ring has not crashed
  [3]
  $ replayed spares.circus 'down s1 s1\n'
  circus report 1
  datagram 0 step 0 from m1 to s1 00000101000000000000000100010000000100000001000000000000000000010001000200000000000000000005
  schedule line 1: s1 has not crashed
  [3]
  $ replayed spares.circus 'crash s1\ndown s1 s1\n'
  circus report 1
  datagram 0 step 0 from m1 to s1 00000101000000000000000100010000000100000001000000000000000000010001000200000000000000000005
  schedule line 2: s1 is not live
  [3]
  $ replayed spares.circus 'crash s1\ncrash m1\ndown s1 m1\n'
  circus report 1
  datagram 0 step 0 from m1 to s1 00000101000000000000000100010000000100000001000000000000000000010001000200000000000000000005
  schedule line 3: m1 is not live
  [3]
  $ replayed spares.circus 'crash m1\ndown s1 m1\n'
  circus report 1
  datagram 0 step 0 from m1 to s1 00000101000000000000000100010000000100000001000000000000000000010001000200000000000000000005
  schedule line 2: s1 has not crashed
  [3]
  $ replayed spares.circus 'crash ring\ndown m1 ring\n'
  circus report 1
  datagram 0 step 0 from m1 to s1 00000101000000000000000100010000000100000001000000000000000000010001000200000000000000000005
  schedule line 2: m1 has not crashed
  [3]
  $ replayed spares.circus 'crash s1\ndown s1 m1\ndown s1 m1\ndown m1 s1\n'
  circus report 1
  datagram 0 step 0 from m1 to s1 00000101000000000000000100010000000100000001000000000000000000010001000200000000000000000005
  datagram 1 step 2 from m1 to ring 0000010100000000000100030000000100000000
  datagram 2 step 3 from m1 to ring 0000010100000001000100030000000100000000
  schedule line 4: m1 has not crashed
  [3]

Nodes that may not join.

  $ replayed spares.circus 'join s1\n'
  circus report 1
  datagram 0 step 0 from m1 to s1 00000101000000000000000100010000000100000001000000000000000000010001000200000000000000000005
  schedule line 1: s1 is not a spare
  [3]
  $ replayed spares.circus 'join ring\n'
  circus report 1
  datagram 0 step 0 from m1 to s1 00000101000000000000000100010000000100000001000000000000000000010001000200000000000000000005
  schedule line 1: ring is not a spare
  [3]
  $ replayed spares.circus 'join m1\n'
  circus report 1
  datagram 0 step 0 from m1 to s1 00000101000000000000000100010000000100000001000000000000000000010001000200000000000000000005
  schedule line 1: m1 is not a spare
  [3]
  $ replayed spares.circus 'crash s1\njoin s1\n'
  circus report 1
  datagram 0 step 0 from m1 to s1 00000101000000000000000100010000000100000001000000000000000000010001000200000000000000000005
  schedule line 2: s1 is not a spare
  [3]
  $ replayed spares.circus 'crash s2\njoin s2\n'
  circus report 1
  datagram 0 step 0 from m1 to s1 00000101000000000000000100010000000100000001000000000000000000010001000200000000000000000005
  schedule line 2: s2 is not live
  [3]
  $ replayed spares.circus 'join s2\njoin s2\n'
  circus report 1
  datagram 0 step 0 from m1 to s1 00000101000000000000000100010000000100000001000000000000000000010001000200000000000000000005
  datagram 1 step 1 from s2 to ring 0000010100000000000100010000000200000000
  schedule line 2: s2 has joined
  [3]
  $ replayed spares.circus 'join s2\ncrash s2\njoin s2\n'
  circus report 1
  datagram 0 step 0 from m1 to s1 00000101000000000000000100010000000100000001000000000000000000010001000200000000000000000005
  datagram 1 step 1 from s2 to ring 0000010100000000000100010000000200000000
  schedule line 3: s2 is not live
  [3]
  $ replayed spares.circus 'join m2\ndeliver 1\ndeliver 3\njoin m2\n'
  circus report 1
  datagram 0 step 0 from m1 to s1 00000101000000000000000100010000000100000001000000000000000000010001000200000000000000000005
  datagram 1 step 1 from m2 to ring 0000010100000000000100010001000400000000
  datagram 2 step 2 from ring to m2 0001010100000000
  datagram 3 step 2 from ring to m2 01000101000000000004000100010000000100010003000100000000
  datagram 4 step 3 from m2 to ring 0101010100000000
  schedule line 4: m2 has joined
  [3]

More of them, under the same program with a spare more, whose name has 32 letters.

Empty lines.

  $ replayed long_name.circus '\n\n'
  schedule line 1: bad line
  [3]
  $ replayed long_name.circus 'tick s1\n\n'
  schedule line 2: bad line
  [3]
  $ replayed long_name.circus 'tick s1\n\ntick s1\n'
  schedule line 2: bad line
  [3]
  $ replayed long_name.circus '\ntick s1\n'
  schedule line 1: bad line
  [3]

Numbers.

  $ replayed long_name.circus 'deliver '
  schedule line 1: bad line
  [3]
  $ replayed long_name.circus 'deliver +1'
  schedule line 1: bad line
  [3]
  $ replayed long_name.circus 'deliver 1.0'
  schedule line 1: bad line
  [3]
  $ replayed long_name.circus 'deliver 1x'
  schedule line 1: bad line
  [3]
  $ replayed long_name.circus 'deliver s1'
  schedule line 1: bad line
  [3]
  $ replayed long_name.circus 'deliver 1 2'
  schedule line 1: bad line
  [3]
  $ replayed long_name.circus 'deliver 99999999999999999999'
  schedule line 1: bad line
  [3]
  $ replayed long_name.circus 'deliver 100000000000000000000000000000000000000000'
  schedule line 1: bad line
  [3]

Spaces.

  $ replayed long_name.circus ' deliver 1'
  schedule line 1: bad line
  [3]
  $ replayed long_name.circus 'deliver 1 '
  schedule line 1: bad line
  [3]
  $ replayed long_name.circus 'deliver  1'
  schedule line 1: bad line
  [3]
  $ replayed long_name.circus 'deliver\t1'
  schedule line 1: bad line
  [3]
  $ replayed long_name.circus 'deliver 1\r\n'
  schedule line 1: bad line
  [3]
  $ replayed long_name.circus ' '
  schedule line 1: bad line
  [3]
  $ replayed long_name.circus 'tick  s1'
  schedule line 1: bad line
  [3]
  $ replayed long_name.circus 'tick s1 '
  schedule line 1: bad line
  [3]
  $ replayed long_name.circus 'tick s1\t'
  schedule line 1: bad line
  [3]
  $ replayed long_name.circus 'down  s1 s2'
  schedule line 1: bad line
  [3]
  $ replayed long_name.circus 'down s1  s2'
  schedule line 1: bad line
  [3]
  $ replayed long_name.circus 'down s1 s2 '
  schedule line 1: bad line
  [3]

Words.

  $ replayed long_name.circus 'ticks1'
  schedule line 1: bad line
  [3]
  $ replayed long_name.circus 'tick '
  schedule line 1: bad line
  [3]
  $ replayed long_name.circus 'Tick s1'
  schedule line 1: bad line
  [3]
  $ replayed long_name.circus 'TICK s1'
  schedule line 1: bad line
  [3]
  $ replayed long_name.circus 'tock s1'
  schedule line 1: bad line
  [3]
  $ replayed long_name.circus 'tick s1 s2'
  schedule line 1: bad line
  [3]
  $ replayed long_name.circus 'crash'
  schedule line 1: bad line
  [3]
  $ replayed long_name.circus 'crash s1 s2'
  schedule line 1: bad line
  [3]
  $ replayed long_name.circus 'down s1 '
  schedule line 1: bad line
  [3]
  $ replayed long_name.circus 'down s1 s2 m1'
  schedule line 1: bad line
  [3]
  $ replayed long_name.circus '-- comment'
  schedule line 1: bad line
  [3]
  $ replayed long_name.circus 'tick s1 -- comment'
  schedule line 1: bad line
  [3]

Names.

  $ replayed long_name.circus 'tick 1s'
  schedule line 1: bad line
  [3]
  $ replayed long_name.circus 'tick 1'
  schedule line 1: bad line
  [3]
  $ replayed long_name.circus 'tick s-1'
  schedule line 1: bad line
  [3]
  $ replayed long_name.circus 'tick s_1'
  schedule line 1: bad line
  [3]
  $ replayed long_name.circus 'tick s1;'
  schedule line 1: bad line
  [3]
  $ replayed long_name.circus 'tick s\0303\0251'
  schedule line 1: bad line
  [3]
  $ replayed long_name.circus 'tick abcdefghijklmnopqrstuvwxyzABCDEFG'
  schedule line 1: bad line
  [3]

The first of two faults.

  $ replayed long_name.circus 'deliver 0\ntick 1\ntick x9\n'
  schedule line 2: bad line
  [3]
  $ replayed long_name.circus 'deliver 0\ndeliver 1\nbad'
  schedule line 3: bad line
  [3]
  $ replayed long_name.circus 'down x9 1'
  schedule line 1: bad line
  [3]

Names that no node has.

  $ replayed long_name.circus 'tick x9\n'
  schedule line 1: unknown node x9
  [3]
  $ replayed long_name.circus 'tick S1'
  schedule line 1: unknown node S1
  [3]
  $ replayed long_name.circus 'tick s'
  schedule line 1: unknown node s
  [3]
  $ replayed long_name.circus 'tick s11'
  schedule line 1: unknown node s11
  [3]
  $ replayed long_name.circus 'tick PROCEDURE'
  schedule line 1: unknown node PROCEDURE
  [3]
  $ replayed long_name.circus 'join tick'
  schedule line 1: unknown node tick
  [3]
  $ replayed long_name.circus 'down x9 s1'
  schedule line 1: unknown node x9
  [3]
  $ replayed long_name.circus 'down y8 x9'
  schedule line 1: unknown node y8
  [3]
  $ replayed long_name.circus 'down x9 x9'
  schedule line 1: unknown node x9
  [3]
  $ replayed long_name.circus 'tick abcdefghijklmnopqrstuvwxyzABCDEG'
  schedule line 1: unknown node abcdefghijklmnopqrstuvwxyzABCDEG
  [3]
  $ replayed long_name.circus 'deliver 0\ntick s1\ntick a\ntick b'
  schedule line 3: unknown node a
  [3]

A line of each kind is stepped; the last one needs no newline.

  $ replayed long_name.circus 'deliver 0\njoin s2\ntick m1\ncrash s1\ndown s1 m1\ntick abcdefghijklmnopqrstuvwxyzABCDEF' | grep -v ^datagram
  circus report 1
  ringmaster ring live
  view Counter 1 s1=0
  view Main 1 m1=0
  member s1 Counter crashed 4 from 0 at 0 count 1
  run 0 step 1 path Main.0 procedure 1 clock 1,0 arguments [5]
  end 0 step 1 clock 1,0 returned [5] state [5]
  now idle state [5]
  member s2 Counter live asking
  member abcdefghijklmnopqrstuvwxyzABCDEF Counter live outside
  member m1 Main live from 0 at 0 count 0
  run 0 step 0 path Main procedure 0 clock 0,0 arguments []
  ask 0 step 0 to Counter index 0 procedure 1 arguments [5] state [0]
  now waiting ask 0 state [0]
  member m2 Main live outside

As many lines as there may be, with and without the last newline; one more, whatever stands in it; and a fault
in front of that.

  $ ticks() { yes "tick s2" | head -n $1; }
  $ ticks 200000 >s; circus replay spares.circus s | head -n 1
  circus report 1
  $ { ticks 199999; printf 'tick s2'; } >s; circus replay spares.circus s | head -n 1
  circus report 1
  $ { ticks 200000; echo; } >s; circus replay spares.circus s
  schedule line 200001: too many lines
  [3]
  $ ticks 200001 >s; circus replay spares.circus s
  schedule line 200001: too many lines
  [3]
  $ { ticks 200000; echo bad; printf 'tick x9'; } >s; circus replay spares.circus s
  schedule line 200001: too many lines
  [3]
  $ { ticks 199999; echo bad; printf 'tick m1'; } >s; circus replay spares.circus s
  schedule line 200000: bad line
  [3]

A program is refused before its schedule is fetched.

  $ replayed first.circus bad
  schedule line 1: bad line
  [3]
  $ sed 's/^CIRCUS 1/CIRCUS 3/' first.circus >p; replayed p bad
  program line 1: syntax
  [2]
  $ replayed shared.circus bad
  program line 22: shared Counter Main Other
  [2]
