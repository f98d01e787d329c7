Messages of many segments, the second format, and the most steps of a run.

  $ . "$TESTDIR/cases.sh"
  $ cp "$TESTDIR"/programs/*.circus "$TESTDIR"/../examples/*.circus .

One call in format 2.

  $ replayed one_call_2.circus 'deliver 0\ndeliver 1\ndeliver 2\ndeliver 3\n'
  circus report 1
  datagram 0 step 0 from m1 to s1 020000010001000000000000000100010000000100000001000000000000000000010001000200000000000000000005
  datagram 1 step 1 from s1 to m1 02010001000100000000
  datagram 2 step 1 from s1 to m1 0300000100010000000000000002000000010000000000000005
  datagram 3 step 3 from m1 to s1 03010001000100000000
  ringmaster ring live
  view Counter 1 s1=0
  view Main 1 m1=0
  member s1 Counter live from 0 at 0 count 1
  run 0 step 1 path Main.0 procedure 1 clock 1,0 arguments [5]
  end 0 step 1 clock 1,0 returned [5] state [5]
  now idle state [5]
  member m1 Main live from 0 at 0 count 1
  run 0 step 0 path Main procedure 0 clock 0,0 arguments []
  ask 0 step 0 to Counter index 0 procedure 1 arguments [5] state [0]
  reply 0 step 3 clock 1,0 returned [5]
  end 0 step 3 clock 1,0 returned [] state [5]
  now idle state [5]

An argument above the limit raises an error, and nothing is sent; in format 2 the limit is 1,048,576 bytes.

  $ replayed room_32768.circus ''
  circus report 1
  ringmaster ring live
  view Store 1 s1=0
  view Main 1 m1=0
  member s1 Store live from 0 at 0 count 0
  now idle state []
  member m1 Main live from 0 at 0 count 1
  run 0 step 0 path Main procedure 0 clock 0,0 arguments []
  end 0 step 0 clock 0,0 raised 60004 [] state []
  now idle state []

  $ replayed block_9.circus ''
  circus report 1
  ringmaster ring live
  view Store 1 s1=0
  view Main 1 m1=0
  member s1 Store live from 0 at 0 count 0
  now idle state []
  member m1 Main live from 0 at 0 count 1
  run 0 step 0 path Main procedure 0 clock 0,0 arguments []
  end 0 step 0 clock 0,0 raised 60004 [] state []
  now idle state []

The first call takes as many steps as there may be, the second one would take one more.

  $ replayed wheel.circus 'deliver 0\ndeliver 1\ndeliver 2\ndeliver 3\ndeliver 4\ndeliver 5\ndeliver 6\ndeliver 7\n'
  circus report 1
  datagram 0 step 0 from m1 to s1 00000101000000000000000100010000000100000001000000000000000000010001000200000000000000000007a11f
  datagram 1 step 1 from s1 to m1 0001010100000000
  datagram 2 step 1 from s1 to m1 010001010000000000000002000000010000000000000007a11f
  datagram 3 step 3 from m1 to s1 0101010100000000
  datagram 4 step 3 from m1 to s1 00000101000000010000000100010001000100000001000000000000000000010002000200000001000000000007a11f
  datagram 5 step 5 from s1 to m1 0001010100000001
  datagram 6 step 5 from s1 to m1 01000101000000010000000200000002000000000001ea65
  datagram 7 step 7 from m1 to s1 0101010100000001
  ringmaster ring live
  view Wheel 1 s1=0
  view Main 1 m1=0
  member s1 Wheel live from 0 at 0 count 2
  run 0 step 1 path Main.0 procedure 1 clock 1,0 arguments [499999]
  end 0 step 1 clock 1,0 returned [499999] state []
  run 1 step 5 path Main.1 procedure 2 clock 2,0 arguments [499999]
  end 1 step 5 clock 2,0 raised 60005 [] state []
  now idle state []
  member m1 Main live from 0 at 0 count 1
  run 0 step 0 path Main procedure 0 clock 0,0 arguments []
  ask 0 step 0 to Wheel index 0 procedure 1 arguments [499999] state []
  reply 0 step 3 clock 1,0 returned [499999]
  ask 1 step 3 to Wheel index 1 procedure 2 arguments [499999] state []
  reply 1 step 7 clock 2,0 raised 60005 []
  end 0 step 7 clock 2,0 returned [] state []
  now idle state []

65 segments come in the opposite order. One is lost, and sent again at a tick.

  $ { seq 64 -1 11 | sed 's/^/deliver /'; seq 9 -1 0 | sed 's/^/deliver /'; printf 'tick m1\ndeliver 128\ndeliver 129\ntick m1\ndeliver 130\n'; } >s
  $ circus replay room_32767.circus s >r
  $ grep -c ^datagram r
  133
  $ grep '^datagram 0 ' r | cut -c 1-150
  datagram 0 step 0 from m1 to s1 00004101000000000000000100010000000100000001000000000000000000010001000200000000000000007fff00070007000700070007000700
  $ grep '^datagram 1 ' r | cut -c 1-80
  datagram 1 step 0 from m1 to s1 000041020000000000070007000700070007000700070007
  $ grep '^datagram 10 ' r | cut -c 1-80
  datagram 10 step 0 from m1 to s1 0000410b000000000007000700070007000700070007000
  $ grep '^datagram 63 ' r | cut -c 1-80
  datagram 63 step 0 from m1 to s1 00004140000000000007000700070007000700070007000
  $ grep '^datagram 64 ' r
  datagram 64 step 0 from m1 to s1 0000414100000000000700070007000700070007000700070007000700070007000700070007000700070007
  $ grep '^datagram 65 ' r
  datagram 65 step 1 from s1 to m1 0001410000000000
  $ grep '^datagram 127 ' r
  datagram 127 step 63 from s1 to m1 0001410000000000
  $ grep '^datagram 128 ' r | cut -c 1-150
  datagram 128 step 65 from m1 to s1 00024101000000000000000100010000000100000001000000000000000000010001000200000000000000007fff00070007000700070007000
  $ grep '^datagram 129 ' r
  datagram 129 step 66 from s1 to m1 0001410a00000000
  $ grep '^datagram 130 ' r | cut -c 1-80
  datagram 130 step 68 from m1 to s1 0002410b0000000000070007000700070007000700070
  $ grep '^datagram 131 ' r
  datagram 131 step 69 from s1 to m1 0001414100000000
  $ grep '^datagram 132 ' r
  datagram 132 step 69 from s1 to m1 010001010000000000000002000000010000000000007fff
  $ sed -n '/^ringmaster/,$p' r | cut -c 1-90
  ringmaster ring live
  view Store 1 s1=0
  view Main 1 m1=0
  member s1 Store live from 0 at 0 count 1
  run 0 step 69 path Main.0 procedure 1 clock 1,0 arguments [{7, 7, 7, 7, 7, 7, 7, 7, 7, 7, 
  end 0 step 69 clock 1,0 returned [32767] state []
  now idle state []
  member m1 Main live from 0 at 0 count 0
  run 0 step 0 path Main procedure 0 clock 0,0 arguments []
  ask 0 step 0 to Store index 0 procedure 1 arguments [{7, 7, 7, 7, 7, 7, 7, 7, 7, 7, 7, 7, 
  now waiting ask 0 state []

As many segments in format 2, in their order.

  $ { seq 0 64 | sed 's/^/deliver /'; } >s
  $ circus replay room_32768_2.circus s >r
  $ grep -c ^datagram r
  67
  $ grep '^datagram 0 ' r | cut -c 1-150
  datagram 0 step 0 from m1 to s1 0200004100010000000000000001000100000001000000010000000000000000000100010002000000000000000080000007000700070007000700
  $ grep '^datagram 64 ' r
  datagram 64 step 0 from m1 to s1 020000410041000000000007000700070007000700070007000700070007000700070007000700070007000700070007
  $ grep '^datagram 65 ' r
  datagram 65 step 65 from s1 to m1 02010041004100000000
  $ grep '^datagram 66 ' r
  datagram 66 step 65 from s1 to m1 0300000100010000000000000002000000010000000000008000
  $ sed -n '/^ringmaster/,$p' r | cut -c 1-90
  ringmaster ring live
  view Store 1 s1=0
  view Main 1 m1=0
  member s1 Store live from 0 at 0 count 1
  run 0 step 65 path Main.0 procedure 1 clock 1,0 arguments [{7, 7, 7, 7, 7, 7, 7, 7, 7, 7, 
  end 0 step 65 clock 1,0 returned [32768] state []
  now idle state []
  member m1 Main live from 0 at 0 count 0
  run 0 step 0 path Main procedure 0 clock 0,0 arguments []
  ask 0 step 0 to Store index 0 procedure 1 arguments [{7, 7, 7, 7, 7, 7, 7, 7, 7, 7, 7, 7, 
  now waiting ask 0 state []

The longest argument.

  $ { seq 0 1024 | sed 's/^/deliver /'; } >s
  $ circus replay block_8.circus s >r
  $ grep -c ^datagram r
  1027
  $ grep '^datagram 0 ' r | cut -c 1-150
  datagram 0 step 0 from m1 to s1 02000401000100000000000000010001000000010000000100000000000000000001000100020000000000000000ffff0007000700070007000700
  $ grep '^datagram 1023 ' r | cut -c 1-80
  datagram 1023 step 0 from m1 to s1 020004010400000000000007000700070007000700070
  $ grep '^datagram 1024 ' r
  datagram 1024 step 0 from m1 to s1 02000401040100000000000700070007000700070007000700070007000700070007000700070007000700070007
  $ grep '^datagram 1025 ' r
  datagram 1025 step 1025 from s1 to m1 02010401040100000000
  $ grep '^datagram 1026 ' r
  datagram 1026 step 1025 from s1 to m1 030000010001000000000000000200000001000000000000
  $ sed -n '/^ringmaster/,$p' r | cut -c 1-90
  ringmaster ring live
  view Store 1 s1=0
  view Main 1 m1=0
  member s1 Store live from 0 at 0 count 1
  run 0 step 1025 path Main.0 procedure 1 clock 1,0 arguments [{{7, 7, 7, 7, 7, 7, 7, 7, 7, 
  end 0 step 1025 clock 1,0 returned [] state []
  now idle state []
  member m1 Main live from 0 at 0 count 0
  run 0 step 0 path Main procedure 0 clock 0,0 arguments []
  ask 0 step 0 to Store index 0 procedure 1 arguments [{{7, 7, 7, 7, 7, 7, 7, 7, 7, 7, 7, 7,
  now waiting ask 0 state []

Each second segment of it is lost. A tick sends the first of these again, and its acknowledgement says up to where nothing is missing then.

  $ { seq 0 2 1024 | sed 's/^/deliver /'; echo tick m1; echo deliver 1537; echo deliver 1538; echo tick m1; echo deliver 1539; } >s
  $ circus replay block_8.circus s | sed -n '/^datagram 102[5-7] /p; /^datagram 153[6-9] /p; /^datagram 1540 /p' | cut -c 1-80
  datagram 1025 step 2 from s1 to m1 02010401000100000000
  datagram 1026 step 3 from s1 to m1 02010401000100000000
  datagram 1027 step 4 from s1 to m1 02010401000100000000
  datagram 1536 step 513 from s1 to m1 02010401000100000000
  datagram 1537 step 514 from m1 to s1 0202040100010000000000000001000100000001000
  datagram 1538 step 515 from s1 to m1 02010401000100000000
  datagram 1539 step 517 from m1 to s1 0202040100020000000000070007000700070007000
  datagram 1540 step 518 from s1 to m1 02010401000300000000

Calls wait while 64 to a node are on their way. Of two servers the second one has crashed.

  $ sed 's/MAIN BEGIN/MAIN VAR i: CARDINAL; BEGIN/; s/MEMBERS s1 PORT 9001/&, s2 PORT 9003/
  >     s/CALL Counter.Add \[5\] INTO \[got\];/WHILE i < 70 DO CALL Counter.Add [1] INTO [got]; i := i + 1; END;/' first.circus >seventy.circus
  $ { echo crash s2; seq 0 343 | sed 's/^/deliver /'; } >s
  $ circus replay seventy.circus s >r
  $ tail -n 4 r
  ask 69 step 340 to Counter index 69 procedure 1 arguments [1] state [69]
  reply 69 step 344 clock 70,0 returned [70]
  end 0 step 344 clock 70,0 returned [] state [70]
  now idle state [70]
  $ grep -c 'from m1 to s1 0000' r
  70
  $ grep -c 'from m1 to s2 0000' r
  64
  $ grep 'from m1 to s2 0000' r | tail -n 1
  datagram 316 step 315 from m1 to s2 000001010000003f000000010001003f00010000000100000000000000000001000100020000003f000000000001
