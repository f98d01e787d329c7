How calls are marshalled, a line for each list of values.

  $ . "$TESTDIR/cases.sh"
  $ cp "$TESTDIR"/programs/*.circus "$TESTDIR"/../examples/*.circus .

  $ circus stubs first.circus
  circus stubs 1
  interface Count 1 version 1
  procedure Add 1
  call cardinal
  return cardinal

  $ circus stubs shop.circus
  circus stubs 1
  interface Stock 1 version 1
  error Empty 1 cardinal
  procedure Add 1
  call cardinal
  return cardinal
  procedure Take 2
  call cardinal
  return cardinal
  reports 1

  $ circus stubs bank.circus
  circus stubs 1
  interface Books 10 version 1
  error Short 1 long-cardinal
  procedure Move 1
  call cardinal cardinal long-cardinal
  return long-cardinal
  reports 1
  interface Desk 11 version 1
  procedure Pay 1
  call cardinal cardinal long-cardinal
  return boolean

  $ circus stubs shapes.circus
  circus stubs 1
  interface Spare 6 version 3
  error Full 1
  error Wrong 2 long-integer string
  procedure Put 1
  call record 3 ( enumeration ( 0 5 ) array 2 ( integer ) string )
  return boolean
  reports 1 2
  procedure Find 2
  call enumeration ( 0 5 )
  return choice 2 ( arm 0 ( record 0 ( ) ) arm 4 ( sequence 3 ( record 3 ( enumeration ( 0 5 ) array 2 ( integer ) string ) ) ) ) long-cardinal
  procedure Clear 7
  call
  return
  interface Rest 7 version 1
  procedure Sleep 1
  call
  return

A program that breaks off.

  $ head -n 17 first.circus >p; echo '    CALL Counter.Add [5] INTO [gone];' >>p; circus stubs p
  program line 19: syntax
  [2]
