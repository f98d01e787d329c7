Samples: a program, a seed and a number of lines, and the summary.

  $ . "$TESTDIR/cases.sh"
  $ cp "$TESTDIR"/programs/*.circus "$TESTDIR"/../examples/*.circus .

  $ circus sample first.circus 1 1
  circus sample 1
  lines 1
  sent 3
  member s1 count 1
  member m1 count 0
  $ circus sample first.circus 1 0
  circus sample 1
  lines 0
  sent 1
  member s1 count 0
  member m1 count 0
  $ circus sample first.circus 1 60
  circus sample 1
  lines 60
  sent 4
  member s1 count 1
  member m1 count 1
  $ circus sample first.circus 18446744073709551615 40
  circus sample 1
  lines 40
  sent 9
  member s1 count 1
  member m1 count 1
  $ circus sample two_calls.circus 7 400
  circus sample 1
  lines 400
  sent 63
  member s1 count 2
  member s2 count 2
  member m1 count 1
  $ circus sample two_calls.circus 64 120
  circus sample 1
  lines 120
  sent 26
  member s1 count 2
  member s2 count 2
  member m1 count 1
  $ circus sample one_step.circus 3 300
  circus sample 1
  lines 300
  sent 31
  member m1 count 1
  member a1 count 1
  member r1 count 1
  $ circus sample two_steps.circus 11 20000
  circus sample 1
  lines 20000
  sent 70
  member m1 count 2
  member m2 count 2
  member a1 count 1
  member b1 count 1
  member r1 count 1

A seed draws one sample.

  $ circus sample bank.circus 5 20000 >one; circus sample bank.circus 5 20000 >other; cmp one other
  $ head -n 2 one
  circus sample 1
  lines 20000

A program is refused.

  $ file 'CIRCUS 1;\n' >/dev/null; circus sample p 5 20000
  program line 2: syntax
  [2]
