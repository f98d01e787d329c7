The lines of a sample, as a schedule.

  $ . "$TESTDIR/cases.sh"
  $ cp "$TESTDIR"/programs/*.circus "$TESTDIR"/../examples/*.circus .

The lines that are drawn and stepped, each with its newline, and nothing else.

  $ circus lines first.circus 1 1
  deliver 0
  $ circus lines first.circus 1 0
  $ circus lines first.circus 18446744073709551615 5
  deliver 0
  deliver 1
  deliver 1
  tick ring
  tick ring

A replay under them is accepted, and has the members that the sample counts.

  $ replayed() {
  >   circus lines "$1" "$2" "$3" >drawn || return
  >   circus replay "$1" drawn >report || return
  >   sed -n 's/^member \([^ ]*\) [^ ]* live from .* count \(.*\)$/member \1 count \2/p' report >reported
  >   circus sample "$1" "$2" "$3" | grep '^member' >counted
  >   cmp reported counted && wc -l <drawn
  > }
  $ replayed first.circus 1 60
  60
  $ replayed two_calls.circus 7 400
  400
  $ replayed two_steps.circus 11 20000
  20000
  $ replayed join.circus 7 400
  400
  $ grep join drawn
  join s2
  $ replayed bank.circus 5 2000
  2000

As many datagrams are reported as the sample says.

  $ grep -c ^datagram report
  1477
  $ circus sample bank.circus 5 2000 | grep ^sent
  sent 1477

A shorter beginning is a schedule too: the first lines are those of fewer steps.

  $ head -n 300 drawn >front; circus lines bank.circus 5 300 | cmp - front

SEED and STEPS have the ranges of a sample.

  $ circus lines first.circus 1
  circus: bad command line
  [1]
  $ circus lines first.circus 18446744073709551616 1
  circus: bad command line
  [1]
  $ circus lines first.circus 01 1
  circus: bad command line
  [1]
  $ circus lines first.circus 1 200001
  circus: bad command line
  [1]
  $ circus lines first.circus 1 1 1
  circus: bad command line
  [1]
  $ circus lines '' 1 1
  circus: bad command line
  [1]

A program that is refused, and a file that is not there.

  $ file 'CIRCUS 1;\n' >/dev/null; circus lines p 5 20000
  program line 2: syntax
  [2]
  $ circus lines absent 18446744073709551615 200000
  shelf fault: absent
  [4]

A standard output that takes nothing, one that is closed, and a reader that has had enough.

  $ circus lines first.circus 1 1 >/dev/full
  [5]
  $ circus lines first.circus 1 1 >&-
  [5]
  $ { circus lines first.circus 1 10000; echo $? >status; } | head -n 1
  deliver 0
  $ sleep 1; cat status
  5
