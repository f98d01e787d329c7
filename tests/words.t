Words of no form. No file is fetched for them.

  $ circus
  circus: bad command line
  [1]
  $ circus ''
  circus: bad command line
  [1]
  $ circus --help
  circus: bad command line
  [1]
  $ circus run
  circus: bad command line
  [1]
  $ circus run ''
  circus: bad command line
  [1]
  $ circus Run p
  circus: bad command line
  [1]
  $ circus replay p
  circus: bad command line
  [1]
  $ circus replay p ''
  circus: bad command line
  [1]
  $ circus replay p s t
  circus: bad command line
  [1]
  $ circus node p m1 007
  circus: bad command line
  [1]
  $ circus node p m1 100001
  circus: bad command line
  [1]
  $ circus node p m1 +7
  circus: bad command line
  [1]
  $ circus sample p 18446744073709551616 200000
  circus: bad command line
  [1]
  $ circus settle p 1000001
  circus: bad command line
  [1]
  $ circus settle p ''
  circus: bad command line
  [1]
  $ circus place
  circus: bad command line
  [1]
  $ circus place ''
  circus: bad command line
  [1]
  $ circus place f g
  circus: bad command line
  [1]
  $ circus run p q r s
  circus: bad command line
  [1]
  $ circus stubs ''
  circus: bad command line
  [1]
  $ circus audit p
  circus: bad command line
  [1]
  $ circus audit p r r
  circus: bad command line
  [1]
  $ circus audit p ''
  circus: bad command line
  [1]
  $ circus --version
  circus: bad command line
  [1]

A word that is no UTF-8 text stands in no form.

  $ circus run "$(printf '\377')"
  circus: bad command line
  [1]

Words of a form, whose file is not there: the first file that is named is fetched first.

  $ circus stubs absent
  shelf fault: absent
  [4]
  $ circus run absent
  shelf fault: absent
  [4]
  $ circus replay absent s
  shelf fault: absent
  [4]
  $ circus node absent m1 100000
  shelf fault: absent
  [4]
  $ circus node absent m1 0
  shelf fault: absent
  [4]
  $ circus sample absent 18446744073709551615 200000
  shelf fault: absent
  [4]
  $ circus sample absent 0 0
  shelf fault: absent
  [4]
  $ circus settle absent 0
  shelf fault: absent
  [4]
  $ circus settle absent 1000000
  shelf fault: absent
  [4]
  $ circus place absent
  shelf fault: absent
  [4]
  $ circus audit absent r
  shelf fault: absent
  [4]

A schedule, or a record, that is not there is reported once the program is read.

  $ cp "$TESTDIR/../examples/first.circus" p; circus replay p absent
  shelf fault: absent
  [4]
  $ circus audit p absent
  shelf fault: absent
  [4]
  $ printf CIRCUS >p; circus replay p absent
  program line 1: syntax
  [2]
  $ circus audit p absent
  program line 1: syntax
  [2]

The answer of words of no form, and of a refusal, goes to the standard output.

  $ circus run 2>/dev/null
  circus: bad command line
  [1]
  $ circus run p 2>/dev/null
  program line 1: syntax
  [2]
