Placings: the best choices of machines, and texts that are refused.

  $ . "$TESTDIR/cases.sh"

# Choices

The machines of examples/first.place, and what is asked for.

  $ circus place "$TESTDIR/../examples/first.place"
  circus place 1
  member 1 b
  member 2 d
  kept 1
Two sites, with two machines each.

  $ of() { { cat "$TESTDIR/frames/sites.place"; echo "$1"; } >f; circus place f; }
  $ of 'MEMBERS 2 WHERE ALL DIFFER site AND 1.cores >= 4 AND 2.cores >= 4; PRESENT b, c;'
  circus place 1
  member 1 b
  member 2 d
  kept 1
  $ of 'MEMBERS 2 WHERE ALL DIFFER site AND 1.cores >= 4 AND 2.cores >= 9; PRESENT b, c;'
  no placement
  [12]
  $ of 'MEMBERS 1 WHERE TRUE;'
  circus place 1
  member 1 a
  kept 0
  $ of 'MEMBERS 1 WHERE TRUE; PRESENT c;'
  circus place 1
  member 1 c
  kept 1
  $ of 'MEMBERS 2 WHERE TRUE;'
  circus place 1
  member 1 a
  member 2 b
  kept 0
  $ of 'MEMBERS 2 WHERE TRUE; PRESENT d;'
  circus place 1
  member 1 a
  member 2 d
  kept 1
  $ of 'MEMBERS 2 WHERE TRUE; PRESENT d, c;'
  circus place 1
  member 1 c
  member 2 d
  kept 2
  $ of 'MEMBERS 2 WHERE FALSE;'
  no placement
  [12]
  $ of 'MEMBERS 5 WHERE TRUE;'
  no placement
  [12]
  $ of 'MEMBERS 4 WHERE TRUE;'
  circus place 1
  member 1 a
  member 2 b
  member 3 c
  member 4 d
  kept 0
  $ of 'MEMBERS 1 WHERE 1.cores > 4;'
  circus place 1
  member 1 b
  kept 0
  $ of 'MEMBERS 1 WHERE 1.cores < 4;'
  circus place 1
  member 1 c
  kept 0
  $ of 'MEMBERS 1 WHERE 1.cores <= 2;'
  circus place 1
  member 1 c
  kept 0
  $ of 'MEMBERS 1 WHERE 1.cores >= 8; PRESENT d;'
  circus place 1
  member 1 d
  kept 1
  $ of 'MEMBERS 1 WHERE 1.cores = 8;'
  circus place 1
  member 1 b
  kept 0
  $ of 'MEMBERS 1 WHERE 1.cores <> 4;'
  circus place 1
  member 1 b
  kept 0
  $ of 'MEMBERS 1 WHERE 1.site = "s";'
  circus place 1
  member 1 c
  kept 0
  $ of 'MEMBERS 1 WHERE 1.site <> "n";'
  circus place 1
  member 1 c
  kept 0
  $ of 'MEMBERS 1 WHERE 1.site <> 1;'
  no placement
  [12]
  $ of 'MEMBERS 1 WHERE NOT 1.site <> 1;'
  circus place 1
  member 1 a
  kept 0
  $ of 'MEMBERS 1 WHERE 1.site < "z";'
  no placement
  [12]
  $ of 'MEMBERS 1 WHERE 1.disk = 1.disk;'
  no placement
  [12]
  $ of 'MEMBERS 1 WHERE 1.cores;'
  no placement
  [12]
  $ of 'MEMBERS 2 WHERE 1.cores = 2.cores;'
  circus place 1
  member 1 b
  member 2 d
  kept 0
  $ of 'MEMBERS 2 WHERE 1.cores < 2.cores;'
  circus place 1
  member 1 a
  member 2 b
  kept 0
  $ of 'MEMBERS 2 WHERE 1.cores > 2.cores; PRESENT c;'
  circus place 1
  member 1 a
  member 2 c
  kept 1
  $ of 'MEMBERS 3 WHERE ALL DIFFER cores;'
  circus place 1
  member 1 a
  member 2 b
  member 3 c
  kept 0
  $ of 'MEMBERS 3 WHERE ALL DIFFER site;'
  no placement
  [12]
  $ of 'MEMBERS 1 WHERE ALL DIFFER disk;'
  no placement
  [12]
  $ of 'MEMBERS 2 WHERE 1.cores = 2 OR 2.cores = 2;'
  circus place 1
  member 1 a
  member 2 c
  kept 0
  $ of 'MEMBERS 2 WHERE 1.cores = 2 OR 2.cores = 2 AND 1.site = "s";'
  circus place 1
  member 1 c
  member 2 a
  kept 0
  $ of 'MEMBERS 2 WHERE (1.cores = 2 OR 2.cores = 2) AND 1.site = "s"; PRESENT d;'
  circus place 1
  member 1 c
  member 2 d
  kept 1
  $ of 'MEMBERS 2 WHERE 01.cores = 8;'
  circus place 1
  member 1 b
  member 2 a
  kept 0

Attributes of three kinds, and a machine without any.

  $ of() { { cat "$TESTDIR/frames/kinds.place"; echo "$1"; } >f; circus place f; }
  $ of 'MEMBERS 1 WHERE 1.x;'
  circus place 1
  member 1 b
  kept 0
  $ of 'MEMBERS 1 WHERE NOT 1.x; PRESENT d;'
  circus place 1
  member 1 d
  kept 1
  $ of 'MEMBERS 2 WHERE ALL DIFFER x;'
  circus place 1
  member 1 a
  member 2 b
  kept 0
  $ of 'MEMBERS 4 WHERE ALL DIFFER x;'
  no placement
  [12]
  $ of 'MEMBERS 2 WHERE 1.x <> 2.x;'
  no placement
  [12]
  $ of 'MEMBERS 1 WHERE 1.x = "1";'
  circus place 1
  member 1 c
  kept 0
  $ of 'MEMBERS 1 WHERE TRUE = 1.x;'
  circus place 1
  member 1 b
  kept 0
  $ of 'MEMBERS 2 WHERE TRUE; PRESENT a, b, c, d;'
  circus place 1
  member 1 a
  member 2 b
  kept 2

Whole placings.

  $ placed 'PLACE 1;\nMACHINE a [site = "n", cores = 4];\nMACHINE b [site = "n", cores = 8];\nMACHINE c [site = "s", cores = 2];\nMACHINE d [site = "s", cores = 8];\nMEMBERS 2 WHERE ALL DIFFER site AND 1.cores >= 4;\nPRESENT b, c;\n'
  circus place 1
  member 1 b
  member 2 c
  kept 2
  $ placed 'PLACE 1; MACHINE a []; MEMBERS 1 WHERE NOT 1.disk;'
  circus place 1
  member 1 a
  kept 0
  $ placed 'PLACE 1;\nMACHINE a [site = "n", cores = 4];\nMACHINE b [site = "n", cores = 8];\nMACHINE c [site = "s", cores = 2];\nMACHINE d [site = "s", cores = 8];\nMEMBERS 2 WHERE ALL DIFFER site AND 1.cores >= 4 AND 2.cores >= 9;\nPRESENT b, c;\n'
  no placement
  [12]
  $ placed 'PLACE 1; MACHINE a []; MEMBERS 2 WHERE TRUE;'
  no placement
  [12]
  $ placed 'PLACE 1; MEMBERS 1 WHERE TRUE;'
  no placement
  [12]

# Refusals

  $ placed 'PLACE 1;\nMACHINE a [site = "n", cores = 4];\nMACHINE b [site = "n", cores = 8];\nMACHINE c [site = "s", cores = 2];\nMACHINE d [site = "s", cores = 8];\nMEMBERS 2 WHERE ALL DIFFER site AND 1.cores >= 4 AND 2.cores >= 4;\nPRESENT e;\n'
  place line 7: unknown name
  [11]
  $ placed 'PLACE 2;\n@'
  place line 2: bad character
  [11]
  $ placed 'PLACE 1;\nMACHINE a [x = "n];\n'
  place line 2: open string
  [11]
  $ placed 'PLACE 1;\n\nMEMBERS 9223372036854775808 WHERE TRUE;'
  place line 3: long number
  [11]
  $ placed ''
  place line 1: syntax
  [11]
  $ placed 'PLACE 1;\nMEMBERS 1 WHERE;'
  place line 2: syntax
  [11]
  $ placed 'PLACE 1;\nMEMBERS 1 WHERE\n(((((((((((((((((((((((((((((((((((((((((((((((((((((((((((((((((TRUE\n'
  place line 3: nested too deep
  [11]
  $ placed 'PLACE 1;\nMACHINE a [];\nMACHINE a [];\nMEMBERS 1 WHERE TRUE;'
  place line 3: repeated name
  [11]
  $ placed 'PLACE 1;\nMEMBERS 6 WHERE TRUE;'
  place line 2: out of range
  [11]
  $ placed 'PLACE 1;\nMACHINE a []; MACHINE b []; MACHINE c []; MACHINE d []; MACHINE e []; MACHINE f []; MACHINE g []; MACHINE h [];\nMACHINE i []; MACHINE j []; MACHINE k []; MACHINE l []; MACHINE m []; MACHINE n []; MACHINE o []; MACHINE p [];\nMACHINE q []; MACHINE r []; MACHINE s []; MACHINE t []; MACHINE u []; MACHINE v []; MACHINE w []; MACHINE x [];\nMACHINE y [];\nMEMBERS 1 WHERE TRUE;\n'
  place line 5: too many
  [11]
  $ placed 'PLACE 01;'
  place line 1: syntax
  [11]
  $ placed 'PLACE 2;'
  place line 1: syntax
  [11]
  $ placed 'place 1;'
  place line 1: syntax
  [11]
  $ placed 'PLACE 1;'
  place line 1: syntax
  [11]
  $ placed 'PLACE 1;\n'
  place line 2: syntax
  [11]
  $ placed 'PLACE 1;\nMEMBERS 1 WHERE TRUE'
  place line 2: syntax
  [11]
  $ placed 'PLACE 1;\nMEMBERS WHERE TRUE;'
  place line 2: syntax
  [11]
  $ placed 'PLACE 1;\nMEMBERS 1\nTRUE;'
  place line 3: syntax
  [11]
  $ placed 'PLACE 1;\nMACHINE a;\n'
  place line 2: syntax
  [11]
  $ placed 'PLACE 1;\nMACHINE a [x];\n'
  place line 2: syntax
  [11]
  $ placed 'PLACE 1;\nMACHINE a [x = y];\n'
  place line 2: syntax
  [11]
  $ placed 'PLACE 1;\nMACHINE a [x = 1,];\n'
  place line 2: syntax
  [11]
  $ placed 'PLACE 1;\nMACHINE NOT [];\n'
  place line 2: syntax
  [11]
  $ placed 'PLACE 1;\nMACHINE a [DIFFER = 1];\n'
  place line 2: syntax
  [11]
  $ placed 'PLACE 1;\nMEMBERS 1 WHERE 1.;\n'
  place line 2: syntax
  [11]
  $ placed 'PLACE 1;\nMEMBERS 1 WHERE 1.x = ;\n'
  place line 2: syntax
  [11]
  $ placed 'PLACE 1;\nMEMBERS 1 WHERE 1 = 2\n= 3;'
  place line 3: syntax
  [11]
  $ placed 'PLACE 1;\nMEMBERS 1 WHERE ALL site;'
  place line 2: syntax
  [11]
  $ placed 'PLACE 1;\nMEMBERS 1 WHERE ALL DIFFER 1;'
  place line 2: syntax
  [11]
  $ placed 'PLACE 1;\nMEMBERS 1 WHERE (TRUE\n;'
  place line 3: syntax
  [11]
  $ placed 'PLACE 1;\nMEMBERS 1 WHERE TRUE\n);'
  place line 3: syntax
  [11]
  $ placed 'PLACE 1;\nMEMBERS 1 WHERE TRUE AND\n;'
  place line 3: syntax
  [11]
  $ placed 'PLACE 1;\nMEMBERS 1 WHERE NOT;'
  place line 2: syntax
  [11]
  $ placed 'PLACE 1;\nMEMBERS 1 WHERE - 1 < 2;'
  place line 2: syntax
  [11]
  $ placed 'PLACE 1;\nMEMBERS 1 WHERE TRUE;\nPRESENT;'
  place line 3: syntax
  [11]
  $ placed 'PLACE 1;\nMACHINE a [];\nMEMBERS 1 WHERE TRUE;\nPRESENT a,;'
  place line 4: syntax
  [11]
  $ placed 'PLACE 1;\nMACHINE a [];\nMEMBERS 1 WHERE TRUE;\nPRESENT a'
  place line 4: syntax
  [11]
  $ placed 'PLACE 1;\nMEMBERS 1 WHERE TRUE;\nMACHINE a [];'
  place line 3: syntax
  [11]
  $ placed 'PLACE 1;\nMACHINE a []\nMEMBERS 7 WHERE TRUE;'
  place line 3: syntax
  [11]
  $ placed 'PLACE 1;\n@'
  place line 2: bad character
  [11]
  $ placed 'PLACE 1;\nMEMBERS 9223372036854775808 WHERE TRUE;'
  place line 2: long number
  [11]
  $ placed 'PLACE 1;\nMACHINE a [];\nMEMBERS 1 WHERE TRUE;\nPRESENT e;'
  place line 4: unknown name
  [11]
  $ placed 'PLACE 1;\nMACHINE a [];\nMEMBERS 1 WHERE TRUE;\nPRESENT a,\ne, e;'
  place line 5: unknown name
  [11]
  $ placed 'PLACE 1;\nMACHINE a [x = 1,\nx = 2];\nMEMBERS 1 WHERE TRUE;'
  place line 3: repeated name
  [11]
  $ placed 'PLACE 1;\nMACHINE a [];\nMEMBERS 1 WHERE TRUE;\nPRESENT a,\na;'
  place line 5: repeated name
  [11]
  $ placed 'PLACE 1;\nMACHINE a [];\nMACHINE a []\nMEMBERS 1 WHERE TRUE;'
  place line 3: repeated name
  [11]
  $ placed 'PLACE 1;\nMEMBERS 0 WHERE TRUE;'
  place line 2: out of range
  [11]
  $ placed 'PLACE 1;\nMEMBERS 1 WHERE\n0.x;'
  place line 3: out of range
  [11]
  $ placed 'PLACE 1;\nMEMBERS 1 WHERE\n2.x;'
  place line 3: out of range
  [11]
  $ placed 'PLACE 1;\nMEMBERS 2 WHERE 2.x AND NOT (1.x <\n3.x);'
  place line 3: out of range
  [11]
  $ placed 'PLACE 1;\nMEMBERS 9 WHERE TRUE;\nPRESENT e;'
  place line 2: out of range
  [11]

Levels.

  $ levels() { printf 'PLACE 1;\nMACHINE a [];\nMEMBERS 1 WHERE %b;' "$(printf "%$1s" '' | sed "s/ /$2/g")TRUE" >f; circus place f; }
  $ levels 64 'NOT '
  circus place 1
  member 1 a
  kept 0
  $ levels 65 'NOT '
  place line 3: nested too deep
  [11]
  $ levels 65 'TRUE AND\\n'
  circus place 1
  member 1 a
  kept 0
  $ levels 66 'TRUE AND\\n'
  place line 68: nested too deep
  [11]

As many machines as there may be, and one more.

  $ machines() { { echo 'PLACE 1;'; for n in $(seq $1); do echo "MACHINE m$n [];"; done; echo 'MEMBERS 1 WHERE TRUE;'; } >f; circus place f; }
  $ machines 24
  circus place 1
  member 1 m1
  kept 0
  $ machines 25
  place line 26: too many
  [11]

As many bytes, and one more.

  $ { printf 'PLACE 1; MEMBERS 1 WHERE TRUE;'; head -c 1048546 /dev/zero | tr '\0' '\n'; } >f; circus place f
  no placement
  [12]
  $ printf ' ' >>f; circus place f
  place line 1: too large
  [11]
  $ { printf 'PLACE 2;'; head -c 1048576 /dev/zero | tr '\0' '\n'; } >f; circus place f
  place line 1: too large
  [11]
