Where the text of a program goes on as none does. In each case the `@` is a newline in front of the word that
is not expected. A text that is read may break a rule of modules, which is then named in place of `syntax`.

  $ . "$TESTDIR/cases.sh"

# Modules and roots

HERE is on line 2, in front of the Ringmaster.

  $ frame parts

  $ with 'MODULE M IMPLEMENTS I; BEGIN END.'
  program line 2: unknown name
  [2]
  $ with 'MODULE M IMPLEMENTS I IMPORTS A, B; BEGIN VAR v: CARDINAL; PROCEDURE P BEGIN END; END.'
  program line 2: unknown name
  [2]
  $ with 'MODULE M IMPLEMENTS I; BEGIN PROCEDURE P BEGIN END; PROCEDURE Q VAR a: T; VAR b: T; BEGIN RETURN []; END; END.'
  program line 2: unknown name
  [2]
  $ with 'MODULE M IMPLEMENTS I; BEGIN VAR a: BOOLEAN; VAR b: LONG CARDINAL; VAR c: INTEGER; VAR d: LONG INTEGER; VAR e: STRING; END.'
  program line 2: unknown name
  [2]
  $ with 'MODULE M IMPLEMENTS I; BEGIN VAR a: {x(0), y(1)}; VAR b: ARRAY 2 OF T; VAR c: SEQUENCE OF T; VAR d: SEQUENCE 3 OF M.T; END.'
  program line 2: unknown name
  [2]
  $ with 'MODULE M IMPLEMENTS I; BEGIN VAR a: RECORD [a, b: T, c: STRING]; VAR b: RECORD []; VAR c: CHOICE OF {a(1) => T, b(2) => RECORD []}; END.'
  program line 2: unknown name
  [2]
  $ with 'ROOT R; BEGIN MAIN BEGIN END; END.'
  program line 2: no return
  [2]
  $ with 'ROOT R IMPORTS M; BEGIN VAR a: STRING; VAR b: M.T; MAIN VAR c: T; BEGIN RETURN []; END; END.'
  program line 2: unknown name
  [2]
  $ with 'M @IMPLEMENTS I; BEGIN END.'
  program line 3: syntax
  [2]
  $ with 'MODULE @MODULE IMPLEMENTS I; BEGIN END.'
  program line 3: syntax
  [2]
  $ with 'MODULE M@; BEGIN END.'
  program line 3: syntax
  [2]
  $ with 'MODULE M IMPLEMENTS @; BEGIN END.'
  program line 3: syntax
  [2]
  $ with 'MODULE M IMPLEMENTS I @IMPLEMENTS J; BEGIN END.'
  program line 3: syntax
  [2]
  $ with 'MODULE M IMPLEMENTS I IMPORTS @; BEGIN END.'
  program line 3: syntax
  [2]
  $ with 'MODULE M IMPLEMENTS I IMPORTS A, @; BEGIN END.'
  program line 3: syntax
  [2]
  $ with 'MODULE M IMPLEMENTS I IMPORTS A @B; BEGIN END.'
  program line 3: syntax
  [2]
  $ with 'MODULE M IMPLEMENTS I @BEGIN END.'
  program line 3: syntax
  [2]
  $ with 'MODULE M IMPLEMENTS I; @VAR v: T; BEGIN END.'
  program line 3: syntax
  [2]
  $ with 'MODULE M IMPLEMENTS I; BEGIN VAR @: T; END.'
  program line 3: syntax
  [2]
  $ with 'MODULE M IMPLEMENTS I; BEGIN VAR a@, b: T; END.'
  program line 3: syntax
  [2]
  $ with 'MODULE M IMPLEMENTS I; BEGIN VAR v @T; END.'
  program line 3: syntax
  [2]
  $ with 'MODULE M IMPLEMENTS I; BEGIN VAR v: @; END.'
  program line 3: syntax
  [2]
  $ with 'MODULE M IMPLEMENTS I; BEGIN VAR v: LONG @STRING; END.'
  program line 3: syntax
  [2]
  $ with 'MODULE M IMPLEMENTS I; BEGIN VAR v: T @END.'
  program line 3: syntax
  [2]
  $ with 'MODULE M IMPLEMENTS I; BEGIN VAR v: M.T@.U; END.'
  program line 3: syntax
  [2]
  $ with 'MODULE M IMPLEMENTS I; BEGIN PROCEDURE P BEGIN END; @VAR v: T; END.'
  program line 3: syntax
  [2]
  $ with 'MODULE M IMPLEMENTS I; BEGIN PROCEDURE @BEGIN END; END.'
  program line 3: syntax
  [2]
  $ with 'MODULE M IMPLEMENTS I; BEGIN PROCEDURE P @END; END.'
  program line 3: syntax
  [2]
  $ with 'MODULE M IMPLEMENTS I; BEGIN PROCEDURE P @[] BEGIN END; END.'
  program line 3: syntax
  [2]
  $ with 'MODULE M IMPLEMENTS I; BEGIN PROCEDURE P BEGIN END@. END.'
  program line 3: syntax
  [2]
  $ with 'MODULE M IMPLEMENTS I; BEGIN @MAIN BEGIN END; END.'
  program line 3: syntax
  [2]
  $ with 'MODULE M IMPLEMENTS I; BEGIN @x := 1; END.'
  program line 3: syntax
  [2]
  $ with 'MODULE M IMPLEMENTS I; BEGIN END@;'
  program line 3: syntax
  [2]
  $ with 'MODULE M IMPLEMENTS I; BEGIN END'
  program line 3: syntax
  [2]
  $ with 'MODULE M IMPLEMENTS I; BEGIN PROCEDURE P BEGIN x := '
  program line 3: syntax
  [2]
  $ with 'ROOT R @IMPLEMENTS I; BEGIN MAIN BEGIN END; END.'
  program line 3: syntax
  [2]
  $ with 'ROOT R; BEGIN @END.'
  program line 3: syntax
  [2]
  $ with 'ROOT R; BEGIN @PROCEDURE P BEGIN END; END.'
  program line 3: syntax
  [2]
  $ with 'ROOT R; BEGIN MAIN BEGIN END; @MAIN BEGIN END; END.'
  program line 3: syntax
  [2]
  $ with 'ROOT R; BEGIN MAIN @P BEGIN END; END.'
  program line 3: syntax
  [2]
  $ with 'ROOT R; BEGIN MAIN BEGIN @VAR a: T; END; END.'
  program line 3: syntax
  [2]

# Statements

HERE is on line 4, in a root.

  $ frame main

  $ with 'x := 1;'
  program line 4: unknown name
  [2]
  $ with 'x.a[1].b := y;'
  program line 4: unknown name
  [2]
  $ with 'IF a THEN END;'
  program line 4: unknown name
  [2]
  $ with 'IF a THEN x := 1; ELSE END;'
  program line 4: unknown name
  [2]
  $ with 'IF a THEN IF b THEN ELSE x := 1; END; ELSE y := 2; END;'
  program line 4: unknown name
  [2]
  $ with 'WHILE a DO END;'
  program line 4: unknown name
  [2]
  $ with 'WHILE a DO x := 1; WHILE b DO y := 2; END; END;'
  program line 4: unknown name
  [2]
  $ with 'APPEND 1 TO q;'
  program line 4: unknown name
  [2]
  $ with 'APPEND a.b TO r[1].q;'
  program line 4: unknown name
  [2]
  $ with 'CALL M.P [];'
  program line 4: unknown name
  [2]
  $ with 'CALL M.P [1, 2] INTO [];'
  program line 4: unknown name
  [2]
  $ with 'CALL M.P [] INTO [a, b.c[1]];'
  program line 4: unknown name
  [2]
  $ with 'CALL M.P [] ON E BEGIN END;'
  program line 4: unknown name
  [2]
  $ with 'CALL M.P [] INTO [a] ON E [] BEGIN END ON F [b, c] BEGIN x := 1; END ON OTHER BEGIN END;'
  program line 4: unknown name
  [2]
  $ with 'CALL M.P [] ON OTHER BEGIN END ON E BEGIN END;'
  program line 4: unknown name
  [2]
  $ with 'RETURN [];'
  circus history 1
  module R count 1
  run 0 path R procedure 0 clock 0 arguments []
  end 0 clock 0 returned [] state []
  $ with 'RETURN [a, 1 + 2];'
  program line 4: type mismatch
  [2]
  $ with 'RAISE E [];'
  program line 4: unknown name
  [2]
  $ with 'RAISE E [a, b];'
  program line 4: unknown name
  [2]
  $ with 'RETURN []; x := 1;'
  program line 4: unknown name
  [2]
  $ with 'x @= 1;'
  program line 5: syntax
  [2]
  $ with 'x := @;'
  program line 5: syntax
  [2]
  $ with 'x := 1 @y := 2;'
  program line 5: syntax
  [2]
  $ with '@1 := x;'
  program line 5: syntax
  [2]
  $ with 'x.@1 := 2;'
  program line 5: syntax
  [2]
  $ with 'x[@] := 1;'
  program line 5: syntax
  [2]
  $ with 'x[1@, 2] := 1;'
  program line 5: syntax
  [2]
  $ with 'x@#a := 1;'
  program line 5: syntax
  [2]
  $ with 'IF @THEN END;'
  program line 5: syntax
  [2]
  $ with 'IF a @END;'
  program line 5: syntax
  [2]
  $ with 'IF a THEN ELSE @ELSE END;'
  program line 5: syntax
  [2]
  $ with 'IF a THEN END @ELSE END;'
  program line 5: syntax
  [2]
  $ with 'IF a THEN @; END;'
  program line 5: syntax
  [2]
  $ with 'WHILE a @THEN END;'
  program line 5: syntax
  [2]
  $ with 'WHILE a DO @ELSE END;'
  program line 5: syntax
  [2]
  $ with 'WHILE @DO END;'
  program line 5: syntax
  [2]
  $ with 'APPEND @TO q;'
  program line 5: syntax
  [2]
  $ with 'APPEND 1 @INTO q;'
  program line 5: syntax
  [2]
  $ with 'APPEND 1 TO @1;'
  program line 5: syntax
  [2]
  $ with 'CALL @[];'
  program line 5: syntax
  [2]
  $ with 'CALL M@[];'
  program line 5: syntax
  [2]
  $ with 'CALL M.P@;'
  program line 5: syntax
  [2]
  $ with 'CALL M.P [1@;'
  program line 5: syntax
  [2]
  $ with 'CALL M.P [@, 1];'
  program line 5: syntax
  [2]
  $ with 'CALL M.P [1, @];'
  program line 5: syntax
  [2]
  $ with 'CALL M.P [] INTO @a;'
  program line 5: syntax
  [2]
  $ with 'CALL M.P [] INTO [@1];'
  program line 5: syntax
  [2]
  $ with 'CALL M.P [] INTO [a, @];'
  program line 5: syntax
  [2]
  $ with 'CALL M.P [] INTO [a] @INTO [b];'
  program line 5: syntax
  [2]
  $ with 'CALL M.P [] @BEGIN END;'
  program line 5: syntax
  [2]
  $ with 'CALL M.P [] ON @BEGIN END;'
  program line 5: syntax
  [2]
  $ with 'CALL M.P [] ON OTHER @[a] BEGIN END;'
  program line 5: syntax
  [2]
  $ with 'CALL M.P [] ON E [@1] BEGIN END;'
  program line 5: syntax
  [2]
  $ with 'CALL M.P [] ON E@;'
  program line 5: syntax
  [2]
  $ with 'CALL M.P [] ON E BEGIN @ON F BEGIN END;'
  program line 5: syntax
  [2]
  $ with 'CALL M.P [] ON E BEGIN END @INTO [a];'
  program line 5: syntax
  [2]
  $ with 'CALL M.P [] ON E BEGIN END @x := 1;'
  program line 5: syntax
  [2]
  $ with 'RETURN @;'
  program line 5: syntax
  [2]
  $ with 'RETURN @1;'
  program line 5: syntax
  [2]
  $ with 'RETURN [1] @RETURN [];'
  program line 5: syntax
  [2]
  $ with 'RAISE @[];'
  program line 5: syntax
  [2]
  $ with 'RAISE E@;'
  program line 5: syntax
  [2]
  $ with 'RAISE E@.F [];'
  program line 5: syntax
  [2]
  $ with '@ON E BEGIN END;'
  program line 5: syntax
  [2]
  $ with '@;'
  program line 5: syntax
  [2]

# Expressions

HERE is on line 4, behind an assignment to x, which nothing has: where the expression is read that is refused, on
line 3.

  $ frame assigned

  $ with '1'
  program line 3: unknown name
  [2]
  $ with '"a" & "b"'
  program line 3: unknown name
  [2]
  $ with 'TRUE'
  program line 3: unknown name
  [2]
  $ with 'FALSE'
  program line 3: unknown name
  [2]
  $ with '(1)'
  program line 3: unknown name
  [2]
  $ with 'LENGTH(q)'
  program line 3: unknown name
  [2]
  $ with 'NOT NOT a'
  program line 3: unknown name
  [2]
  $ with '- - 1'
  program line 3: unknown name
  [2]
  $ with 'a OR b AND NOT c'
  program line 3: unknown name
  [2]
  $ with 'a = b'
  program line 3: unknown name
  [2]
  $ with 'a <> 1 + 2'
  program line 3: unknown name
  [2]
  $ with 'a < b OR c >= d'
  program line 3: unknown name
  [2]
  $ with 'a <= b AND c > d'
  program line 3: unknown name
  [2]
  $ with 'a IS b'
  program line 3: unknown name
  [2]
  $ with '(a = b) = c'
  program line 3: unknown name
  [2]
  $ with 'T#a'
  program line 3: unknown name
  [2]
  $ with 'M.T#a'
  program line 3: unknown name
  [2]
  $ with 'T#a(1)'
  program line 3: unknown name
  [2]
  $ with 'M.T#a(T#b)'
  program line 3: unknown name
  [2]
  $ with 'T#[]'
  program line 3: unknown name
  [2]
  $ with 'T#[1, T#[2]]'
  program line 3: unknown name
  [2]
  $ with 'M.T#[1]'
  program line 3: unknown name
  [2]
  $ with 'a.b.c[1][2].d'
  program line 3: unknown name
  [2]
  $ with 'a * b DIV c MOD d - e'
  program line 3: unknown name
  [2]
  $ with 'NOT a = b'
  program line 3: unknown name
  [2]
  $ with 'a = b @= c'
  program line 5: syntax
  [2]
  $ with 'a IS @1'
  program line 5: syntax
  [2]
  $ with 'a IS b @= c'
  program line 5: syntax
  [2]
  $ with '1 @2'
  program line 5: syntax
  [2]
  $ with '(1 @]'
  program line 5: syntax
  [2]
  $ with '@)'
  program line 5: syntax
  [2]
  $ with '(@)'
  program line 5: syntax
  [2]
  $ with 'LENGTH @q'
  program line 5: syntax
  [2]
  $ with 'LENGTH(@)'
  program line 5: syntax
  [2]
  $ with 'LENGTH(q@, r)'
  program line 5: syntax
  [2]
  $ with 'a AND @OR b'
  program line 5: syntax
  [2]
  $ with '1 + '
  program line 5: syntax
  [2]
  $ with '1 + @NOT a'
  program line 5: syntax
  [2]
  $ with '- @NOT a'
  program line 5: syntax
  [2]
  $ with 'NOT '
  program line 5: syntax
  [2]
  $ with 'T#@1'
  program line 5: syntax
  [2]
  $ with 'T#a(@)'
  program line 5: syntax
  [2]
  $ with 'T#a(1@, 2)'
  program line 5: syntax
  [2]
  $ with 'T#[1 @2]'
  program line 5: syntax
  [2]
  $ with 'T#[1, @]'
  program line 5: syntax
  [2]
  $ with 'a.b.c@#d'
  program line 5: syntax
  [2]
  $ with 'a[1]@#b'
  program line 5: syntax
  [2]
  $ with 'a[@]'
  program line 5: syntax
  [2]
  $ with 'a[1@, 2]'
  program line 5: syntax
  [2]
  $ with 'a.@[1]'
  program line 5: syntax
  [2]
  $ with 'M.T#'
  program line 5: syntax
  [2]
  $ with 'a @:= 1'
  program line 5: syntax
  [2]
  $ with 'T#a(1)@.b'
  program line 5: syntax
  [2]
  $ with '1@.a'
  program line 5: syntax
  [2]
  $ with '(a)@.b'
  program line 5: syntax
  [2]
  $ with '(a)@[1]'
  program line 5: syntax
  [2]
  $ with '"a"@[1]'
  program line 5: syntax
  [2]
  $ with 'a @THEN'
  program line 5: syntax
  [2]
  $ with '@IF'
  program line 5: syntax
  [2]
  $ with '@* a'
  program line 5: syntax
  [2]

# Levels

At most 64 constructs are open at a place. Each case has a beginning, what is repeated, a middle, and what
closes each; a newline stands in what is repeated, in front of the word that opens the level, so that the line
of a refusal counts them.

  $ frame assigned

  $ nested 63 '' '\n(' '1' ')'
  program line 3: unknown name
  [2]
  $ nested 64 '' '\n(' '1' ')'
  program line 68: nested too deep
  [2]
  $ nested 63 '' '\nNOT ' 'a' ''
  program line 3: unknown name
  [2]
  $ nested 64 '' '\nNOT ' 'a' ''
  program line 68: nested too deep
  [2]
  $ nested 63 '' '\n- ' '1' ''
  program line 3: unknown name
  [2]
  $ nested 64 '' '\n- ' '1' ''
  program line 68: nested too deep
  [2]
  $ nested 31 '' 'LENGTH\n(' 'q' ')'
  program line 3: unknown name
  [2]
  $ nested 32 '' 'LENGTH\n(' 'q' ')'
  program line 36: nested too deep
  [2]
  $ nested 63 '' 'T#\n[' '1' ']'
  program line 3: unknown name
  [2]
  $ nested 64 '' 'T#\n[' '1' ']'
  program line 68: nested too deep
  [2]
  $ nested 63 '' 'T#a\n(' '1' ')'
  program line 3: unknown name
  [2]
  $ nested 64 '' 'T#a\n(' '1' ')'
  program line 68: nested too deep
  [2]
  $ nested 63 '' 'a\n[' '1' ']'
  program line 3: unknown name
  [2]
  $ nested 64 '' 'a\n[' '1' ']'
  program line 68: nested too deep
  [2]
  $ nested 64 'a' '\n.b' '' ''
  program line 3: unknown name
  [2]
  $ nested 65 'a' '\n.b' '' ''
  program line 69: nested too deep
  [2]
  $ nested 63 'a' '\n[1]' '' ''
  program line 3: unknown name
  [2]
  $ nested 64 'a' '\n[1]' '' ''
  program line 68: nested too deep
  [2]
  $ nested 64 '1' ' \n+ 1' '' ''
  program line 3: unknown name
  [2]
  $ nested 65 '1' ' \n+ 1' '' ''
  program line 69: nested too deep
  [2]
  $ nested 64 '1' ' \n* 1' '' ''
  program line 3: unknown name
  [2]
  $ nested 65 '1' ' \n* 1' '' ''
  program line 69: nested too deep
  [2]
  $ nested 64 'a' ' \nOR a' '' ''
  program line 3: unknown name
  [2]
  $ nested 65 'a' ' \nOR a' '' ''
  program line 69: nested too deep
  [2]
  $ nested 64 'a' ' \nAND a' '' ''
  program line 3: unknown name
  [2]
  $ nested 65 'a' ' \nAND a' '' ''
  program line 69: nested too deep
  [2]

  $ frame main

  $ nested 63 '' 'IF a \nTHEN ' '' 'END; '
  program line 4: unknown name
  [2]
  $ nested 64 '' 'IF a \nTHEN ' '' 'END; '
  program line 68: nested too deep
  [2]
  $ nested 63 '' 'IF a \nTHEN ELSE ' '' 'END; '
  program line 4: unknown name
  [2]
  $ nested 64 '' 'IF a \nTHEN ELSE ' '' 'END; '
  program line 68: nested too deep
  [2]
  $ nested 63 '' 'WHILE a \nDO ' '' 'END; '
  program line 4: unknown name
  [2]
  $ nested 64 '' 'WHILE a \nDO ' '' 'END; '
  program line 68: nested too deep
  [2]
  $ nested 63 '' 'CALL M.P \n[] ON OTHER BEGIN ' '' 'END; '
  program line 4: unknown name
  [2]
  $ nested 64 '' 'CALL M.P \n[] ON OTHER BEGIN ' '' 'END; '
  program line 68: nested too deep
  [2]

  $ frame typed

  $ nested 64 '' '\nARRAY 1 OF ' 'T' ''
  program line 68: unknown name
  [2]
  $ nested 65 '' '\nARRAY 1 OF ' 'T' ''
  program line 69: nested too deep
  [2]
  $ nested 64 '' '\nSEQUENCE OF ' 'T' ''
  program line 68: unknown name
  [2]
  $ nested 65 '' '\nSEQUENCE OF ' 'T' ''
  program line 69: nested too deep
  [2]
  $ nested 64 '' '\nRECORD [a: ' 'T' ']'
  program line 68: unknown name
  [2]
  $ nested 65 '' '\nRECORD [a: ' 'T' ']'
  program line 69: nested too deep
  [2]
  $ nested 64 '' '\nCHOICE OF {a(1) => ' 'T' '}'
  program line 68: unknown name
  [2]
  $ nested 65 '' '\nCHOICE OF {a(1) => ' 'T' '}'
  program line 69: nested too deep
  [2]

A word that is not expected comes before a level that is too deep.

  $ frame assigned
  $ nested 62 '' '(' 'LENGTH @[' ')'
  program line 5: syntax
  [2]

# Deployments

HERE is on line 2, and behind it is nothing.

  $ frame deployment

  $ with 'RINGMASTER r PORT 1;'
  circus history 1
  $ with 'RINGMASTER ring PORT 5000; TROUPE Bank CALLS MAJORITY REPLIES FIRST MEMBERS a PORT 1, b PORT 2, c PORT 3 SPARES d PORT 4;'
  program line 2: unknown name
  [2]
  $ with 'RINGMASTER r PORT 1; TROUPE T CALLS AT LEAST 2 REPLIES AT LEAST 3 MEMBERS a PORT 1;'
  program line 2: unknown name
  [2]
  $ with 'RINGMASTER r PORT 1; TROUPE T CALLS UNANIMOUS REPLIES WATCHDOG MEMBERS a PORT 1 SPARES b PORT 2, c PORT 3;'
  program line 2: unknown name
  [2]
  $ with 'RINGMASTER AT PORT 1; TROUPE LEAST CALLS FIRST REPLIES AT LEAST 1 MEMBERS WATCHDOG PORT 2, AT PORT 3;'
  program line 2: unknown name
  [2]
  $ with 'RINGMASTER r PORT 0; TROUPE T CALLS AT LEAST 0 REPLIES AT LEAST 17 MEMBERS a PORT 99999999;'
  program line 2: out of range
  [2]
  $ with 'RINGMASTER r PORT 01; TROUPE r CALLS FIRST REPLIES FIRST MEMBERS r PORT 1, r PORT 1; TROUPE r CALLS FIRST REPLIES FIRST MEMBERS r PORT 1;'
  program line 2: unknown name
  [2]
  $ with 'RINGMASTER r PORT 9223372036854775807;-- ;\nTROUPE T CALLS FIRST REPLIES MAJORITY MEMBERS a PORT 1;'
  program line 2: out of range
  [2]
  $ with ''
  program line 3: syntax
  [2]
  $ with 'r @PORT 1;'
  program line 3: syntax
  [2]
  $ with '@TROUPE T CALLS FIRST REPLIES FIRST MEMBERS a PORT 1;'
  program line 3: syntax
  [2]
  $ with 'RINGMASTER @PORT 1;'
  program line 3: syntax
  [2]
  $ with 'RINGMASTER @CALLS PORT 1;'
  program line 3: syntax
  [2]
  $ with 'RINGMASTER r @1;'
  program line 3: syntax
  [2]
  $ with 'RINGMASTER r PORT @;'
  program line 3: syntax
  [2]
  $ with 'RINGMASTER r PORT @x;'
  program line 3: syntax
  [2]
  $ with 'RINGMASTER r PORT 1'
  program line 3: syntax
  [2]
  $ with 'RINGMASTER r PORT 1@, s PORT 2;'
  program line 3: syntax
  [2]
  $ with 'RINGMASTER r PORT 1; @RINGMASTER s PORT 2;'
  program line 3: syntax
  [2]
  $ with 'RINGMASTER r PORT 1; @;'
  program line 3: syntax
  [2]
  $ with 'RINGMASTER r PORT 1; @MODULE M IMPLEMENTS I; BEGIN END.'
  program line 3: syntax
  [2]
  $ with 'RINGMASTER r PORT 1; @x'
  program line 3: syntax
  [2]
  $ with 'RINGMASTER r PORT 1; TROUPE @CALLS FIRST'
  program line 3: syntax
  [2]
  $ with 'RINGMASTER r PORT 1; TROUPE T @REPLIES FIRST'
  program line 3: syntax
  [2]
  $ with 'RINGMASTER r PORT 1; TROUPE T CALLS @WATCHDOG REPLIES FIRST MEMBERS a PORT 1;'
  program line 3: syntax
  [2]
  $ with 'RINGMASTER r PORT 1; TROUPE T CALLS @LEAST 2 REPLIES FIRST MEMBERS a PORT 1;'
  program line 3: syntax
  [2]
  $ with 'RINGMASTER r PORT 1; TROUPE T CALLS AT @2 REPLIES FIRST MEMBERS a PORT 1;'
  program line 3: syntax
  [2]
  $ with 'RINGMASTER r PORT 1; TROUPE T CALLS AT @MOST 2 REPLIES FIRST MEMBERS a PORT 1;'
  program line 3: syntax
  [2]
  $ with 'RINGMASTER r PORT 1; TROUPE T CALLS AT LEAST @REPLIES FIRST MEMBERS a PORT 1;'
  program line 3: syntax
  [2]
  $ with 'RINGMASTER r PORT 1; TROUPE T CALLS @2 REPLIES FIRST MEMBERS a PORT 1;'
  program line 3: syntax
  [2]
  $ with 'RINGMASTER r PORT 1; TROUPE T CALLS @at LEAST 2 REPLIES FIRST MEMBERS a PORT 1;'
  program line 3: syntax
  [2]
  $ with 'RINGMASTER r PORT 1; TROUPE T CALLS FIRST @MEMBERS a PORT 1;'
  program line 3: syntax
  [2]
  $ with 'RINGMASTER r PORT 1; TROUPE T CALLS FIRST REPLIES @MEMBERS a PORT 1;'
  program line 3: syntax
  [2]
  $ with 'RINGMASTER r PORT 1; TROUPE T CALLS FIRST REPLIES WATCHDOG @FIRST MEMBERS a PORT 1;'
  program line 3: syntax
  [2]
  $ with 'RINGMASTER r PORT 1; TROUPE T CALLS FIRST REPLIES FIRST @SPARES a PORT 1;'
  program line 3: syntax
  [2]
  $ with 'RINGMASTER r PORT 1; TROUPE T CALLS FIRST REPLIES FIRST MEMBERS @;'
  program line 3: syntax
  [2]
  $ with 'RINGMASTER r PORT 1; TROUPE T CALLS FIRST REPLIES FIRST MEMBERS a @;'
  program line 3: syntax
  [2]
  $ with 'RINGMASTER r PORT 1; TROUPE T CALLS FIRST REPLIES FIRST MEMBERS a PORT @;'
  program line 3: syntax
  [2]
  $ with 'RINGMASTER r PORT 1; TROUPE T CALLS FIRST REPLIES FIRST MEMBERS a PORT 1'
  program line 3: syntax
  [2]
  $ with 'RINGMASTER r PORT 1; TROUPE T CALLS FIRST REPLIES FIRST MEMBERS a PORT 1, @;'
  program line 3: syntax
  [2]
  $ with 'RINGMASTER r PORT 1; TROUPE T CALLS FIRST REPLIES FIRST MEMBERS a PORT 1 @b PORT 2;'
  program line 3: syntax
  [2]
  $ with 'RINGMASTER r PORT 1; TROUPE T CALLS FIRST REPLIES FIRST MEMBERS a PORT 1 SPARES @;'
  program line 3: syntax
  [2]
  $ with 'RINGMASTER r PORT 1; TROUPE T CALLS FIRST REPLIES FIRST MEMBERS a PORT 1 SPARES b PORT 2 @SPARES c PORT 3;'
  program line 3: syntax
  [2]
  $ with 'RINGMASTER r PORT 1; TROUPE T CALLS FIRST REPLIES FIRST MEMBERS a PORT 1 SPARES b PORT 2, '
  program line 3: syntax
  [2]
  $ with 'RINGMASTER r PORT 1; TROUPE T CALLS FIRST REPLIES FIRST MEMBERS a PORT 1 @MEMBERS b PORT 2;'
  program line 3: syntax
  [2]
  $ with 'RINGMASTER r PORT 1; TROUPE T CALLS FIRST REPLIES FIRST MEMBERS a PORT 1; @SPARES b PORT 2;'
  program line 3: syntax
  [2]
  $ with 'RINGMASTER r PORT 1; TROUPE T CALLS FIRST REPLIES FIRST MEMBERS a PORT 1; @.'
  program line 3: syntax
  [2]
