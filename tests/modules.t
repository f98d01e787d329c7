Modules that break a rule. In each case the `@` is a newline in front of what is refused, so the line is the one
behind that of the word HERE in the frame.

  $ . "$TESTDIR/cases.sh"

What a module implements, imports and declares. HERE is on line 24, behind the interfaces I and J and the
module B, which implements J.

  $ frame modules

  $ with 'MODULE M IMPLEMENTS @X; BEGIN END.'
  program line 25: unknown name
  [2]
  $ with 'ROOT M IMPORTS @X; BEGIN MAIN BEGIN RETURN []; END; END.'
  program line 25: unknown name
  [2]
  $ with 'ROOT M IMPORTS B, @I; BEGIN MAIN BEGIN RETURN []; END; END.'
  program line 25: unknown name
  [2]
  $ with 'ROOT M IMPORTS @M; BEGIN MAIN BEGIN RETURN []; END; END.'
  program line 25: unknown name
  [2]
  $ with 'ROOT M; BEGIN MAIN BEGIN RETURN []; END; END. ROOT N IMPORTS @M; BEGIN MAIN BEGIN RETURN []; END; END.'
  program line 25: unknown name
  [2]
  $ with 'ROOT M IMPORTS @N; BEGIN MAIN BEGIN RETURN []; END; END. ROOT N; BEGIN MAIN BEGIN RETURN []; END; END.'
  program line 25: unknown name
  [2]
  $ with 'MODULE M IMPLEMENTS J IMPORTS @M; BEGIN PROCEDURE Go BEGIN RETURN [a, TRUE]; END; END.'
  program line 25: forward import
  [2]
  $ with 'ROOT M IMPORTS @D; BEGIN MAIN BEGIN RETURN []; END; END. MODULE D IMPLEMENTS J; BEGIN PROCEDURE Go BEGIN RETURN [a, TRUE]; END; END.'
  program line 25: forward import
  [2]
  $ with 'ROOT @B; BEGIN MAIN BEGIN RETURN []; END; END.'
  program line 25: repeated name
  [2]
  $ with 'ROOT M; BEGIN MAIN BEGIN RETURN []; END; END. ROOT @M; BEGIN MAIN BEGIN RETURN []; END; END.'
  program line 25: repeated name
  [2]
  $ with 'ROOT M IMPORTS B; BEGIN MAIN BEGIN RETURN []; END; END. ROOT @N IMPORTS B; BEGIN MAIN BEGIN RETURN []; END; END.'
  program line 25: shared B M N
  [2]
  $ with 'MODULE D IMPLEMENTS J IMPORTS B; BEGIN PROCEDURE Go BEGIN RETURN [a, TRUE]; END; END. ROOT M IMPORTS D; BEGIN MAIN BEGIN RETURN []; END; END. ROOT N; BEGIN MAIN BEGIN RETURN []; END; END. ROOT @O IMPORTS B; BEGIN MAIN BEGIN RETURN []; END; END.'
  program line 25: shared B M O
  [2]
  $ with 'MODULE D IMPLEMENTS J IMPORTS B; BEGIN PROCEDURE Go BEGIN RETURN [a, TRUE]; END; END. ROOT M IMPORTS D; BEGIN MAIN BEGIN RETURN []; END; END. ROOT @N IMPORTS D; BEGIN MAIN BEGIN RETURN []; END; END. ROOT O IMPORTS B; BEGIN MAIN BEGIN RETURN []; END; END.'
  program line 25: shared B M N
  [2]
  $ with 'MODULE D IMPLEMENTS J; BEGIN PROCEDURE Go BEGIN RETURN [a, TRUE]; END; END. ROOT M IMPORTS D; BEGIN MAIN BEGIN RETURN []; END; END. ROOT @N IMPORTS B, D; BEGIN MAIN BEGIN RETURN []; END; END. ROOT O IMPORTS B; BEGIN MAIN BEGIN RETURN []; END; END.'
  program line 25: shared D M N
  [2]
  $ with 'MODULE @M IMPLEMENTS J; BEGIN END.'
  program line 25: missing Go
  [2]
  $ with 'MODULE @M IMPLEMENTS I; BEGIN END.'
  program line 25: missing P
  [2]
  $ with 'MODULE @M IMPLEMENTS I; BEGIN PROCEDURE P BEGIN RETURN [n, S#[]]; END; PROCEDURE Z BEGIN RETURN []; END; END.'
  program line 25: missing Q
  [2]
  $ with 'MODULE M IMPLEMENTS J; BEGIN PROCEDURE Go BEGIN RETURN [a, TRUE]; END; PROCEDURE @Z BEGIN RETURN []; END; END.'
  program line 25: unknown name
  [2]
  $ with 'MODULE M IMPLEMENTS J; BEGIN PROCEDURE Go BEGIN RETURN [a, TRUE]; END; PROCEDURE @Z BEGIN END; END.'
  program line 25: unknown name
  [2]
  $ with 'MODULE M IMPLEMENTS J; BEGIN PROCEDURE Go BEGIN RETURN [a, TRUE]; END; PROCEDURE @Go BEGIN RETURN [a, TRUE]; END; END.'
  program line 25: repeated name
  [2]
  $ with 'MODULE M IMPLEMENTS J; BEGIN PROCEDURE @Go BEGIN END; END.'
  program line 25: no return
  [2]
  $ with 'ROOT M; BEGIN @MAIN BEGIN END; END.'
  program line 25: no return
  [2]
  $ with 'ROOT M; BEGIN @MAIN BEGIN IF TRUE THEN RETURN []; END; END; END.'
  program line 25: no return
  [2]
  $ with 'ROOT M; BEGIN @MAIN BEGIN WHILE TRUE DO RETURN []; END; END; END.'
  program line 25: no return
  [2]
  $ with 'ROOT M; BEGIN @MAIN BEGIN IF TRUE THEN RETURN []; ELSE END; END; END.'
  program line 25: no return
  [2]
  $ with 'ROOT M; BEGIN @MAIN BEGIN IF TRUE THEN ELSE RETURN []; END; END; END.'
  program line 25: no return
  [2]
  $ with 'ROOT M; BEGIN VAR x: CARDINAL; @MAIN BEGIN RETURN []; x := 1; END; END.'
  program line 25: no return
  [2]
  $ with 'ROOT M; BEGIN VAR x: CARDINAL; @MAIN BEGIN x := TRUE; END; END.'
  program line 25: no return
  [2]
  $ with 'ROOT M; BEGIN MAIN BEGIN @RETURN [1]; END; END.'
  program line 25: type mismatch
  [2]
  $ with 'ROOT M; BEGIN MAIN BEGIN RAISE @E [1]; END; END.'
  program line 25: unknown name
  [2]
  $ with 'ROOT M; BEGIN VAR x: @R; MAIN BEGIN RETURN []; END; END.'
  program line 25: unknown name
  [2]
  $ with 'ROOT M; BEGIN VAR x: @B.T; MAIN BEGIN RETURN []; END; END.'
  program line 25: unknown name
  [2]
  $ with 'ROOT M IMPORTS @Z; BEGIN VAR x: Z.T; MAIN BEGIN RETURN []; END; END.'
  program line 25: unknown name
  [2]
  $ with 'MODULE @M IMPLEMENTS J; BEGIN VAR x: ARRAY 30000 OF CARDINAL; VAR y: ARRAY 30000 OF CARDINAL; PROCEDURE Go BEGIN RETURN [a, TRUE]; END; END.'
  program line 25: too large
  [2]
  $ with 'MODULE M IMPLEMENTS J; BEGIN VAR x: ARRAY 30000 OF CARDINAL; VAR y: ARRAY 30000 OF CARDINAL; VAR @a: BOOLEAN; PROCEDURE Go BEGIN RETURN [0, TRUE]; END; END.'
  program line 25: repeated name
  [2]
  $ with 'MODULE M IMPLEMENTS J; BEGIN VAR x: ARRAY 30000 OF CARDINAL; VAR y: ARRAY 30000 OF @Nope; VAR z: ARRAY 30000 OF CARDINAL; PROCEDURE Go BEGIN RETURN [a, TRUE]; END; END.'
  program line 25: unknown name
  [2]
  $ with 'MODULE @M IMPLEMENTS J; BEGIN VAR x: ARRAY 40000 OF CARDINAL; PROCEDURE Go BEGIN RETURN [a, TRUE]; END; END.'
  program line 25: too large
  [2]

The types of variables of the state. HERE is on line 25, in a module that implements I and imports B.

  $ frame state

  $ with 'VAR x: @Nope;'
  program line 26: unknown name
  [2]
  $ with 'VAR x: @X.T;'
  program line 26: unknown name
  [2]
  $ with 'VAR x: @M.R;'
  program line 26: unknown name
  [2]
  $ with 'VAR x: @I.R;'
  program line 26: unknown name
  [2]
  $ with 'VAR x: B.@R;'
  program line 26: unknown name
  [2]
  $ with 'VAR x: B.@Nope;'
  program line 26: unknown name
  [2]
  $ with 'VAR x: SEQUENCE OF @Nope;'
  program line 26: unknown name
  [2]
  $ with 'VAR x: RECORD [a: R, b: @Nope];'
  program line 26: unknown name
  [2]
  $ with 'VAR x: CHOICE OF {a(0) => R, b(1) => @Nope};'
  program line 26: unknown name
  [2]
  $ with 'VAR x: @T;'
  program line 26: unknown name
  [2]
  $ with 'VAR x: {a(0), @a(1)};'
  program line 26: repeated name
  [2]
  $ with 'VAR x: {a(0), b(@0)};'
  program line 26: repeated name
  [2]
  $ with 'VAR x: RECORD [a: R, @a: R];'
  program line 26: repeated name
  [2]
  $ with 'VAR x: RECORD [a, b, @a: R];'
  program line 26: repeated name
  [2]
  $ with 'VAR x: CHOICE OF {a(0) => R, b(@0) => R};'
  program line 26: repeated name
  [2]
  $ with 'VAR x: CHOICE OF {a(0) => R, @a(1) => R};'
  program line 26: repeated name
  [2]
  $ with 'VAR x: ARRAY @0 OF CARDINAL;'
  program line 26: out of range
  [2]
  $ with 'VAR x: ARRAY @65536 OF CARDINAL;'
  program line 26: out of range
  [2]
  $ with 'VAR x: SEQUENCE @65536 OF CARDINAL;'
  program line 26: out of range
  [2]
  $ with 'VAR x: {a(@65536)};'
  program line 26: out of range
  [2]
  $ with 'VAR x: @RECORD [];'
  program line 26: out of range
  [2]
  $ with 'VAR x: SEQUENCE OF @RECORD [];'
  program line 26: out of range
  [2]
  $ with 'VAR x: CARDINAL; VAR @x: STRING;'
  program line 26: repeated name
  [2]
  $ with 'VAR @n: CARDINAL;'
  program line 26: repeated name
  [2]

The variables of a procedure. HERE is on line 29, behind PROCEDURE P.

  $ frame procedure

  $ with 'VAR @c: CARDINAL; BEGIN RETURN [n, v];'
  program line 30: repeated name
  [2]
  $ with 'VAR @n: CARDINAL; BEGIN RETURN [n, v];'
  program line 30: repeated name
  [2]
  $ with 'VAR x: CARDINAL; VAR @x: CARDINAL; BEGIN RETURN [n, v];'
  program line 30: repeated name
  [2]
  $ with 'VAR x: @Nope; BEGIN RETURN [n, v];'
  program line 30: unknown name
  [2]
  $ with 'VAR x: @ARRAY 40000 OF CARDINAL; BEGIN RETURN [n, v];'
  program line 30: too large
  [2]
  $ with 'VAR x: CARDINAL; BEGIN RETURN [@q, v];'
  program line 30: unknown name
  [2]
  $ with 'VAR x: @ARRAY 32769 OF CARDINAL; BEGIN RETURN [n, v];'
  program line 30: too large
  [2]
  $ with 'VAR x: @ARRAY 16385 OF LONG CARDINAL; BEGIN RETURN [n, v];'
  program line 30: too large
  [2]
  $ with 'VAR x: @ARRAY 2 OF ARRAY 30000 OF CARDINAL; BEGIN RETURN [n, v];'
  program line 30: too large
  [2]
  $ with 'VAR x: @RECORD [a: ARRAY 30000 OF CARDINAL, b: ARRAY 30000 OF CARDINAL]; BEGIN RETURN [n, v];'
  program line 30: too large
  [2]
  $ with 'VAR x: @ARRAY 3 OF Big; BEGIN RETURN [n, v];'
  program line 30: too large
  [2]

Statements and expressions. HERE is on line 29, in the body of the procedure P, which has a variable of each
form.

  $ frame body

  $ with '@x := 1;'
  program line 30: unknown name
  [2]
  $ with 'c := @x;'
  program line 30: unknown name
  [2]
  $ with 'c := n + @x;'
  program line 30: unknown name
  [2]
  $ with 'r.@z := 1;'
  program line 30: unknown name
  [2]
  $ with 'k.@z := 1;'
  program line 30: unknown name
  [2]
  $ with 'c := r.@z;'
  program line 30: unknown name
  [2]
  $ with 'c := @TRUE;'
  program line 30: type mismatch
  [2]
  $ with 'c := @t;'
  program line 30: type mismatch
  [2]
  $ with 't := @1;'
  program line 30: type mismatch
  [2]
  $ with 'ok := @c;'
  program line 30: type mismatch
  [2]
  $ with 'e := @c;'
  program line 30: type mismatch
  [2]
  $ with 'v := @a;'
  program line 30: type mismatch
  [2]
  $ with 'r := @k;'
  program line 30: type mismatch
  [2]
  $ with 'a := @v;'
  program line 30: type mismatch
  [2]
  $ with '@c.x := 1;'
  program line 30: type mismatch
  [2]
  $ with '@c[0] := 1;'
  program line 30: type mismatch
  [2]
  $ with '@t[0] := 1;'
  program line 30: type mismatch
  [2]
  $ with '@r[0] := 1;'
  program line 30: type mismatch
  [2]
  $ with '@a.x := 1;'
  program line 30: type mismatch
  [2]
  $ with 'a[@t] := 1;'
  program line 30: type mismatch
  [2]
  $ with 'c := a[@TRUE];'
  program line 30: type mismatch
  [2]
  $ with 'c := @t + 1;'
  program line 30: type mismatch
  [2]
  $ with 'c := 1 - @ok;'
  program line 30: type mismatch
  [2]
  $ with 'c := @e * 1;'
  program line 30: type mismatch
  [2]
  $ with 'c := 1 DIV @t;'
  program line 30: type mismatch
  [2]
  $ with 'c := @ok MOD 2;'
  program line 30: type mismatch
  [2]
  $ with 'c := -@t;'
  program line 30: type mismatch
  [2]
  $ with 't := @c & t;'
  program line 30: type mismatch
  [2]
  $ with 't := t & @1;'
  program line 30: type mismatch
  [2]
  $ with 'ok := NOT @c;'
  program line 30: type mismatch
  [2]
  $ with 'ok := @c AND ok;'
  program line 30: type mismatch
  [2]
  $ with 'ok := ok OR @t;'
  program line 30: type mismatch
  [2]
  $ with 'ok := @c = t;'
  program line 30: type mismatch
  [2]
  $ with 'ok := @r <> k;'
  program line 30: type mismatch
  [2]
  $ with 'ok := @t < t;'
  program line 30: type mismatch
  [2]
  $ with 'ok := 1 >= @ok;'
  program line 30: type mismatch
  [2]
  $ with 'c := LENGTH(@c);'
  program line 30: type mismatch
  [2]
  $ with 'c := LENGTH(@a);'
  program line 30: type mismatch
  [2]
  $ with 'ok := @c IS some;'
  program line 30: type mismatch
  [2]
  $ with 'ok := k IS @z;'
  program line 30: unknown name
  [2]
  $ with 'ok := @z IS some;'
  program line 30: unknown name
  [2]
  $ with 'c := @(1 < nope);'
  program line 30: type mismatch
  [2]
  $ with 'e := @Z#red;'
  program line 30: unknown name
  [2]
  $ with 'e := C#@green;'
  program line 30: unknown name
  [2]
  $ with 'e := @X.C#red;'
  program line 30: unknown name
  [2]
  $ with 'e := B.@R#red;'
  program line 30: unknown name
  [2]
  $ with 'e := @R#red;'
  program line 30: type mismatch
  [2]
  $ with 'e := @C#red(1);'
  program line 30: type mismatch
  [2]
  $ with 'k := @K#some;'
  program line 30: type mismatch
  [2]
  $ with 'k := @K#none(1);'
  program line 30: type mismatch
  [2]
  $ with 'k := K#@z(1);'
  program line 30: unknown name
  [2]
  $ with 'k := K#some(@t);'
  program line 30: type mismatch
  [2]
  $ with 'r := @R#[1];'
  program line 30: type mismatch
  [2]
  $ with 'r := R#[1, @2];'
  program line 30: type mismatch
  [2]
  $ with 'a := @A#[1];'
  program line 30: type mismatch
  [2]
  $ with 'v := @S#[1, 2, 3, 4];'
  program line 30: type mismatch
  [2]
  $ with 'v := S#[1, @t];'
  program line 30: type mismatch
  [2]
  $ with 'e := @C#[];'
  program line 30: type mismatch
  [2]
  $ with 'r := @A#[1, 2];'
  program line 30: type mismatch
  [2]
  $ with 'APPEND 1 TO @c;'
  program line 30: type mismatch
  [2]
  $ with 'APPEND @t TO v;'
  program line 30: type mismatch
  [2]
  $ with 'APPEND 1 TO @a;'
  program line 30: type mismatch
  [2]
  $ with 'APPEND @x TO v;'
  program line 30: unknown name
  [2]
  $ with 'APPEND 1 TO @x;'
  program line 30: unknown name
  [2]
  $ with 'IF @c THEN END;'
  program line 30: type mismatch
  [2]
  $ with 'WHILE @1 DO END;'
  program line 30: type mismatch
  [2]
  $ with 'IF ok THEN c := @t; ELSE END;'
  program line 30: type mismatch
  [2]
  $ with 'IF ok THEN ELSE c := @t; END;'
  program line 30: type mismatch
  [2]
  $ with 'WHILE ok DO c := @t; END;'
  program line 30: type mismatch
  [2]
  $ with 'CALL @X.Go [1, e];'
  program line 30: unknown name
  [2]
  $ with 'CALL @M.P [1, t];'
  program line 30: unknown name
  [2]
  $ with 'CALL B.@P [1, e];'
  program line 30: unknown name
  [2]
  $ with 'CALL B.@Go [1];'
  program line 30: type mismatch
  [2]
  $ with 'CALL B.@Go [1, e, 2];'
  program line 30: type mismatch
  [2]
  $ with 'CALL B.Go [@t, e];'
  program line 30: type mismatch
  [2]
  $ with 'CALL B.Go [1, @1];'
  program line 30: type mismatch
  [2]
  $ with 'CALL B.Go [1, e] @INTO [c];'
  program line 30: type mismatch
  [2]
  $ with 'CALL B.Go [1, e] INTO [@t, ok];'
  program line 30: type mismatch
  [2]
  $ with 'CALL B.Go [1, e] INTO [c, @c];'
  program line 30: type mismatch
  [2]
  $ with 'CALL B.Go [1, e] INTO [@x, ok];'
  program line 30: unknown name
  [2]
  $ with 'CALL B.Go [1, e] @INTO [];'
  program line 30: type mismatch
  [2]
  $ with 'CALL B.Go [1, e] ON @E BEGIN END;'
  program line 30: unknown name
  [2]
  $ with 'CALL B.Go [1, e] ON @Z BEGIN END;'
  program line 30: unknown name
  [2]
  $ with 'CALL B.Go [1, e] ON @G [t] BEGIN END;'
  program line 30: type mismatch
  [2]
  $ with 'CALL B.Go [1, e] ON G [@c, ok] BEGIN END;'
  program line 30: type mismatch
  [2]
  $ with 'CALL B.Go [1, e] ON @OTHER BEGIN END ON G BEGIN END;'
  program line 30: type mismatch
  [2]
  $ with 'CALL B.Go [1, e] ON OTHER BEGIN c := @t; END;'
  program line 30: type mismatch
  [2]
  $ with 'CALL B.Go [1, e] ON @H [c] BEGIN END;'
  program line 30: type mismatch
  [2]
  $ with '@RETURN [];'
  program line 30: type mismatch
  [2]
  $ with '@RETURN [1];'
  program line 30: type mismatch
  [2]
  $ with 'RETURN [@t, v];'
  program line 30: type mismatch
  [2]
  $ with 'RETURN [1, @a];'
  program line 30: type mismatch
  [2]
  $ with 'RAISE @F [];'
  program line 30: unknown name
  [2]
  $ with 'RAISE @Z [];'
  program line 30: unknown name
  [2]
  $ with 'RAISE @E [];'
  program line 30: type mismatch
  [2]
  $ with 'RAISE E [@t];'
  program line 30: type mismatch
  [2]
  $ with 'RAISE @E [1, 2];'
  program line 30: type mismatch
  [2]
  $ with 'c := @x; c := y;'
  program line 30: unknown name
  [2]
  $ with 'c := @x + TRUE;'
  program line 30: unknown name
  [2]
  $ with 'c := @TRUE + x;'
  program line 30: type mismatch
  [2]

What is too large in all. HERE is on line 17, in a module that implements W, whose types are large.

  $ frame large

  $ with 'VAR x: Thousands; VAR y: @Thousands; PROCEDURE P BEGIN RETURN []; END;'
  program line 18: too large
  [2]
  $ with 'VAR x: Thousands; PROCEDURE P VAR y: @Thousands; BEGIN RETURN []; END;'
  program line 18: too large
  [2]
  $ with 'VAR x: SEQUENCE OF Thousands; VAR y: @SEQUENCE OF Thousands; VAR z: SEQUENCE OF Thousands; PROCEDURE P BEGIN RETURN []; END;'
  program line 18: too large
  [2]
  $ with 'VAR x: @SEQUENCE OF SEQUENCE OF SEQUENCE OF SEQUENCE OF SEQUENCE OF SEQUENCE OF SEQUENCE OF SEQUENCE OF SEQUENCE OF SEQUENCE OF SEQUENCE OF SEQUENCE OF SEQUENCE OF SEQUENCE OF SEQUENCE OF SEQUENCE OF SEQUENCE OF SEQUENCE OF SEQUENCE OF SEQUENCE OF SEQUENCE OF SEQUENCE OF SEQUENCE OF SEQUENCE OF SEQUENCE OF L; PROCEDURE P BEGIN RETURN []; END;'
  program line 18: too large
  [2]
  $ with 'PROCEDURE P VAR x: CARDINAL; VAR y: @RECORD [a, b: Thousands]; BEGIN RETURN []; END;'
  program line 18: too large
  [2]

Rules of procedures and of imports, each in a whole module. HERE is on line 5.

  $ frame count

  $ with 'MODULE Counter IMPLEMENTS Count; BEGIN VAR total: CARDINAL; PROCEDURE @Add BEGIN total := total + n; END; END. ROOT Main IMPORTS Counter; BEGIN VAR got: CARDINAL; MAIN BEGIN CALL Counter.Add [5] INTO [got]; RETURN []; END; END. '
  program line 6: no return
  [2]
  $ with 'MODULE Counter IMPLEMENTS Count; BEGIN VAR total: CARDINAL; PROCEDURE Add BEGIN total := total + n; RETURN [total]; END; END. ROOT Main IMPORTS Counter; BEGIN VAR got: STRING; MAIN BEGIN CALL Counter.Add [5] INTO [@got]; RETURN []; END; END. '
  program line 6: type mismatch
  [2]
  $ with 'ROOT Main IMPORTS @Counter; BEGIN VAR got: CARDINAL; MAIN BEGIN CALL Counter.Add [5] INTO [got]; RETURN []; END; END. MODULE Counter IMPLEMENTS Count; BEGIN VAR total: CARDINAL; PROCEDURE Add BEGIN total := total + n; RETURN [total]; END; END. '
  program line 6: forward import
  [2]
  $ with 'MODULE Counter IMPLEMENTS Count; BEGIN VAR total: CARDINAL; PROCEDURE Add BEGIN total := total + n; RETURN [total]; END; END. ROOT Main IMPORTS Counter; BEGIN VAR got: CARDINAL; MAIN BEGIN CALL Counter.Add [5] INTO [got]; RETURN []; END; END. ROOT @Other IMPORTS Counter; BEGIN MAIN BEGIN RETURN []; END; END. '
  program line 6: shared Counter Main Other
  [2]
  $ with 'MODULE @Counter IMPLEMENTS Count; BEGIN VAR total: CARDINAL; PROCEDURE Sub BEGIN total := total + n; RETURN [total]; END; END. ROOT Main IMPORTS Counter; BEGIN VAR got: CARDINAL; MAIN BEGIN CALL Counter.Add [5] INTO [got]; RETURN []; END; END. '
  program line 6: missing Add
  [2]

Behind 32 modules, which are as many as there may be. HERE is on line 35.

  $ frame many

  $ with 'MODULE @M32 IMPLEMENTS Z; BEGIN END.'
  program line 36: too many
  [2]
  $ with 'MODULE @M7 IMPLEMENTS Z; BEGIN END.'
  program line 36: repeated name
  [2]
  $ with 'MODULE @M32 IMPLEMENTS Y; BEGIN END. MODULE M33 IMPLEMENTS Z; BEGIN END.'
  program line 36: too many
  [2]
  $ with 'ROOT @M32; BEGIN MAIN BEGIN RETURN []; END; END.'
  program line 36: too many
  [2]

These modules break no rule. Their file has no troupes, so the first module without one is named at its end.

  $ cat >p <<END_OF_PROGRAM
  > CIRCUS 1;
  > Count: PROGRAM 1 VERSION 1 = BEGIN Add: PROCEDURE [n: CARDINAL] RETURNS [sum: CARDINAL] = 1; END.
  > MODULE Counter IMPLEMENTS Count; BEGIN VAR total: CARDINAL; PROCEDURE Add BEGIN total := total + n; RETURN [total]; END; END.
  > ROOT Main IMPORTS Counter; BEGIN VAR got: CARDINAL; MAIN BEGIN CALL Counter.Add [5] INTO [got]; RETURN []; END; END.
  > RINGMASTER ring PORT 9000;
  > END_OF_PROGRAM
  $ circus run p
  program line 6: missing Counter
  [2]

  $ cat >p <<END_OF_PROGRAM
  > CIRCUS 1;
  > Count: PROGRAM 1 VERSION 1 = BEGIN Add: PROCEDURE [n: CARDINAL] RETURNS [sum: CARDINAL] = 1; END.
  > MODULE Counter IMPLEMENTS Count; BEGIN VAR total: CARDINAL; PROCEDURE Add BEGIN total := total + n; RETURN [total]; END; END.
  > ROOT Main IMPORTS Counter; BEGIN VAR got: CARDINAL; MAIN BEGIN CALL Counter.Add [5] INTO [got]; CALL Counter.Add [7] INTO [got]; RETURN []; END; END.
  > RINGMASTER ring PORT 9000;
  > END_OF_PROGRAM
  $ circus run p
  program line 6: missing Counter
  [2]

  $ cat >p <<END_OF_PROGRAM
  > CIRCUS 1;
  > Count: PROGRAM 1 VERSION 1 = BEGIN Add: PROCEDURE [n: CARDINAL] RETURNS [sum: CARDINAL] = 1; END.
  > Step: PROGRAM 2 VERSION 1 = BEGIN Go: PROCEDURE = 1; END.
  > MODULE Counter IMPLEMENTS Count; BEGIN VAR total: CARDINAL; PROCEDURE Add BEGIN total := total + n; RETURN [total]; END; END.
  > MODULE A IMPLEMENTS Step IMPORTS Counter; BEGIN PROCEDURE Go BEGIN CALL Counter.Add [1]; RETURN []; END; END.
  > MODULE B IMPLEMENTS Step IMPORTS Counter; BEGIN PROCEDURE Go BEGIN CALL Counter.Add [2]; RETURN []; END; END.
  > ROOT Main IMPORTS A, B; BEGIN MAIN BEGIN CALL A.Go []; CALL B.Go []; RETURN []; END; END.
  > RINGMASTER ring PORT 9000;
  > END_OF_PROGRAM
  $ circus run p
  program line 9: missing Counter
  [2]

  $ cat >p <<END_OF_PROGRAM
  > CIRCUS 1;
  > Room: PROGRAM 3 VERSION 1 = BEGIN Put: PROCEDURE [q: SEQUENCE 40000 OF CARDINAL] RETURNS [n: CARDINAL] = 1; END.
  > MODULE Store IMPLEMENTS Room; BEGIN PROCEDURE Put BEGIN RETURN [LENGTH(q)]; END; END.
  > ROOT Main IMPORTS Store; BEGIN MAIN VAR q: SEQUENCE 40000 OF CARDINAL; BEGIN WHILE LENGTH(q) < 32767 DO APPEND 7 TO q; END; CALL Store.Put [q]; RETURN []; END; END.
  > RINGMASTER ring PORT 9000;
  > END_OF_PROGRAM
  $ circus run p
  program line 6: missing Store
  [2]

  $ cat >p <<END_OF_PROGRAM
  > CIRCUS 1;
  > Books: PROGRAM 10 VERSION 1 = BEGIN Short: ERROR [gap: LONG CARDINAL] = 1; Move: PROCEDURE [from, to: CARDINAL, amount: LONG CARDINAL] RETURNS [left: LONG CARDINAL] REPORTS [Short] = 1; END.
  > Desk: PROGRAM 11 VERSION 1 = BEGIN Pay: PROCEDURE [from, to: CARDINAL, amount: LONG CARDINAL] RETURNS [ok: BOOLEAN] = 1; END.
  > MODULE Ledger IMPLEMENTS Books; BEGIN VAR balance: ARRAY 4 OF LONG CARDINAL; VAR opened: BOOLEAN; PROCEDURE Move BEGIN IF NOT opened THEN balance[0] := 100; opened := TRUE; END; IF amount > balance[from] THEN RAISE Short [amount - balance[from]]; END; balance[from] := balance[from] - amount; balance[to] := balance[to] + amount; RETURN [balance[from]]; END; END.
  > MODULE Teller IMPLEMENTS Desk IMPORTS Ledger; BEGIN VAR refused: CARDINAL; PROCEDURE Pay VAR left: LONG CARDINAL; VAR gap: LONG CARDINAL; BEGIN CALL Ledger.Move [from, to, amount] INTO [left] ON Short [gap] BEGIN refused := refused + 1; RETURN [FALSE]; END; RETURN [TRUE]; END; END.
  > ROOT Day IMPORTS Teller; BEGIN VAR paid: CARDINAL; MAIN VAR i: CARDINAL; VAR ok: BOOLEAN; BEGIN WHILE i < 20 DO CALL Teller.Pay [0, 1, 6] INTO [ok]; IF ok THEN paid := paid + 1; END; i := i + 1; END; RETURN []; END; END.
  > RINGMASTER ring PORT 9000;
  > END_OF_PROGRAM
  $ circus run p
  program line 8: missing Ledger
  [2]

  $ cat >p <<END_OF_PROGRAM
  > CIRCUS 1;
  > Keep: PROGRAM 4 VERSION 1 = BEGIN Empty: ERROR [short: CARDINAL] = 1; Take: PROCEDURE [n: CARDINAL] RETURNS [left: CARDINAL] REPORTS [Empty] = 1; END.
  > MODULE Vault IMPLEMENTS Keep; BEGIN VAR tries: CARDINAL; VAR gold: CARDINAL; PROCEDURE Take BEGIN tries := tries + 1; IF n > gold THEN RAISE Empty [n - gold]; END; gold := gold - n; RETURN [gold]; END; END.
  > ROOT Main IMPORTS Vault; BEGIN VAR b: CARDINAL; MAIN BEGIN CALL Vault.Take [3] ON Empty [b] BEGIN b := b + 1; END; CALL Vault.Take [4]; RETURN []; END; END.
  > RINGMASTER ring PORT 9000;
  > END_OF_PROGRAM
  $ circus run p
  program line 6: missing Vault
  [2]

  $ cat >p <<END_OF_PROGRAM
  > CIRCUS 1;
  > Turn: PROGRAM 5 VERSION 1 = BEGIN Spin: PROCEDURE [n: LONG CARDINAL] RETURNS [r: LONG CARDINAL] = 1; Late: PROCEDURE [n: LONG CARDINAL] RETURNS [r: LONG CARDINAL] = 2; END.
  > MODULE Wheel IMPLEMENTS Turn; BEGIN PROCEDURE Late VAR i: LONG CARDINAL; BEGIN i := 0; WHILE i < n DO i := i + 1; END; RETURN [i]; END; PROCEDURE Spin VAR i: LONG CARDINAL; BEGIN WHILE i < n DO i := i + 1; END; RETURN [i]; END; END.
  > ROOT Main IMPORTS Wheel; BEGIN MAIN BEGIN CALL Wheel.Spin [499999]; CALL Wheel.Late [499999] ON OTHER BEGIN END; RETURN []; END; END.
  > RINGMASTER ring PORT 9000;
  > END_OF_PROGRAM
  $ circus run p
  program line 6: missing Wheel
  [2]

  $ cat >p <<END_OF_PROGRAM
  > CIRCUS 1;
  > 
  > RINGMASTER ring PORT 9000;
  > END_OF_PROGRAM
  $ circus run p
  circus history 1

  $ cat >p <<END_OF_PROGRAM
  > CIRCUS 1;
  > I: PROGRAM 1 VERSION 1 = BEGIN
  > C: TYPE = {red(0), blue(5)};
  > R: TYPE = RECORD [x: CARDINAL, y: STRING];
  > K: TYPE = CHOICE OF {none(0) => RECORD [], some(1) => CARDINAL, rest(2) => R};
  > S: TYPE = SEQUENCE 3 OF CARDINAL;
  > A: TYPE = ARRAY 2 OF CARDINAL;
  > Big: TYPE = ARRAY 30000 OF CARDINAL;
  > E: ERROR [code: CARDINAL] = 1;
  > F: ERROR = 2;
  > P: PROCEDURE [n: CARDINAL, s: STRING] RETURNS [r: CARDINAL, q: S] REPORTS [E] = 1;
  > Q: PROCEDURE = 2;
  > END.
  > J: PROGRAM 2 VERSION 1 = BEGIN
  > T: TYPE = LONG INTEGER;
  > G: ERROR [a: STRING, b: BOOLEAN] = 7;
  > H: ERROR = 8;
  > C: TYPE = {red(0), blue(5)};
  > Go: PROCEDURE [a: CARDINAL, b: C] RETURNS [c: CARDINAL, d: BOOLEAN] REPORTS [G, H] = 4;
  > END.
  > MODULE B IMPLEMENTS J; BEGIN
  > PROCEDURE Go BEGIN RETURN [a, TRUE]; END;
  > END.
  > MODULE M IMPLEMENTS I IMPORTS B, B; BEGIN VAR c: CARDINAL; VAR t: STRING; VAR ok: BOOLEAN; VAR e: B.C; VAR r: R; VAR k: K; VAR v: S; VAR a: A; VAR g: B.T; VAR big: Big; VAR B: SEQUENCE OF ARRAY 32769 OF CARDINAL; PROCEDURE Q BEGIN RETURN []; END; PROCEDURE P VAR r2: R; BEGIN c := g; g := c; r2 := R#[c, t & "x"]; r := r2; k := K#none; k := K#rest(r); k.rest.x := LENGTH(v); a := A#[1, 2]; v := S#[]; APPEND a[c] TO v; ok := k IS rest OR e = C#blue AND NOT (r = r2); n := -1; CALL B.Go [n, e] INTO [c, ok] ON G BEGIN END ON G [t, ok] BEGIN RETURN [1, S#[]]; END ON OTHER BEGIN RAISE E [3]; END; IF ok THEN RETURN [n, v]; ELSE RAISE E [c]; END; END; END.
  > RINGMASTER ring PORT 9000;
  > END_OF_PROGRAM
  $ circus run p
  program line 26: missing B
  [2]

  $ cat >p <<END_OF_PROGRAM
  > CIRCUS 1;
  > Z: PROGRAM 1 VERSION 1 = BEGIN END.
  > MODULE M0 IMPLEMENTS Z; BEGIN END.
  > MODULE M1 IMPLEMENTS Z; BEGIN END.
  > MODULE M2 IMPLEMENTS Z; BEGIN END.
  > MODULE M3 IMPLEMENTS Z; BEGIN END.
  > MODULE M4 IMPLEMENTS Z; BEGIN END.
  > MODULE M5 IMPLEMENTS Z; BEGIN END.
  > MODULE M6 IMPLEMENTS Z; BEGIN END.
  > MODULE M7 IMPLEMENTS Z; BEGIN END.
  > MODULE M8 IMPLEMENTS Z; BEGIN END.
  > MODULE M9 IMPLEMENTS Z; BEGIN END.
  > MODULE M10 IMPLEMENTS Z; BEGIN END.
  > MODULE M11 IMPLEMENTS Z; BEGIN END.
  > MODULE M12 IMPLEMENTS Z; BEGIN END.
  > MODULE M13 IMPLEMENTS Z; BEGIN END.
  > MODULE M14 IMPLEMENTS Z; BEGIN END.
  > MODULE M15 IMPLEMENTS Z; BEGIN END.
  > MODULE M16 IMPLEMENTS Z; BEGIN END.
  > MODULE M17 IMPLEMENTS Z; BEGIN END.
  > MODULE M18 IMPLEMENTS Z; BEGIN END.
  > MODULE M19 IMPLEMENTS Z; BEGIN END.
  > MODULE M20 IMPLEMENTS Z; BEGIN END.
  > MODULE M21 IMPLEMENTS Z; BEGIN END.
  > MODULE M22 IMPLEMENTS Z; BEGIN END.
  > MODULE M23 IMPLEMENTS Z; BEGIN END.
  > MODULE M24 IMPLEMENTS Z; BEGIN END.
  > MODULE M25 IMPLEMENTS Z; BEGIN END.
  > MODULE M26 IMPLEMENTS Z; BEGIN END.
  > MODULE M27 IMPLEMENTS Z; BEGIN END.
  > MODULE M28 IMPLEMENTS Z; BEGIN END.
  > MODULE M29 IMPLEMENTS Z; BEGIN END.
  > MODULE M30 IMPLEMENTS Z; BEGIN END.
  > MODULE M31 IMPLEMENTS Z; BEGIN END.
  > RINGMASTER ring PORT 9000;
  > END_OF_PROGRAM
  $ circus run p
  program line 36: missing M0
  [2]

  $ cat >p <<END_OF_PROGRAM
  > CIRCUS 1;
  > W: PROGRAM 3 VERSION 1 = BEGIN Eight: TYPE = RECORD [a, b, c, d, e, f, g, h: CARDINAL]; Dozens: TYPE = RECORD [a, b, c, d, e, f, g, h: Eight]; Hundreds: TYPE = RECORD [a, b, c, d, e, f, g, h: Dozens]; Thousands: TYPE = RECORD [a, b, c, d, e, f, g, h: Hundreds]; L: TYPE = SEQUENCE OF SEQUENCE OF SEQUENCE OF SEQUENCE OF SEQUENCE OF SEQUENCE OF SEQUENCE OF SEQUENCE OF SEQUENCE OF SEQUENCE OF SEQUENCE OF SEQUENCE OF SEQUENCE OF SEQUENCE OF SEQUENCE OF SEQUENCE OF SEQUENCE OF SEQUENCE OF SEQUENCE OF SEQUENCE OF SEQUENCE OF SEQUENCE OF SEQUENCE OF SEQUENCE OF SEQUENCE OF SEQUENCE OF SEQUENCE OF SEQUENCE OF SEQUENCE OF SEQUENCE OF SEQUENCE OF SEQUENCE OF SEQUENCE OF SEQUENCE OF SEQUENCE OF SEQUENCE OF SEQUENCE OF SEQUENCE OF SEQUENCE OF SEQUENCE OF CARDINAL; P: PROCEDURE = 1; END.
  > MODULE M IMPLEMENTS W; BEGIN VAR x: SEQUENCE OF Thousands; VAR y: SEQUENCE OF SEQUENCE OF SEQUENCE OF SEQUENCE OF SEQUENCE OF SEQUENCE OF SEQUENCE OF SEQUENCE OF SEQUENCE OF SEQUENCE OF SEQUENCE OF SEQUENCE OF SEQUENCE OF SEQUENCE OF SEQUENCE OF SEQUENCE OF SEQUENCE OF SEQUENCE OF SEQUENCE OF SEQUENCE OF SEQUENCE OF SEQUENCE OF SEQUENCE OF SEQUENCE OF L; VAR z: RECORD [a, b, c, d: Hundreds]; PROCEDURE P BEGIN RETURN []; END; END.
  > RINGMASTER ring PORT 9000;
  > END_OF_PROGRAM
  $ circus run p
  program line 5: missing M
  [2]
