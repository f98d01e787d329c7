Files that are no programs: with which line and which cause each is refused.

  $ . "$TESTDIR/cases.sh"

# Bytes and tokens

The fault of a token comes before any other. `\0200` and the like are bytes in octal.

  $ frame parts

  $ file 'CIRCUS 1;\n''a $'
  program line 2: bad character
  [2]
  $ file 'CIRCUS 1;\n''a_b'
  program line 2: bad character
  [2]
  $ file 'CIRCUS 1;\n''-- \0177\n'
  program line 2: bad character
  [2]
  $ file 'CIRCUS 1;\n''"ab'
  program line 2: open string
  [2]
  $ file 'CIRCUS 1;\n''a "b\r\n"'
  program line 2: open string
  [2]
  $ file 'CIRCUS 1;\n''"b\rc"'
  program line 2: bad character
  [2]
  $ file 'CIRCUS 1;\n''"b\0200'
  program line 2: open string
  [2]
  $ file 'CIRCUS 1;\n''\0000'
  program line 2: bad character
  [2]
  $ file 'CIRCUS 1;\n'' abcdefghijklmnopqrstuvwxyzABCDEFG$'
  program line 2: bad character
  [2]
  $ file 'CIRCUS 1;\n''9223372036854775808'
  program line 2: long number
  [2]
  $ file 'CIRCUS 1;\n''x 00099999999999999999999'
  program line 2: long number
  [2]

Tokens are as long as they can be, a comment ends with its line, and a number may begin with zeros.

  $ file 'CIRCUS 1;ROOT R;BEGIN VAR a1:CARDINAL;MAIN BEGIN a1:=007;IF a1<>7THEN a1:=1;END;a1:=a1-1;a1:=a1--7\n+1;RETURN[];END;END.RINGMASTER r PORT 1;TROUPE R CALLS FIRST REPLIES FIRST MEMBERS m PORT 2;' | tail -n 1
  end 0 clock 0 returned [] state [7]
  $ file 'CIRCUS 1; --\r\t---\nROOT R; BEGIN VAR abcdefghijklmnopqrstuvwxyzABCDEF: STRING; MAIN BEGIN abcdefghijklmnopqrstuvwxyzABCDEF := "a--b" & ""; RETURN []; END; END.\nRINGMASTER r PORT 1; TROUPE R CALLS FIRST REPLIES FIRST MEMBERS m PORT 0000000000000000000000000000002;' | tail -n 1
  end 0 clock 0 returned [] state ["a--b"]

# Whole files

Each form that reads a program first refuses a file so; a schedule is not fetched.

  $ refused() { file "$1"; circus stubs p; circus replay p absent; circus sample p 1 1; circus node p m1 1; }

  $ refused ''
  program line 1: syntax
  program line 1: syntax
  program line 1: syntax
  program line 1: syntax
  program line 1: syntax
  [2]
  $ refused 'CIRCUS'
  program line 1: syntax
  program line 1: syntax
  program line 1: syntax
  program line 1: syntax
  program line 1: syntax
  [2]
  $ refused 'CIRCUS 01;\nRINGMASTER ring PORT 9000;\n'
  program line 1: syntax
  program line 1: syntax
  program line 1: syntax
  program line 1: syntax
  program line 1: syntax
  [2]
  $ refused 'CIRCUS 3;\nRINGMASTER ring PORT 9000;\n'
  program line 1: syntax
  program line 1: syntax
  program line 1: syntax
  program line 1: syntax
  program line 1: syntax
  [2]
  $ refused 'CIRCUS 1\n\n'
  program line 3: syntax
  program line 3: syntax
  program line 3: syntax
  program line 3: syntax
  program line 3: syntax
  [2]
  $ refused 'CIRCUS 1\n1\n$'
  program line 3: bad character
  program line 3: bad character
  program line 3: bad character
  program line 3: bad character
  program line 3: bad character
  [2]
  $ refused 'CIRCUS 1; -- \n-- \n--\0177\nRINGMASTER ring PORT 9000;\n'
  program line 3: bad character
  program line 3: bad character
  program line 3: bad character
  program line 3: bad character
  program line 3: bad character
  [2]
  $ refused 'CIRCUS 1;\n "a\nRINGMASTER ring PORT 9000;\n'
  program line 2: open string
  program line 2: open string
  program line 2: open string
  program line 2: open string
  program line 2: open string
  [2]
  $ refused 'CIRCUS 1;\nRINGMASTER ring PORT 9223372036854775808\n'
  program line 2: long number
  program line 2: long number
  program line 2: long number
  program line 2: long number
  program line 2: long number
  [2]
  $ refused 'CIRCUS 1;\nRINGMASTER ring PORT 9223372036854775807;\n'
  program line 2: out of range
  program line 2: out of range
  program line 2: out of range
  program line 2: out of range
  program line 2: out of range
  [2]
  $ refused 'CIRCUS 1;\nABCDEFGHIJKLMNOPQRSTUVWXYZABCDEFG: PROGRAM\n'
  program line 2: bad character
  program line 2: bad character
  program line 2: bad character
  program line 2: bad character
  program line 2: bad character
  [2]
  $ refused 'CIRCUS 1;\r\n\r\r\n$'
  program line 3: bad character
  program line 3: bad character
  program line 3: bad character
  program line 3: bad character
  program line 3: bad character
  [2]
  $ refused 'CIRCUS 1; -- RINGMASTER ring PORT 9000;\n'
  program line 2: syntax
  program line 2: syntax
  program line 2: syntax
  program line 2: syntax
  program line 2: syntax
  [2]
  $ refused 'RINGMASTER ring PORT 9000;\n'
  program line 1: syntax
  program line 1: syntax
  program line 1: syntax
  program line 1: syntax
  program line 1: syntax
  [2]
  $ refused 'CIRCUS 1;\nRINGMASTER ring PORT 9000;\nRINGMASTER ring PORT 9000;\n'
  program line 3: syntax
  program line 3: syntax
  program line 3: syntax
  program line 3: syntax
  program line 3: syntax
  [2]
  $ refused 'CIRCUS 1;\nRINGMASTER PORT PORT 9000;\n'
  program line 2: syntax
  program line 2: syntax
  program line 2: syntax
  program line 2: syntax
  program line 2: syntax
  [2]
  $ file 'CIRCUS 2; RINGMASTER ring PORT 9000;'
  circus history 1

Where the text of a file goes on as that of no program does. The `@` stands for a newline, and the frame is
empty.

  $ frame whole

  $ with 'CIRCUS 1; RINGMASTER r PORT 1;'
  circus history 1
  $ with 'CIRCUS 2; RINGMASTER r PORT 1;'
  circus history 1
  $ with 'CIRCUS 1; I: PROGRAM 1 VERSION 1 = BEGIN P: PROCEDURE = 1; END. MODULE A IMPLEMENTS I; BEGIN PROCEDURE P BEGIN RETURN []; END; END. ROOT Main IMPORTS A; BEGIN MAIN BEGIN CALL A.P []; RETURN []; END; END. RINGMASTER r PORT 1; TROUPE A CALLS FIRST REPLIES FIRST MEMBERS a PORT 2; TROUPE Main CALLS FIRST REPLIES FIRST MEMBERS m PORT 3;'
  circus history 1
  module A count 1
  run 0 path Main.0 procedure 1 clock 1,0 arguments []
  end 0 clock 1,0 returned [] state []
  module Main count 1
  run 0 path Main procedure 0 clock 0,0 arguments []
  ask 0 to A index 0 procedure 1 arguments [] state []
  reply 0 clock 1,0 returned []
  end 0 clock 1,0 returned [] state []
  $ with 'CIRCUS 2; I: PROGRAM 1 VERSION 1 = BEGIN P: PROCEDURE = 1; END. I: PROGRAM 1 VERSION 1 = BEGIN P: PROCEDURE = 1; END. ROOT Main IMPORTS A; BEGIN MAIN BEGIN CALL A.P []; RETURN []; END; END. MODULE A IMPLEMENTS I; BEGIN PROCEDURE P BEGIN RETURN []; END; END. RINGMASTER r PORT 1; TROUPE A CALLS FIRST REPLIES FIRST MEMBERS a PORT 2; TROUPE Main CALLS FIRST REPLIES FIRST MEMBERS m PORT 3;'
  program line 1: repeated name
  [2]
  $ with 'CIRCUS 1;'
  program line 2: syntax
  [2]
  $ with '@RINGMASTER r PORT 1;'
  program line 2: syntax
  [2]
  $ with 'CIRCUS @01; RINGMASTER r PORT 1;'
  program line 2: syntax
  [2]
  $ with 'CIRCUS @3; RINGMASTER r PORT 1;'
  program line 2: syntax
  [2]
  $ with 'CIRCUS @one; RINGMASTER r PORT 1;'
  program line 2: syntax
  [2]
  $ with 'CIRCUS 1 @RINGMASTER r PORT 1;'
  program line 2: syntax
  [2]
  $ with 'CIRCUS 1; MODULE A IMPLEMENTS I; BEGIN PROCEDURE P BEGIN RETURN []; END; END. @I: PROGRAM 1 VERSION 1 = BEGIN P: PROCEDURE = 1; END. RINGMASTER r PORT 1; TROUPE A CALLS FIRST REPLIES FIRST MEMBERS a PORT 2; TROUPE Main CALLS FIRST REPLIES FIRST MEMBERS m PORT 3;'
  program line 2: syntax
  [2]
  $ with 'CIRCUS 1; I: PROGRAM 1 VERSION 1 = BEGIN P: PROCEDURE = 1; END. RINGMASTER r PORT 1; @MODULE A IMPLEMENTS I; BEGIN PROCEDURE P BEGIN RETURN []; END; END. '
  program line 2: syntax
  [2]
  $ with 'CIRCUS 1; RINGMASTER r PORT 1; @RINGMASTER s PORT 2;'
  program line 2: syntax
  [2]
  $ with 'CIRCUS 1; I: PROGRAM 1 VERSION 1 = BEGIN P: PROCEDURE = 1; END. MODULE A IMPLEMENTS I; BEGIN PROCEDURE P BEGIN RETURN []; END; END. ROOT Main IMPORTS A; BEGIN MAIN BEGIN CALL A.P []; RETURN []; END; END. '
  program line 2: syntax
  [2]
  $ with 'CIRCUS 1; I: PROGRAM 1 VERSION 1 = BEGIN T: TYPE = ARRAY @OF STRING; END. RINGMASTER r PORT 1;'
  program line 2: syntax
  [2]
  $ with 'CIRCUS 1; I: PROGRAM 1 VERSION 1 = BEGIN P: PROCEDURE = 1; END. MODULE A IMPLEMENTS @; BEGIN END. RINGMASTER r PORT 1;'
  program line 2: syntax
  [2]
  $ with 'CIRCUS 1; I: PROGRAM 1 VERSION 1 = BEGIN P: PROCEDURE = 1; END. @TROUPE A CALLS FIRST REPLIES FIRST MEMBERS a PORT 2; RINGMASTER r PORT 1;'
  program line 2: syntax
  [2]
  $ with 'CIRCUS 1; @MAIN BEGIN END; RINGMASTER r PORT 1;'
  program line 2: syntax
  [2]

Types and lists of statements have at most 64 levels.

  $ frame nested_type
  $ nested 64 '' '\nARRAY 1 OF ' STRING ''
  program line 68: missing R
  [2]
  $ nested 65 '' '\nARRAY 1 OF ' STRING ''
  program line 67: nested too deep
  [2]
  $ frame nested_list
  $ nested 63 '' 'WHILE x @DO ' '' 'END; '
  program line 67: missing R
  [2]
  $ nested 64 '' 'WHILE x @DO ' '' 'END; '
  program line 66: nested too deep
  [2]

# Changed lines

frames/counter.circus is a program of 24 lines. In each case some of its lines are others: a number, and what
stands there, in which `\n` is a newline.

  $ cat "$TESTDIR/frames/counter.circus"
  CIRCUS 1;
  Count: PROGRAM 1 VERSION 1 =
  BEGIN
    Add: PROCEDURE [n: CARDINAL] RETURNS [sum: CARDINAL] = 1;
  END.
  MODULE Counter IMPLEMENTS Count;
  BEGIN
    VAR total: CARDINAL;
    PROCEDURE Add BEGIN
      total := total + n;
      RETURN [total];
    END;
  END.
  ROOT Main IMPORTS Counter;
  BEGIN
    VAR got: CARDINAL;
    MAIN BEGIN
      CALL Counter.Add [5] INTO [got];
      RETURN [];
    END;
  END.
  RINGMASTER ring PORT 9000;
  TROUPE Counter CALLS FIRST REPLIES FIRST MEMBERS s1 PORT 9001;
  TROUPE Main CALLS FIRST REPLIES FIRST MEMBERS m1 PORT 9002;

One pass comes before another, and in one the least place.

  $ changed 19 '    RETURN ];' 24 '$'
  program line 24: bad character
  [2]
  $ changed 4 '  Add: PROCEDURE [n, n: CARDINAL] = 1;' 24 '-- \0200'
  program line 24: bad character
  [2]
  $ changed 10 '    nope := total + n;' 24 'TROUPE Main $;'
  program line 24: bad character
  [2]
  $ changed 10 '    total := "a;' 19 '    RETURN ];'
  program line 10: open string
  [2]
  $ changed 10 '    nope := total + n;' 24 'TROUPE Main CALLS FIRST MEMBERS FIRST MEMBERS m1 PORT 9002;'
  program line 24: syntax
  [2]
  $ changed 2 'Count: PROGRAM 1 VERSION 65536 =' 19 '    RETURN ];'
  program line 2: out of range
  [2]
  $ changed 4 '  Add: PROCEDURE [n, n: CARDINAL] RETURNS [sum: CARDINAL] = 1;' 22 ' ring PORT 9000;'
  program line 4: repeated name
  [2]
  $ changed 4 '  Add: PROCEDURE [n: CARDINAL] RETURNS [sum: ARRAY 32769 OF\n ] = 1;'
  program line 5: syntax
  [2]
  $ changed 4 '  Add: PROCEDURE [n: CARDINAL] RETURNS [sum: ARRAY 32769 OF CARDINAL\n Nope = 1;'
  program line 4: too large
  [2]
  $ changed 10 '    total := total + (((((((((((((((((((((((((((((((((((((((((((((((((((((((((((((((n)))))))))))))))))))))))))))))))))))))))))))))))))))))))))))))));' 24 'TROUPE Main CALLS FIRST REPLIES FIRST MEMBERS ring PORT 9002;'
  program line 24: repeated name
  [2]
  $ changed 10 '    nope := total + n;' 24 'TROUPE Main CALLS FIRST REPLIES FIRST MEMBERS m1 PORT 9001;'
  program line 10: unknown name
  [2]
  $ changed 9 '  PROCEDURE Sub BEGIN'
  program line 6: missing Add
  [2]
  $ changed 10 '    total := total +\n (1 < nope);'
  program line 11: type mismatch
  [2]
  $ changed 10 '    total := 1 + TRUE;\r' 24 '\r'
  program line 10: type mismatch
  [2]

Where the reading stops.

  $ changed 19 '    RETURN ];'
  program line 19: syntax
  [2]
  $ changed 10 '    total := total + ((((((((((((((((((((((((((((((((((((((((((((((((((((((((((((((((n))))))))))))))))))))))))))))))))))))))))))))))))))))))))))))))));'
  program line 10: nested too deep
  [2]
  $ changed 23 'RINGMASTER again PORT 9003;'
  program line 23: syntax
  [2]
  $ changed 24 'TROUPE Main CALLS WATCHDOG REPLIES FIRST MEMBERS m1 PORT 9002;'
  program line 24: syntax
  [2]
  $ changed 8 '  VAR n, total: CARDINAL;'
  program line 8: syntax
  [2]

Rules of interfaces.

  $ changed 4 '  Add: PROCEDURE [n: CARDINAL] RETURNS [sum: Nope] = 1;'
  program line 4: unknown name
  [2]
  $ changed 4 '  Add: PROCEDURE [n: CARDINAL] RETURNS [sum: ARRAY 32769 OF CARDINAL] = 1;'
  program line 4: too large
  [2]
  $ changed 4 '  Add: PROCEDURE [n, o: ARRAY 20000 OF CARDINAL] RETURNS [sum: CARDINAL] = 1;'
  program line 4: too large
  [2]
  $ changed 6 'Count2: PROGRAM 2 VERSION 1 = BEGIN END.\nCount: PROGRAM 3 VERSION 1 = BEGIN END.\nMODULE Counter IMPLEMENTS Count;'
  program line 7: repeated name
  [2]
  $ changed 4 '  Big: ERROR = 60001;\n  Add: PROCEDURE [n: CARDINAL] RETURNS [sum: CARDINAL] = 1;'
  program line 4: out of range
  [2]
  $ changed 4 '  Add: PROCEDURE [n: CARDINAL] RETURNS [sum: CARDINAL]\n REPORTS [Add] = 1;'
  program line 5: unknown name
  [2]
  $ changed 4 '  Kind: TYPE = {\nfirst(1), second(1)};\n  Add: PROCEDURE [n: CARDINAL] RETURNS [sum: CARDINAL] = 1;'
  program line 5: repeated name
  [2]

Rules of modules, of what they declare and import.

  $ changed 22 'ROOT Other IMPORTS Counter;\nBEGIN\n  MAIN BEGIN\n    RETURN [];\n  END;\nEND.\nRINGMASTER ring PORT 9000;'
  program line 22: shared Counter Main Other
  [2]
  $ changed 14 'MODULE Counter IMPLEMENTS Count;\nBEGIN\n  PROCEDURE Add BEGIN\n    RETURN [n];\n  END;\nEND.\nROOT Main IMPORTS Counter;'
  program line 14: repeated name
  [2]
  $ changed 6 'MODULE Counter IMPLEMENTS Main;'
  program line 6: unknown name
  [2]
  $ changed 8 '  VAR total: ARRAY 0 OF CARDINAL;'
  program line 8: out of range
  [2]
  $ changed 8 '  VAR total: ARRAY 65535 OF CARDINAL;'
  program line 6: too large
  [2]
  $ changed 17 '  MAIN VAR other: ARRAY 65535 OF CARDINAL;\n BEGIN'
  program line 17: too large
  [2]
  $ changed 14 'ROOT Main IMPORTS Main;'
  program line 14: unknown name
  [2]
  $ changed 6 'MODULE Counter IMPLEMENTS Count IMPORTS Counter;'
  program line 6: forward import
  [2]
  $ changed 6 'ROOT Main IMPORTS Counter;\nBEGIN\n  VAR got: CARDINAL;\n  MAIN BEGIN\n    CALL Counter.Add [5] INTO [got];\n    RETURN [];\n  END;\nEND.\nMODULE Counter IMPLEMENTS Count;' 14 '' 15 '' 16 '' 17 '' 18 '' 19 '' 20 '' 21 ''
  program line 6: forward import
  [2]
  $ changed 12 '  END;\n  PROCEDURE Add BEGIN\n    RETURN [n];\n  END;'
  program line 13: repeated name
  [2]
  $ changed 8 '  VAR total: CARDINAL;\n  VAR total: STRING;'
  program line 9: repeated name
  [2]
  $ changed 8 '  VAR n: CARDINAL;\n  VAR total: CARDINAL;'
  program line 8: repeated name
  [2]
  $ changed 22 'ROOT Other IMPORTS\n Main;\nBEGIN\n  MAIN BEGIN RETURN []; END;\nEND.\nRINGMASTER ring PORT 9000;'
  program line 23: unknown name
  [2]

Rules of bodies.

  $ changed 10 '    nope := total + n;'
  program line 10: unknown name
  [2]
  $ changed 11 ''
  program line 9: no return
  [2]
  $ changed 19 ''
  program line 17: no return
  [2]
  $ changed 16 '  VAR got: STRING;'
  program line 18: type mismatch
  [2]
  $ changed 10 '    total := "a";'
  program line 10: type mismatch
  [2]
  $ changed 18 '    CALL Counter.Add [\n"a"] INTO [got];'
  program line 19: type mismatch
  [2]
  $ changed 18 '    CALL Counter.Sub [5] INTO [got];'
  program line 18: unknown name
  [2]
  $ changed 18 '    CALL Main.Add [5] INTO [got];'
  program line 18: unknown name
  [2]
  $ changed 18 '    CALL Counter.Add [5]\n INTO [got, got];'
  program line 19: type mismatch
  [2]
  $ changed 18 '    CALL Counter.Add [5] INTO [got]\n ON Full BEGIN END;'
  program line 19: unknown name
  [2]
  $ changed 18 '    CALL Counter.Add [5] INTO [got]\n ON OTHER BEGIN END\n ON OTHER BEGIN END;'
  program line 19: type mismatch
  [2]
  $ changed 11 '    RAISE Full [total];'
  program line 11: unknown name
  [2]
  $ changed 11 '    IF total > 7 THEN RETURN [7]; END;'
  program line 9: no return
  [2]

Rules of deployments.

  $ changed 24 ' '
  program line 25: missing Main
  [2]
  $ changed 23 '' 24 ''
  program line 23: missing Counter
  [2]
  $ changed 24 'TROUPE Main CALLS FIRST REPLIES FIRST MEMBERS m1 PORT 9001;'
  program line 24: repeated name
  [2]
  $ changed 24 'TROUPE Main CALLS FIRST REPLIES FIRST MEMBERS m1 PORT 0;'
  program line 24: out of range
  [2]
  $ changed 24 'TROUPE Main CALLS AT LEAST 17 REPLIES FIRST MEMBERS m1 PORT 9002;'
  program line 24: out of range
  [2]
  $ changed 24 'TROUPE Mains CALLS FIRST REPLIES FIRST MEMBERS m1 PORT 9002;'
  program line 24: unknown name
  [2]
  $ changed 24 'TROUPE Counter CALLS FIRST REPLIES FIRST MEMBERS m1 PORT 9002;'
  program line 24: repeated name
  [2]
  $ changed 23 'TROUPE Counter CALLS FIRST REPLIES FIRST MEMBERS s0 PORT 100,\ns1 PORT 101,\ns2 PORT 102,\ns3 PORT 103,\ns4 PORT 104,\ns5 PORT 105,\ns6 PORT 106,\ns7 PORT 107,\ns8 PORT 108,\ns9 PORT 109,\ns10 PORT 110,\ns11 PORT 111,\ns12 PORT 112,\ns13 PORT 113,\ns14 PORT 114,\ns15 PORT 115,\ns16 PORT 116;'
  program line 39: too many
  [2]
  $ changed 24 'TROUPE Main CALLS FIRST REPLIES FIRST MEMBERS m1 PORT 9002 SPARES m2 PORT 9001;'
  program line 24: repeated name
  [2]
  $ changed 24 'TROUPE Main CALLS FIRST REPLIES FIRST MEMBERS m1 PORT 9002 SPARES\n m1 PORT 9003;'
  program line 25: repeated name
  [2]
  $ changed 24 'TROUPE Main CALLS FIRST REPLIES FIRST MEMBERS m1 PORT 65536;'
  program line 24: out of range
  [2]
  $ changed 24 'TROUPE Main CALLS AT LEAST 0 REPLIES FIRST MEMBERS m1 PORT 9002;'
  program line 24: out of range
  [2]

Others are read, and some are refused.

  $ cp "$TESTDIR/frames/counter.circus" p; circus run p | tail -n 1
  end 0 clock 1,0 returned [] state [5]
  $ changed 1 'CIRCUS 2;-- two' | tail -n 1
  end 0 clock 1,0 returned [] state [5]
  $ changed 24 '-- \n TROUPE Main CALLS FIRST REPLIES FIRST MEMBERS Counter PORT 9002 SPARES m2 PORT 1, Count PORT 65535;' | tail -n 1
  end 0 clock 1,0 returned [] state [5]

# Files that are cut

Before its last semicolon the beginning of the program is none: each is refused on the line of its end, by
each form. Its end is where it stops; the newline behind it is not needed.

  $ cp "$TESTDIR/frames/counter.circus" whole
  > end=$(($(wc -c <whole) - 1))
  > at=0
  > while [ $at -lt $end ]; do
  >     head -c $at whole >p
  >     at=$((at + 1))
  >     for form in 'run p' 'stubs p' 'replay p absent'; do
  >         written=$(circus $form)
  >         told=$?
  >         case "$told $written" in
  >         "2 program line $(($(wc -l <p) + 1)): "*) ;;
  >         *) echo "$at: $told $written" ;;
  >         esac
  >     done
  > done
  $ head -c $end whole >p; circus run p | tail -n 1
  end 0 clock 1,0 returned [] state [5]

# As much as there may be, and one more

  $ interfaces() {
  >     echo 'CIRCUS 1;'
  >     for n in $(seq $1); do echo "I$n: PROGRAM $n VERSION 1 = BEGIN END."; done
  >     echo 'RINGMASTER ring PORT 9000;'
  > }
  > interfaces 32 >p; circus run p
  circus history 1
  $ interfaces 33 >p; circus run p
  program line 34: too many
  [2]
  $ roots() {
  >     echo 'CIRCUS 1;'
  >     for n in $(seq $1); do echo "ROOT R$n; BEGIN MAIN BEGIN RETURN []; END; END."; done
  >     echo 'RINGMASTER ring PORT 9000;'
  >     for n in $(seq $1); do echo "TROUPE R$n CALLS FIRST REPLIES FIRST MEMBERS r$n PORT ${n}1;"; done
  > }
  > roots 32 >p; circus run p | tail -n 1 | cut -c 1-70
  end 0 clock 0,0,0,0,0,0,0,0,0,0,0,0,0,0,0,0,0,0,0,0,0,0,0,0,0,0,0,0,0,
  $ roots 33 >p; circus run p
  program line 34: too many
  [2]
The nodes of a program are at most 64, with that of the Ringmaster, and the members that a troupe begins with
at most 16.

  $ hosts() {
  >     echo 'CIRCUS 1; ROOT R; BEGIN MAIN BEGIN RETURN []; END; END.'
  >     echo 'RINGMASTER ring PORT 9000;'
  >     printf 'TROUPE R CALLS FIRST REPLIES FIRST MEMBERS %s' "$1"
  >     for n in $(seq $2); do printf ',\ns%s PORT %s3' $n $n; done
  >     echo ';'
  > }
  > hosts 'r PORT 1 SPARES s PORT 2' 61 >p; circus run p | tail -n 1
  end 0 clock 0 returned [] state []
  $ hosts 'r PORT 1 SPARES s PORT 2' 62 >p; circus run p
  program line 65: too many
  [2]
  $ hosts 'r PORT 1' 15 >p; circus run p | tail -n 1
  end 0 clock 0 returned [] state []
  $ hosts 'r PORT 1' 16 >p; circus run p
  program line 19: too many
  [2]
A program has at most 1,048,576 bytes, whatever they are.

  $ long() {
  >     printf 'CIRCUS 1; RINGMASTER ring PORT 9;'
  >     head -c $(($1 - 33)) /dev/zero | tr '\0' '\n'
  > }
  > long 1048576 >p; circus run p
  circus history 1
  $ printf '$' >>p; circus run p
  program line 1: too large
  [2]
  $ long 1048577 >p; circus run p
  program line 1: too large
  [2]
A file of more than 16,777,216 bytes is not fetched.

  $ head -c 16777216 /dev/zero >p; circus run p
  program line 1: too large
  [2]
  $ head -c 16777217 /dev/zero >p; circus run p
  shelf fault: p
  [4]
