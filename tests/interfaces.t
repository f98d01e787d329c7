Interfaces: what is refused, and where. In each case the `@` is a newline in front of what is refused. HERE is on
line 3 of the frame, which declares an interface that no module implements.

  $ . "$TESTDIR/cases.sh"

  $ frame declared

Names that nothing before has.

  $ with 'A: TYPE = @B; B: TYPE = CARDINAL;'
  program line 4: unknown name
  [2]
  $ with 'A: TYPE = @A;'
  program line 4: unknown name
  [2]
  $ with 'A: TYPE = @M.T;'
  program line 4: unknown name
  [2]
  $ with 'T: TYPE = CARDINAL; A: TYPE = @T.T;'
  program line 4: unknown name
  [2]
  $ with 'E: ERROR = 1; A: TYPE = @E;'
  program line 4: unknown name
  [2]
  $ with 'A: TYPE = SEQUENCE OF @B;'
  program line 4: unknown name
  [2]
  $ with 'E: ERROR [a: @B] = 1;'
  program line 4: unknown name
  [2]
  $ with 'P: PROCEDURE RETURNS [a: @B] = 1;'
  program line 4: unknown name
  [2]
  $ with 'P: PROCEDURE REPORTS [@E] = 1; E: ERROR = 1;'
  program line 4: unknown name
  [2]
  $ with 'T: TYPE = CARDINAL; P: PROCEDURE REPORTS [@T] = 1;'
  program line 4: unknown name
  [2]
  $ with 'E: ERROR = 1; P: PROCEDURE REPORTS [E, @F] = 1;'
  program line 4: unknown name
  [2]

Names and numbers that come twice.

  $ with 'A: TYPE = CARDINAL; @A: TYPE = STRING;'
  program line 4: repeated name
  [2]
  $ with 'A: TYPE = CARDINAL; @A: ERROR = 1;'
  program line 4: repeated name
  [2]
  $ with 'A: ERROR = 1; @A: PROCEDURE = 1;'
  program line 4: repeated name
  [2]
  $ with 'A: ERROR = 1; B: ERROR = @1;'
  program line 4: repeated name
  [2]
  $ with 'A: PROCEDURE = 7; B: PROCEDURE = @7;'
  program line 4: repeated name
  [2]
  $ with 'A: ERROR [a, b, @a: CARDINAL] = 1;'
  program line 4: repeated name
  [2]
  $ with 'A: ERROR [a: CARDINAL, b, @a: STRING] = 1;'
  program line 4: repeated name
  [2]
  $ with 'A: PROCEDURE [a: CARDINAL, @a: CARDINAL] = 1;'
  program line 4: repeated name
  [2]
  $ with 'A: PROCEDURE RETURNS [a, @a: CARDINAL] = 1;'
  program line 4: repeated name
  [2]
  $ with 'A: TYPE = RECORD [f: CARDINAL, @f: STRING];'
  program line 4: repeated name
  [2]
  $ with 'A: TYPE = {x(1), @x(2)};'
  program line 4: repeated name
  [2]
  $ with 'A: TYPE = {x(1), y(@1)};'
  program line 4: repeated name
  [2]
  $ with 'A: TYPE = CHOICE OF {x(1) => CARDINAL, @x(2) => STRING};'
  program line 4: repeated name
  [2]
  $ with 'A: TYPE = CHOICE OF {x(1) => CARDINAL, y(@1) => STRING};'
  program line 4: repeated name
  [2]
  $ with 'A: TYPE = ARRAY 32769 OF RECORD [x: CARDINAL, @x: CARDINAL];'
  program line 4: repeated name
  [2]
  $ with 'P: ERROR = 1; @P: PROCEDURE [a: ARRAY 32769 OF CARDINAL] = 1;'
  program line 4: repeated name
  [2]

Numbers out of range, and records without fields where there may be none.

  $ with 'A: ERROR = @60000;'
  program line 4: out of range
  [2]
  $ with 'A: PROCEDURE = @65536;'
  program line 4: out of range
  [2]
  $ with 'A: TYPE = {x(@65536)};'
  program line 4: out of range
  [2]
  $ with 'A: TYPE = CHOICE OF {x(@65536) => CARDINAL};'
  program line 4: out of range
  [2]
  $ with 'A: TYPE = ARRAY @0 OF CARDINAL;'
  program line 4: out of range
  [2]
  $ with 'A: TYPE = ARRAY @65536 OF CARDINAL;'
  program line 4: out of range
  [2]
  $ with 'A: TYPE = SEQUENCE @65536 OF CARDINAL;'
  program line 4: out of range
  [2]
  $ with 'A: TYPE = @RECORD [];'
  program line 4: out of range
  [2]
  $ with 'A: TYPE = SEQUENCE OF @RECORD [];'
  program line 4: out of range
  [2]
  $ with 'A: ERROR [a: @RECORD []] = 1;'
  program line 4: out of range
  [2]
  $ with 'A: TYPE = CHOICE OF {x(1) => RECORD [f: @RECORD []]};'
  program line 4: out of range
  [2]

What may need more than 65,536 bytes.

  $ with 'A: TYPE = @ARRAY 32769 OF CARDINAL;'
  program line 4: too large
  [2]
  $ with 'A: TYPE = @ARRAY 100 OF ARRAY 100 OF ARRAY 100 OF CARDINAL;'
  program line 4: too large
  [2]
  $ with 'A: TYPE = ARRAY 32768 OF CARDINAL; B: TYPE = @RECORD [a: A, b: BOOLEAN];'
  program line 4: too large
  [2]
  $ with 'E: ERROR [a: @ARRAY 32769 OF CARDINAL] = 1;'
  program line 4: too large
  [2]
  $ with 'A: TYPE = ARRAY 32768 OF CARDINAL; @P: PROCEDURE [a: A, b: CARDINAL] = 1;'
  program line 4: too large
  [2]
  $ with '@P: PROCEDURE [a, b: ARRAY 32768 OF CARDINAL] = 1;'
  program line 4: too large
  [2]
  $ with '@P: PROCEDURE [a: ARRAY 32769 OF CARDINAL] = 1;'
  program line 4: too large
  [2]
  $ with 'P: PROCEDURE [a: @ARRAY 32769 OF CARDINAL, b: Q] = 1;'
  program line 4: too large
  [2]
  $ with 'P: PROCEDURE RETURNS [a: @ARRAY 32769 OF CARDINAL] = 1;'
  program line 4: too large
  [2]

Where no interface goes on.

  $ with 'A: TYPE = CARDINAL @C: TYPE = STRING;'
  program line 4: syntax
  [2]
  $ with 'A: TYPE = RECORD [ @5'
  program line 4: syntax
  [2]
  $ with 'A: TYPE = RECORD [a: ARRAY 40000 OF LONG CARDINAL @5'
  program line 4: syntax
  [2]
  $ with 'A: TYPE = {@};'
  program line 4: syntax
  [2]
  $ with 'A: ERROR [] @;'
  program line 4: syntax
  [2]
  $ with 'A: PROCEDURE REPORTS [@] = 1;'
  program line 4: syntax
  [2]
  $ with '@TYPE: TYPE = CARDINAL;'
  program line 4: syntax
  [2]

A rule is broken in front of the place where no interface goes on.

  $ with 'A: TYPE = @B; C TYPE'
  program line 4: unknown name
  [2]
  $ with 'A: TYPE = CARDINAL; @A'
  program line 4: repeated name
  [2]
  $ with 'A: TYPE = @ARRAY 40000 OF CARDINAL C'
  program line 4: too large
  [2]
  $ with 'A: ERROR = @60000; C'
  program line 4: out of range
  [2]

A type and a list of fields within which no interface goes on: a rule counts where what it speaks of is whole.

  $ with 'P: PROCEDURE [a: ARRAY 32768 OF CARDINAL, b: CARDINAL @C'
  program line 4: syntax
  [2]
  $ with '@P: PROCEDURE [a: ARRAY 32768 OF CARDINAL, b: CARDINAL] C'
  program line 4: too large
  [2]
  $ with 'P: PROCEDURE [a: @ARRAY 32769 OF CARDINAL, b: 5'
  program line 4: too large
  [2]
  $ with 'P: PROCEDURE [a: ARRAY 32769 OF @5'
  program line 4: syntax
  [2]
  $ with 'P: PROCEDURE RETURNS [a: @ARRAY 32769 OF CARDINAL C'
  program line 4: too large
  [2]
  $ with 'E: ERROR [a: RECORD [b: ARRAY 40000 OF CARDINAL, c @5'
  program line 4: syntax
  [2]
  $ with 'A: TYPE = @RECORD [a: ARRAY 40000 OF CARDINAL] 5'
  program line 4: too large
  [2]
  $ with 'A: TYPE = RECORD [a: @B, c 5'
  program line 4: unknown name
  [2]
  $ with 'A: TYPE = RECORD [a, @a: CARDINAL, b 5'
  program line 4: repeated name
  [2]

Interfaces that are accepted.

  $ with ''
  circus history 1
  $ with 'A: ERROR = 1; B: PROCEDURE = 1;'
  circus history 1
  $ with 'A: ERROR = 59999; B: PROCEDURE = 65535;'
  circus history 1
  $ with 'A: PROCEDURE [a: CARDINAL] RETURNS [a: CARDINAL] = 1;'
  circus history 1
  $ with 'A: TYPE = SEQUENCE 0 OF CARDINAL;'
  circus history 1
  $ with 'A: TYPE = SEQUENCE OF CARDINAL;'
  circus history 1
  $ with 'A: TYPE = CHOICE OF {x(1) => RECORD []};'
  circus history 1
  $ with 'E: ERROR [] = 1; P: PROCEDURE REPORTS [E, E] = 1;'
  circus history 1
  $ with 'A: TYPE = ARRAY 32768 OF CARDINAL;'
  circus history 1
  $ with 'E: ERROR [a: ARRAY 32768 OF CARDINAL, b: CARDINAL] = 1;'
  circus history 1
  $ with 'P: PROCEDURE RETURNS [a: ARRAY 32768 OF CARDINAL, b: CARDINAL] = 1;'
  circus history 1
  $ with 'A: TYPE = CHOICE OF {x(1) => CARDINAL, y(2) => ARRAY 65535 OF LONG CARDINAL};'
  circus history 1
  $ with 'A: TYPE = SEQUENCE OF ARRAY 32769 OF CARDINAL;'
  circus history 1

The heading.

  $ frame parts

  $ with 'X: PROGRAM 4294967295 VERSION 65535 = BEGIN END.'
  circus history 1
  $ with 'X: PROGRAM @4294967296 VERSION 1 = BEGIN END.'
  program line 3: out of range
  [2]
  $ with 'X: PROGRAM 1 VERSION @65536 = BEGIN END.'
  program line 3: out of range
  [2]
  $ with '@IF: PROGRAM 1 VERSION 1 = BEGIN END.'
  program line 3: syntax
  [2]
  $ with 'X: PROGRAM 1 VERSION 1 = BEGIN END'
  program line 3: syntax
  [2]

A type has at most 64 levels, and with the names that it stands for not more either.

  $ frame declared
  $ nested 64 'A: TYPE = ' '\nSEQUENCE OF ' 'CARDINAL;' ''
  circus history 1
  $ nested 65 'A: TYPE = ' '\nSEQUENCE OF ' 'CARDINAL;' ''
  program line 68: nested too deep
  [2]
  $ nested 64 'A: TYPE = ' '\nSEQUENCE OF ' 'CARDINAL; B: TYPE = @SEQUENCE OF A;' ''
  program line 68: too large
  [2]

Nor has it more than 16,384 parts. Each type of this frame has two fields of the one before, and the last has
16,344 parts together with them; a type of 39 levels has 40.

  $ frame doubled
  $ nested 39 'Z: TYPE = ' 'SEQUENCE OF ' 'CARDINAL;' ''
  circus history 1
  $ nested 40 'Z: TYPE = @' 'SEQUENCE OF ' 'CARDINAL;' ''
  program line 16: too large
  [2]
