What the statements of a root do, each time in a program whose modules do nothing else: the clock, the
outcome and the state of its last run. The frames have the variables and what they are at first.

  $ . "$TESTDIR/cases.sh"

# Calculations

The variable n is a LONG INTEGER, and 0 at first.

  $ frame number

  $ ends 'n := 6 * 7;'
  end 0 clock 0,0 returned [] state [42]
  $ ends 'n := 3 - 5;'
  end 0 clock 0,0 returned [] state [-2]
  $ ends 'n := 3 + 5;'
  end 0 clock 0,0 returned [] state [8]
  $ ends 'n := -5;'
  end 0 clock 0,0 returned [] state [-5]
  $ ends 'n := 10 - (4) + 3;'
  end 0 clock 0,0 returned [] state [9]
  $ ends 'n := 2 + 3 * 4;'
  end 0 clock 0,0 returned [] state [14]
  $ ends 'n := - -5;'
  end 0 clock 0,0 returned [] state [5]

DIV rounds toward zero, and MOD has the sign of the dividend.

  $ ends 'n := 7 DIV 2;'
  end 0 clock 0,0 returned [] state [3]
  $ ends 'n := -7 DIV 2;'
  end 0 clock 0,0 returned [] state [-3]
  $ ends 'n := 7 DIV -2;'
  end 0 clock 0,0 returned [] state [-3]
  $ ends 'n := -7 DIV -2;'
  end 0 clock 0,0 returned [] state [3]
  $ ends 'n := 7 MOD 2;'
  end 0 clock 0,0 returned [] state [1]
  $ ends 'n := -7 MOD 2;'
  end 0 clock 0,0 returned [] state [-1]
  $ ends 'n := 7 MOD -2;'
  end 0 clock 0,0 returned [] state [1]
  $ ends 'n := -7 MOD -2;'
  end 0 clock 0,0 returned [] state [-1]

A divisor 0.

  $ ends 'n := 1 DIV 0;'
  end 0 clock 0,0 raised 60003 [] state [0]
  $ ends 'n := 1 MOD 0;'
  end 0 clock 0,0 raised 60003 [] state [0]
  $ ends 'n := 0 DIV 0;'
  end 0 clock 0,0 raised 60003 [] state [0]

From -2^63 to 2^63 - 1.

  $ ends 'n := 9223372036854775807 + 1;'
  end 0 clock 0,0 raised 60001 [] state [0]
  $ ends 'n := -9223372036854775807 - 2;'
  end 0 clock 0,0 raised 60001 [] state [0]
  $ ends 'n := 9223372036854775807 * 2;'
  end 0 clock 0,0 raised 60001 [] state [0]
  $ ends 'n := 4294967296 * 2147483648;'
  end 0 clock 0,0 raised 60001 [] state [0]
  $ ends 'n := 9223372036854775807 DIV 4294967296;'
  end 0 clock 0,0 returned [] state [2147483647]
  $ ends 'n := -(-9223372036854775807 - 1);'
  end 0 clock 0,0 raised 60001 [] state [0]
  $ ends 'n := (-9223372036854775807 - 1) DIV -1;'
  end 0 clock 0,0 raised 60001 [] state [0]
  $ ends 'n := 5; n := (-9223372036854775807 - 1) MOD -1;'
  end 0 clock 0,0 returned [] state [0]
  $ ends 'n := (-9223372036854775807 - 1) + 9223372036854775807;'
  end 0 clock 0,0 returned [] state [-1]

The left side before the right one.

  $ ends 'n := 1 DIV 0 + (9223372036854775807 + 1);'
  end 0 clock 0,0 raised 60003 [] state [0]
  $ ends 'n := (9223372036854775807 + 1) + 1 DIV 0;'
  end 0 clock 0,0 raised 60001 [] state [0]

What a LONG INTEGER holds.

  $ ends 'n := 2147483647;'
  end 0 clock 0,0 returned [] state [2147483647]
  $ ends 'n := 2147483648;'
  end 0 clock 0,0 raised 60001 [] state [0]
  $ ends 'n := -2147483648;'
  end 0 clock 0,0 returned [] state [-2147483648]
  $ ends 'n := -2147483649;'
  end 0 clock 0,0 raised 60001 [] state [0]

Lengths.

  $ ends 'n := LENGTH("abc");'
  end 0 clock 0,0 returned [] state [3]
  $ ends 'n := 5; n := LENGTH("");'
  end 0 clock 0,0 returned [] state [0]
  $ ends 'n := LENGTH("abc" & "de");'
  end 0 clock 0,0 returned [] state [5]
  $ ends 'n := LENGTH(M.S#[8, 9]);'
  end 0 clock 0,0 returned [] state [2]

A right side has the value before the assignment.

  $ ends 'n := 4; n := n + n * n;'
  end 0 clock 0,0 returned [] state [20]

What was stored before an error stays.

  $ ends 'n := 6; n := 1 DIV 0; n := 7;'
  end 0 clock 0,0 raised 60003 [] state [6]

# Kinds of numbers

A CARDINAL a, an INTEGER b and a LONG CARDINAL c, each of which is 3.

  $ frame kinds

  $ ends 'a := 65535;'
  end 0 clock 0,0 returned [] state [65535, 3, 3]
  $ ends 'a := 65536;'
  end 0 clock 0,0 raised 60001 [] state [3, 3, 3]
  $ ends 'a := -1;'
  end 0 clock 0,0 raised 60001 [] state [3, 3, 3]
  $ ends 'b := 32767;'
  end 0 clock 0,0 returned [] state [3, 32767, 3]
  $ ends 'b := 32768;'
  end 0 clock 0,0 raised 60001 [] state [3, 3, 3]
  $ ends 'b := -32768;'
  end 0 clock 0,0 returned [] state [3, -32768, 3]
  $ ends 'b := -32769;'
  end 0 clock 0,0 raised 60001 [] state [3, 3, 3]
  $ ends 'c := 4294967295;'
  end 0 clock 0,0 returned [] state [3, 3, 4294967295]
  $ ends 'c := 4294967296;'
  end 0 clock 0,0 raised 60001 [] state [3, 3, 3]
  $ ends 'c := -1;'
  end 0 clock 0,0 raised 60001 [] state [3, 3, 3]

Between variables of two kinds.

  $ ends 'b := -9; a := b;'
  end 0 clock 0,0 raised 60001 [] state [3, -9, 3]
  $ ends 'c := 32767; b := c;'
  end 0 clock 0,0 returned [] state [3, 32767, 32767]
  $ ends 'IF a = c THEN b := 4; END;'
  end 0 clock 0,0 returned [] state [3, 4, 3]

# Conditions

Each is assigned to a, which is FALSE, and to b, which is TRUE.

  $ frame truth
  $ condition() { ends "a := $1; b := $1;"; }

They hold.

  $ condition 'FALSE OR TRUE'
  end 0 clock 0,0 returned [] state [TRUE, TRUE]
  $ condition 'TRUE AND TRUE'
  end 0 clock 0,0 returned [] state [TRUE, TRUE]
  $ condition 'NOT FALSE'
  end 0 clock 0,0 returned [] state [TRUE, TRUE]

The right side is evaluated only where it is needed.

  $ condition 'TRUE OR 1 DIV 0 = 1'
  end 0 clock 0,0 returned [] state [TRUE, TRUE]
  $ condition '1 < 2'
  end 0 clock 0,0 returned [] state [TRUE, TRUE]
  $ condition '2 <= 2'
  end 0 clock 0,0 returned [] state [TRUE, TRUE]
  $ condition '3 > 2'
  end 0 clock 0,0 returned [] state [TRUE, TRUE]
  $ condition '2 >= 2'
  end 0 clock 0,0 returned [] state [TRUE, TRUE]
  $ condition '-1 < 0'
  end 0 clock 0,0 returned [] state [TRUE, TRUE]
  $ condition '-2 < -1'
  end 0 clock 0,0 returned [] state [TRUE, TRUE]
  $ condition '5 = 5'
  end 0 clock 0,0 returned [] state [TRUE, TRUE]
  $ condition 'NOT 5 = 6'
  end 0 clock 0,0 returned [] state [TRUE, TRUE]
  $ condition '5 <> 6'
  end 0 clock 0,0 returned [] state [TRUE, TRUE]
  $ condition 'TRUE = TRUE'
  end 0 clock 0,0 returned [] state [TRUE, TRUE]
  $ condition '"ab" = "ab"'
  end 0 clock 0,0 returned [] state [TRUE, TRUE]
  $ condition '"a" & "b" = "ab"'
  end 0 clock 0,0 returned [] state [TRUE, TRUE]
  $ condition 'M.C#red = M.C#red'
  end 0 clock 0,0 returned [] state [TRUE, TRUE]
  $ condition 'M.A#[1, 2] = M.A#[1, 2]'
  end 0 clock 0,0 returned [] state [TRUE, TRUE]
  $ condition 'M.R#[7, "x"] <> M.R#[7, "y"]'
  end 0 clock 0,0 returned [] state [TRUE, TRUE]
  $ condition 'M.K#one(TRUE) = M.K#one(TRUE)'
  end 0 clock 0,0 returned [] state [TRUE, TRUE]
  $ condition 'M.K#words("x") IS words'
  end 0 clock 0,0 returned [] state [TRUE, TRUE]
  $ condition 'M.K#none IS none'
  end 0 clock 0,0 returned [] state [TRUE, TRUE]
  $ condition '(M.K#num(3) IS num) AND NOT (M.K#num(3) IS int)'
  end 0 clock 0,0 returned [] state [TRUE, TRUE]
  $ condition 'TRUE OR FALSE AND FALSE'
  end 0 clock 0,0 returned [] state [TRUE, TRUE]

They do not.

  $ condition 'FALSE OR FALSE'
  end 0 clock 0,0 returned [] state [FALSE, FALSE]
  $ condition 'TRUE AND FALSE'
  end 0 clock 0,0 returned [] state [FALSE, FALSE]
  $ condition 'NOT TRUE'
  end 0 clock 0,0 returned [] state [FALSE, FALSE]
  $ condition 'FALSE AND 1 DIV 0 = 1'
  end 0 clock 0,0 returned [] state [FALSE, FALSE]
  $ condition '2 < 2'
  end 0 clock 0,0 returned [] state [FALSE, FALSE]
  $ condition '3 < 2'
  end 0 clock 0,0 returned [] state [FALSE, FALSE]
  $ condition '3 <= 2'
  end 0 clock 0,0 returned [] state [FALSE, FALSE]
  $ condition '2 > 2'
  end 0 clock 0,0 returned [] state [FALSE, FALSE]
  $ condition '1 >= 2'
  end 0 clock 0,0 returned [] state [FALSE, FALSE]
  $ condition '5 = -5'
  end 0 clock 0,0 returned [] state [FALSE, FALSE]
  $ condition 'TRUE = FALSE'
  end 0 clock 0,0 returned [] state [FALSE, FALSE]
  $ condition '"ab" = "a"'
  end 0 clock 0,0 returned [] state [FALSE, FALSE]
  $ condition 'NOT "" = ""'
  end 0 clock 0,0 returned [] state [FALSE, FALSE]
  $ condition 'M.C#red = M.C#blue'
  end 0 clock 0,0 returned [] state [FALSE, FALSE]
  $ condition 'M.S#[1, 2] = M.S#[1]'
  end 0 clock 0,0 returned [] state [FALSE, FALSE]
  $ condition 'M.R#[7, "x"] = M.R#[7, "y"]'
  end 0 clock 0,0 returned [] state [FALSE, FALSE]
  $ condition 'M.K#one(TRUE) = M.K#two(TRUE)'
  end 0 clock 0,0 returned [] state [FALSE, FALSE]
  $ condition 'M.K#words("x") IS none'
  end 0 clock 0,0 returned [] state [FALSE, FALSE]
  $ condition '(TRUE OR FALSE) AND FALSE'
  end 0 clock 0,0 returned [] state [FALSE, FALSE]

A division by 0 is evaluated.

  $ condition 'FALSE OR 1 DIV 0 = 1'
  end 0 clock 0,0 raised 60003 [] state [FALSE, TRUE]
  $ condition '1 DIV 0 = 1 OR TRUE'
  end 0 clock 0,0 raised 60003 [] state [FALSE, TRUE]
  $ condition 'TRUE AND 1 DIV 0 = 1'
  end 0 clock 0,0 raised 60003 [] state [FALSE, TRUE]
  $ condition '1 DIV 0 = 1 AND FALSE'
  end 0 clock 0,0 raised 60003 [] state [FALSE, TRUE]

All else goes from left to right, and both sides count.

  $ condition '1 DIV 0 = 9223372036854775807 + 1'
  end 0 clock 0,0 raised 60003 [] state [FALSE, TRUE]
  $ condition '0 = 1 DIV 0'
  end 0 clock 0,0 raised 60003 [] state [FALSE, TRUE]
  $ condition 'M.K#num(1 DIV 0) IS none'
  end 0 clock 0,0 raised 60003 [] state [FALSE, TRUE]
  $ condition 'LENGTH(M.S#[1 DIV 0, 65536]) = 2'
  end 0 clock 0,0 raised 60003 [] state [FALSE, TRUE]

A number is out of range.

  $ condition '9223372036854775807 + 1 < 1 DIV 0'
  end 0 clock 0,0 raised 60001 [] state [FALSE, TRUE]

An item of a list is converted right behind its evaluation.

  $ condition 'M.A#[65536, 1 DIV 0] = M.A#[1, 2]'
  end 0 clock 0,0 raised 60001 [] state [FALSE, TRUE]
  $ condition 'M.K#int(-32769) IS int'
  end 0 clock 0,0 raised 60001 [] state [FALSE, TRUE]
  $ condition 'M.R#[32768, "x"] = M.R#[7, "y"]'
  end 0 clock 0,0 raised 60001 [] state [FALSE, TRUE]

# Places

They are read.

  $ frame places

Items are read under a subscript below the length.

  $ ends 'n := a[0];'
  end 0 clock 0,0 returned [] state [10, {10, 20, 30}, {{1, 2}, {3, 4}}, {10, 20}, [10, "ten"], 1(9)]
  $ ends 'n := a[2];'
  end 0 clock 0,0 returned [] state [30, {10, 20, 30}, {{1, 2}, {3, 4}}, {10, 20}, [10, "ten"], 1(9)]
  $ ends 'n := a[3];'
  end 0 clock 0,0 raised 60002 [] state [5, {10, 20, 30}, {{1, 2}, {3, 4}}, {10, 20}, [10, "ten"], 1(9)]
  $ ends 'n := a[-1];'
  end 0 clock 0,0 raised 60002 [] state [5, {10, 20, 30}, {{1, 2}, {3, 4}}, {10, 20}, [10, "ten"], 1(9)]
  $ ends 'n := s[1];'
  end 0 clock 0,0 returned [] state [20, {10, 20, 30}, {{1, 2}, {3, 4}}, {10, 20}, [10, "ten"], 1(9)]
  $ ends 'n := s[2];'
  end 0 clock 0,0 raised 60002 [] state [5, {10, 20, 30}, {{1, 2}, {3, 4}}, {10, 20}, [10, "ten"], 1(9)]
  $ ends 's := M.S#[]; n := s[0];'
  end 0 clock 0,0 raised 60002 [] state [5, {10, 20, 30}, {{1, 2}, {3, 4}}, {}, [10, "ten"], 1(9)]

A subscript may be an item.

  $ ends 'n := a[g[0][0]];'
  end 0 clock 0,0 returned [] state [20, {10, 20, 30}, {{1, 2}, {3, 4}}, {10, 20}, [10, "ten"], 1(9)]

In an expression each subscript is tested before the next one is evaluated.

  $ ends 'n := g[2][1 DIV 0];'
  end 0 clock 0,0 raised 60002 [] state [5, {10, 20, 30}, {{1, 2}, {3, 4}}, {10, 20}, [10, "ten"], 1(9)]
  $ ends 'n := g[1][0];'
  end 0 clock 0,0 returned [] state [3, {10, 20, 30}, {{1, 2}, {3, 4}}, {10, 20}, [10, "ten"], 1(9)]
  $ ends 'n := LENGTH(s);'
  end 0 clock 0,0 returned [] state [2, {10, 20, 30}, {{1, 2}, {3, 4}}, {10, 20}, [10, "ten"], 1(9)]
  $ ends 'n := LENGTH(r.name) + r.x;'
  end 0 clock 0,0 returned [] state [13, {10, 20, 30}, {{1, 2}, {3, 4}}, {10, 20}, [10, "ten"], 1(9)]

The chosen arm, and another one.

  $ ends 'n := k.num;'
  end 0 clock 0,0 returned [] state [9, {10, 20, 30}, {{1, 2}, {3, 4}}, {10, 20}, [10, "ten"], 1(9)]
  $ ends 'IF k.flag THEN n := 6; END;'
  end 0 clock 0,0 raised 60008 [] state [5, {10, 20, 30}, {{1, 2}, {3, 4}}, {10, 20}, [10, "ten"], 1(9)]
  $ ends 'n := LENGTH(k.list);'
  end 0 clock 0,0 raised 60008 [] state [5, {10, 20, 30}, {{1, 2}, {3, 4}}, {10, 20}, [10, "ten"], 1(9)]
  $ ends 'IF k IS num THEN n := 6; END;'
  end 0 clock 0,0 returned [] state [6, {10, 20, 30}, {{1, 2}, {3, 4}}, {10, 20}, [10, "ten"], 1(9)]
  $ ends 'IF k IS flag THEN n := 6; END;'
  end 0 clock 0,0 returned [] state [5, {10, 20, 30}, {{1, 2}, {3, 4}}, {10, 20}, [10, "ten"], 1(9)]

They are written.

  $ frame places

Items are stored in their place alone.

  $ ends 'a[1] := 7;'
  end 0 clock 0,0 returned [] state [5, {10, 7, 30}, {{1, 2}, {3, 4}}, {10, 20}, [10, "ten"], 1(9)]
  $ ends 'g[0][1] := 7;'
  end 0 clock 0,0 returned [] state [5, {10, 20, 30}, {{1, 7}, {3, 4}}, {10, 20}, [10, "ten"], 1(9)]
  $ ends 'g[1] := M.A#[8, 9];'
  end 0 clock 0,0 returned [] state [5, {10, 20, 30}, {{1, 2}, {8, 9}}, {10, 20}, [10, "ten"], 1(9)]
  $ ends 'a[3] := 7;'
  end 0 clock 0,0 raised 60002 [] state [5, {10, 20, 30}, {{1, 2}, {3, 4}}, {10, 20}, [10, "ten"], 1(9)]
  $ ends 's[-1] := 7;'
  end 0 clock 0,0 raised 60002 [] state [5, {10, 20, 30}, {{1, 2}, {3, 4}}, {10, 20}, [10, "ten"], 1(9)]

The right side is evaluated before the subscripts.

  $ ends 'a[1 DIV 0] := 9223372036854775807 + 1;'
  end 0 clock 0,0 raised 60001 [] state [5, {10, 20, 30}, {{1, 2}, {3, 4}}, {10, 20}, [10, "ten"], 1(9)]

All subscripts are evaluated before the place is gone into.

  $ ends 'g[2][1 DIV 0] := 7;'
  end 0 clock 0,0 raised 60003 [] state [5, {10, 20, 30}, {{1, 2}, {3, 4}}, {10, 20}, [10, "ten"], 1(9)]

The place is gone into before the number is converted.

  $ ends 'a[3] := 65536;'
  end 0 clock 0,0 raised 60002 [] state [5, {10, 20, 30}, {{1, 2}, {3, 4}}, {10, 20}, [10, "ten"], 1(9)]
  $ ends 'a[2] := 65536;'
  end 0 clock 0,0 raised 60001 [] state [5, {10, 20, 30}, {{1, 2}, {3, 4}}, {10, 20}, [10, "ten"], 1(9)]

A whole value.

  $ ends 'a := M.A3#[1, 2, 3];'
  end 0 clock 0,0 returned [] state [5, {1, 2, 3}, {{1, 2}, {3, 4}}, {10, 20}, [10, "ten"], 1(9)]
  $ ends 's := M.S#[];'
  end 0 clock 0,0 returned [] state [5, {10, 20, 30}, {{1, 2}, {3, 4}}, {}, [10, "ten"], 1(9)]

Fields.

  $ ends 'r.name := "elf";'
  end 0 clock 0,0 returned [] state [5, {10, 20, 30}, {{1, 2}, {3, 4}}, {10, 20}, [10, "elf"], 1(9)]
  $ ends 'r.x := -1;'
  end 0 clock 0,0 raised 60001 [] state [5, {10, 20, 30}, {{1, 2}, {3, 4}}, {10, 20}, [10, "ten"], 1(9)]

The chosen arm; the arm is tested before the number is converted.

  $ ends 'k.num := 7;'
  end 0 clock 0,0 returned [] state [5, {10, 20, 30}, {{1, 2}, {3, 4}}, {10, 20}, [10, "ten"], 1(7)]
  $ ends 'k.flag := TRUE;'
  end 0 clock 0,0 raised 60008 [] state [5, {10, 20, 30}, {{1, 2}, {3, 4}}, {10, 20}, [10, "ten"], 1(9)]
  $ ends 'k.far := 65536;'
  end 0 clock 0,0 raised 60008 [] state [5, {10, 20, 30}, {{1, 2}, {3, 4}}, {10, 20}, [10, "ten"], 1(9)]

Another arm is chosen by a whole value.

  $ ends 'k := M.Q#flag(TRUE);'
  end 0 clock 0,0 returned [] state [5, {10, 20, 30}, {{1, 2}, {3, 4}}, {10, 20}, [10, "ten"], 2(TRUE)]

APPEND, also through the chosen arm, and through that one alone.

  $ ends 'APPEND 30 TO s;'
  end 0 clock 0,0 returned [] state [5, {10, 20, 30}, {{1, 2}, {3, 4}}, {10, 20, 30}, [10, "ten"], 1(9)]
  $ ends 'APPEND 65536 TO s;'
  end 0 clock 0,0 raised 60001 [] state [5, {10, 20, 30}, {{1, 2}, {3, 4}}, {10, 20}, [10, "ten"], 1(9)]
  $ ends 'k := M.Q#list(M.S#[10]); APPEND 20 TO k.list;'
  end 0 clock 0,0 returned [] state [5, {10, 20, 30}, {{1, 2}, {3, 4}}, {10, 20}, [10, "ten"], 3({10, 20})]
  $ ends 'APPEND 20 TO k.list;'
  end 0 clock 0,0 raised 60008 [] state [5, {10, 20, 30}, {{1, 2}, {3, 4}}, {10, 20}, [10, "ten"], 1(9)]

Two sequences have bounds.

  $ frame bounded

  $ ends 'APPEND 2 TO s;'
  end 0 clock 0,0 returned [] state [{1, 2}, {}]
  $ ends 'APPEND 2 TO s; APPEND 3 TO s;'
  end 0 clock 0,0 raised 60004 [] state [{1, 2}, {}]

The number is converted before the bound is tested.

  $ ends 'APPEND 2 TO s; APPEND 65536 TO s;'
  end 0 clock 0,0 raised 60001 [] state [{1, 2}, {}]
  $ ends 'APPEND "a" TO e;'
  end 0 clock 0,0 raised 60004 [] state [{1}, {}]

# Statements

  $ frame statements

IF.

  $ ends 'n := 1; IF n < 2 THEN n := 20; ELSE n := 30; END;'
  end 0 clock 0,0 returned [] state [20, {}, {}]
  $ ends 'n := 2; IF n < 2 THEN n := 20; ELSE n := 30; END;'
  end 0 clock 0,0 returned [] state [30, {}, {}]
  $ ends 'n := 2; IF n < 2 THEN n := 20; END;'
  end 0 clock 0,0 returned [] state [2, {}, {}]
  $ ends 'IF TRUE THEN IF FALSE THEN n := 20; ELSE n := 25; END; ELSE n := 30; END;'
  end 0 clock 0,0 returned [] state [25, {}, {}]
  $ ends 'n := 2; IF 1 DIV 0 = 1 THEN n := 20; ELSE n := 30; END;'
  end 0 clock 0,0 raised 60003 [] state [2, {}, {}]

WHILE.

  $ ends 'WHILE n < 10 DO n := n + 1; END;'
  end 0 clock 0,0 returned [] state [10, {}, {}]
  $ ends 'n := 11; WHILE n < 10 DO n := n + 1; END;'
  end 0 clock 0,0 returned [] state [11, {}, {}]

A loop in a loop: 3 times 4 turns.

  $ ends 'WHILE LENGTH(s) < 3 DO t := M.S#[]; WHILE LENGTH(t) < 4 DO n := n + 1; APPEND 0 TO t; END; APPEND 1 TO s; END;'
  end 0 clock 0,0 returned [] state [12, {1, 1, 1}, {0, 0, 0, 0}]

Turns are made until the condition raises.

  $ ends 'WHILE 6 DIV (2 - n) > 0 DO n := n + 1; END;'
  end 0 clock 0,0 raised 60003 [] state [2, {}, {}]

RETURN ends a loop, and what stands behind it isn't done.

  $ ends 'WHILE TRUE DO IF n = 3 THEN RETURN []; n := 9; END; n := n + 1; END;'
  end 0 clock 0,0 returned [] state [3, {}, {}]
  $ ends 'RETURN []; n := 6;'
  end 0 clock 0,0 returned [] state [0, {}, {}]
  $ ends 'WHILE n < 3 DO APPEND n TO s; n := n + 1; END;'
  end 0 clock 0,0 returned [] state [3, {0, 1, 2}, {}]

A value is copied: the one that it was copied of changes alone.

  $ ends 's := M.S#[1]; t := s; APPEND 2 TO s;'
  end 0 clock 0,0 returned [] state [0, {1, 2}, {1}]
  $ ends 's := M.S#[8, 9]; t := s; s[0] := 7;'
  end 0 clock 0,0 returned [] state [0, {7, 9}, {8, 9}]
  $ ends 'n := 4; APPEND n TO s; n := n + s[0]; APPEND n TO s;'
  end 0 clock 0,0 returned [] state [8, {4, 8}, {}]
  $ ends 'n := 4; n := n - 5;'
  end 0 clock 0,0 raised 60001 [] state [4, {}, {}]

# Calls

The module that is called gives 4 more than it is asked with, raises the errors 7, 8 and 9 of its own where it
is asked with their numbers, 60001 where with 1 and 60003 where with 3.

  $ frame calls

A result is stored, or dropped.

  $ ends 'CALL B.Ask [n] INTO [m];'
  end 0 clock 1,0 returned [] state [5, 9, {0, 0}]
  $ ends 'CALL B.Ask [n];'
  end 0 clock 1,0 returned [] state [5, 0, {0, 0}]

The handler of an error, then what stands behind the call.

  $ ends 'CALL B.Ask [7] INTO [m] ON Seven [m] BEGIN m := m + 1; END; n := 6;'
  end 0 clock 1,0 returned [] state [6, 41, {0, 0}]
  $ ends 'CALL B.Ask [7] INTO [m] ON Seven BEGIN n := 6; END;'
  end 0 clock 1,0 returned [] state [6, 0, {0, 0}]

The handler isn't run where the call returns.

  $ ends 'CALL B.Ask [5] INTO [m] ON Seven [m] BEGIN m := 1; END ON OTHER BEGIN m := 2; END;'
  end 0 clock 1,0 returned [] state [5, 9, {0, 0}]

An error that nothing handles is raised again, if the language raised it.

  $ ends 'CALL B.Ask [8] INTO [m] ON Seven [m] BEGIN n := 6; END; n := 7;'
  end 0 clock 1,0 raised 60009 [] state [5, 0, {0, 0}]
  $ ends 'CALL B.Ask [9] INTO [m]; n := 7;'
  end 0 clock 1,0 raised 60009 [] state [5, 0, {0, 0}]
  $ ends 'CALL B.Ask [1] INTO [m] ON Seven [m] BEGIN n := 6; END; n := 7;'
  end 0 clock 1,0 raised 60001 [] state [5, 0, {0, 0}]
  $ ends 'CALL B.Ask [3] INTO [m]; n := 7;'
  end 0 clock 1,0 raised 60003 [] state [5, 0, {0, 0}]

OTHER handles every other error.

  $ ends 'CALL B.Ask [7] INTO [m] ON Seven [m] BEGIN m := m + 1; END ON OTHER BEGIN m := 99; END;'
  end 0 clock 1,0 returned [] state [5, 41, {0, 0}]
  $ ends 'CALL B.Ask [8] INTO [m] ON Seven [m] BEGIN m := m + 1; END ON OTHER BEGIN m := 99; END;'
  end 0 clock 1,0 returned [] state [5, 99, {0, 0}]
  $ ends 'CALL B.Ask [3] INTO [m] ON Seven [m] BEGIN m := m + 1; END ON OTHER BEGIN m := 99; END;'
  end 0 clock 1,0 returned [] state [5, 99, {0, 0}]

The first handler of an error serves.

  $ ends 'CALL B.Ask [7] ON Seven [m] BEGIN END ON Seven BEGIN m := 1; END;'
  end 0 clock 1,0 returned [] state [5, 40, {0, 0}]

A handler may raise, return and call. Its places are filled before.

  $ ends 'CALL B.Ask [7] ON Seven [m] BEGIN m := 1 DIV 0; END ON OTHER BEGIN m := 1; END;'
  end 0 clock 1,0 raised 60003 [] state [5, 40, {0, 0}]
  $ ends 'CALL B.Ask [7] ON Seven [m] BEGIN RETURN []; END; n := 6;'
  end 0 clock 1,0 returned [] state [5, 40, {0, 0}]
  $ ends 'CALL B.Ask [7] ON Seven [m] BEGIN CALL B.Ask [m] INTO [n]; END;'
  end 0 clock 2,0 returned [] state [44, 40, {0, 0}]

Subscripts of INTO are evaluated behind the reply, and no handler of the call catches what they raise.

  $ ends 'CALL B.Ask [n] INTO [a[n - 4]];'
  end 0 clock 1,0 returned [] state [5, 0, {0, 9}]
  $ ends 'CALL B.Ask [n] INTO [a[2]] ON OTHER BEGIN m := 1; END;'
  end 0 clock 1,0 raised 60002 [] state [5, 0, {0, 0}]
  $ ends 'CALL B.Ask [7] ON Seven [a[2]] BEGIN m := 1; END ON OTHER BEGIN m := 2; END;'
  end 0 clock 1,0 raised 60002 [] state [5, 0, {0, 0}]
  $ ends 'CALL B.Ask [65531] INTO [n]; CALL B.Ask [65532] INTO [n];'
  end 0 clock 2,0 raised 60001 [] state [65535, 0, {0, 0}]

Arguments are evaluated before anything is asked, each converted behind its evaluation.

  $ ends 'CALL B.Ask [1 DIV 0] ON OTHER BEGIN m := 1; END;'
  end 0 clock 0,0 raised 60003 [] state [5, 0, {0, 0}]
  $ ends 'CALL B.Ask [65536] ON OTHER BEGIN m := 1; END;'
  end 0 clock 0,0 raised 60001 [] state [5, 0, {0, 0}]

One call behind another, and calls in a loop.

  $ ends 'CALL B.Ask [n] INTO [m]; CALL B.Ask [m + 1] INTO [n];'
  end 0 clock 2,0 returned [] state [14, 9, {0, 0}]
  $ ends 'n := 10; WHILE n < 20 DO CALL B.Ask [n] INTO [n]; END;'
  end 0 clock 3,0 returned [] state [22, 0, {0, 0}]
  $ ends 'WHILE n < 20 DO CALL B.Ask [n] INTO [n] ON Nine BEGIN n := 10; m := m + 1; END; END;'
  end 0 clock 5,0 returned [] state [22, 1, {0, 0}]

# Limits

A text s of 65,534 bytes, which are 65,536 in external form, and n, which is 1.

  $ frame long_text

  $ ends ''
  end 0 clock 0,0 returned [] state [1]
  $ ends 's := s & ""; n := 2;'
  end 0 clock 0,0 returned [] state [2]
  $ ends 's := s & "x"; n := 2;'
  end 0 clock 0,0 raised 60004 [] state [1]
  $ ends 'IF s & "x" = s THEN n := 2; END;'
  end 0 clock 0,0 raised 60004 [] state [1]

A choice of such a text has two bytes more.

  $ ends 'IF M.K#words(s) IS words THEN n := 2; END;'
  end 0 clock 0,0 raised 60004 [] state [1]

The same in format 2, where more bytes may be.

  $ frame long_text_2

  $ ends 's := s & "x"; n := 2;'
  end 0 clock 0,0 returned [] state [2]
  $ ends 's := s & "xx"; n := 2;'
  end 0 clock 0,0 raised 60004 [] state [1]
  $ ends 'IF M.K#words(s) IS words THEN n := 2; END;'
  end 0 clock 0,0 returned [] state [2]

A state of a number, a text of 65,526 bytes and another text: 2, 65,528 and at most 6 bytes.

  $ frame state_limit

  $ ends 'b := "abcd"; n := 2; a := "";'
  end 0 clock 0,0 returned [] state [2, "", "abcd"]

What becomes shorter first makes room.

  $ ends 'IF n = 1 THEN a := ""; b := "abcde"; END;'
  end 0 clock 0,0 returned [] state [1, "", "abcde"]

A value of an expression has room by itself.

  $ ends 'IF s & "abcdefgh" <> "" THEN n := 2; END; a := "";'
  end 0 clock 0,0 returned [] state [2, "", ""]

A local variable is no part of the state.

  $ ends 's := s & "abcdefgh"; n := 2; a := "";'
  end 0 clock 0,0 returned [] state [2, "", ""]

A state that would be too long is not stored.

  $ ends 'b := "abcde"; n := 2;' | cut -c 1-45
  end 0 clock 0,0 raised 60004 [] state [1, "xx
  $ ends 'b := "abcde"; n := 2;' | tail -c 14
  xyyyyyy", ""]

What leaves an execution together. A text s of 16,383 bytes; the procedure Both gives each of two texts twice.

  $ frame together

Arguments.

  $ ends 'CALL B.Both ["", s] INTO [t, s]; IF LENGTH(s) = 32766 THEN n := 2; END;'
  end 0 clock 1,0 returned [] state [2]
  $ ends 's := s & s & "xx"; CALL B.Both [s, s] INTO [s, t] ON OTHER BEGIN n := 2; END;'
  end 0 clock 0,0 raised 60004 [] state [1]

Results, which the caller may handle.

  $ ends 's := s & "x"; CALL B.Both [s, s] INTO [s, t]; n := 2;'
  end 0 clock 1,0 raised 60004 [] state [1]
  $ ends 's := s & "x"; CALL B.Both [s, s] INTO [s, t] ON OTHER BEGIN n := 2; END;'
  end 0 clock 1,0 returned [] state [2]

# Each error of the language ends a root

  $ cat >p <<END_OF_PROGRAM
  > CIRCUS 1;
  > ROOT Main; BEGIN VAR n: CARDINAL; MAIN BEGIN n := 65535 + 1; RETURN []; END; END.
  > RINGMASTER ring PORT 9000;
  > TROUPE Main CALLS FIRST REPLIES FIRST MEMBERS main1 PORT 9001;
  > END_OF_PROGRAM
  $ circus run p | tail -n 1 | sed 's/ \[\].*//; s/clock [0-9,]* //'
  end 0 raised 60001

  $ cat >p <<END_OF_PROGRAM
  > CIRCUS 1;
  > ROOT Main; BEGIN VAR n: CARDINAL; MAIN VAR a: ARRAY 4 OF CARDINAL; BEGIN n := a[4]; RETURN []; END; END.
  > RINGMASTER ring PORT 9000;
  > TROUPE Main CALLS FIRST REPLIES FIRST MEMBERS main1 PORT 9001;
  > END_OF_PROGRAM
  $ circus run p | tail -n 1 | sed 's/ \[\].*//; s/clock [0-9,]* //'
  end 0 raised 60002

  $ cat >p <<END_OF_PROGRAM
  > CIRCUS 1;
  > ROOT Main; BEGIN VAR n: CARDINAL; MAIN BEGIN n := 7 MOD n; RETURN []; END; END.
  > RINGMASTER ring PORT 9000;
  > TROUPE Main CALLS FIRST REPLIES FIRST MEMBERS main1 PORT 9001;
  > END_OF_PROGRAM
  $ circus run p | tail -n 1 | sed 's/ \[\].*//; s/clock [0-9,]* //'
  end 0 raised 60003

  $ cat >p <<END_OF_PROGRAM
  > CIRCUS 1;
  > ROOT Main; BEGIN MAIN VAR q: SEQUENCE 2 OF BOOLEAN; BEGIN WHILE TRUE DO APPEND FALSE TO q; END; RETURN []; END; END.
  > RINGMASTER ring PORT 9000;
  > TROUPE Main CALLS FIRST REPLIES FIRST MEMBERS main1 PORT 9001;
  > END_OF_PROGRAM
  $ circus run p | tail -n 1 | sed 's/ \[\].*//; s/clock [0-9,]* //'
  end 0 raised 60004

A state of more than 65,536 bytes.

  $ cat >p <<END_OF_PROGRAM
  > CIRCUS 1;
  > ROOT Main; BEGIN VAR q: SEQUENCE OF CARDINAL; MAIN BEGIN WHILE TRUE DO APPEND 7 TO q; END; RETURN []; END; END.
  > RINGMASTER ring PORT 9000;
  > TROUPE Main CALLS FIRST REPLIES FIRST MEMBERS main1 PORT 9001;
  > END_OF_PROGRAM
  $ circus run p | tail -n 1 | sed 's/ \[\].*//; s/clock [0-9,]* //'
  end 0 raised 60004

  $ cat >p <<END_OF_PROGRAM
  > CIRCUS 1;
  > ROOT Main; BEGIN MAIN BEGIN WHILE TRUE DO END; RETURN []; END; END.
  > RINGMASTER ring PORT 9000;
  > TROUPE Main CALLS FIRST REPLIES FIRST MEMBERS main1 PORT 9001;
  > END_OF_PROGRAM
  $ circus run p | tail -n 1 | sed 's/ \[\].*//; s/clock [0-9,]* //'
  end 0 raised 60005

  $ cat >p <<END_OF_PROGRAM
  > CIRCUS 1;
  > Step: PROGRAM 2 VERSION 1 = BEGIN Go: PROCEDURE = 1; END.
  > MODULE A IMPLEMENTS Step; BEGIN PROCEDURE Go BEGIN RETURN []; END; END.
  > ROOT Main IMPORTS A; BEGIN MAIN BEGIN WHILE TRUE DO CALL A.Go [] ON OTHER BEGIN END; END; RETURN []; END; END.
  > RINGMASTER ring PORT 9000;
  > TROUPE A CALLS FIRST REPLIES FIRST MEMBERS a1 PORT 9001;
  > TROUPE Main CALLS FIRST REPLIES FIRST MEMBERS main1 PORT 9002;
  > END_OF_PROGRAM
  $ circus run p | tail -n 1 | sed 's/ \[\].*//; s/clock [0-9,]* //'
  end 0 raised 60006

  $ cat >p <<END_OF_PROGRAM
  > CIRCUS 1;
  > ROOT Main; BEGIN VAR n: CARDINAL; MAIN VAR k: CHOICE OF {none(0) => RECORD [], some(1) => CARDINAL}; BEGIN n := k.some; RETURN []; END; END.
  > RINGMASTER ring PORT 9000;
  > TROUPE Main CALLS FIRST REPLIES FIRST MEMBERS main1 PORT 9001;
  > END_OF_PROGRAM
  $ circus run p | tail -n 1 | sed 's/ \[\].*//; s/clock [0-9,]* //'
  end 0 raised 60008

  $ cat >p <<END_OF_PROGRAM
  > CIRCUS 1;
  > Door: PROGRAM 6 VERSION 1 = BEGIN Shut: ERROR = 4; Open: PROCEDURE REPORTS [Shut] = 1; END.
  > MODULE A IMPLEMENTS Door; BEGIN PROCEDURE Open BEGIN RAISE Shut []; END; END.
  > ROOT Main IMPORTS A; BEGIN MAIN BEGIN CALL A.Open []; RETURN []; END; END.
  > RINGMASTER ring PORT 9000;
  > TROUPE A CALLS FIRST REPLIES FIRST MEMBERS a1 PORT 9001;
  > TROUPE Main CALLS FIRST REPLIES FIRST MEMBERS main1 PORT 9002;
  > END_OF_PROGRAM
  $ circus run p | tail -n 1 | sed 's/ \[\].*//; s/clock [0-9,]* //'
  end 0 raised 60009
