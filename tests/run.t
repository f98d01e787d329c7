Histories: what the modules of a program do when nothing is replicated.

  $ . "$TESTDIR/cases.sh"
  $ cp "$TESTDIR"/programs/*.circus "$TESTDIR"/../examples/*.circus .

  $ circus run first.circus
  circus history 1
  module Counter count 1
  run 0 path Main.0 procedure 1 clock 1,0 arguments [5]
  end 0 clock 1,0 returned [5] state [5]
  module Main count 1
  run 0 path Main procedure 0 clock 0,0 arguments []
  ask 0 to Counter index 0 procedure 1 arguments [5] state [0]
  reply 0 clock 1,0 returned [5]
  end 0 clock 1,0 returned [] state [5]

  $ circus run two_calls.circus
  circus history 1
  module Counter count 2
  run 0 path Main.0 procedure 1 clock 1,0 arguments [5]
  end 0 clock 1,0 returned [5] state [5]
  run 1 path Main.1 procedure 1 clock 2,0 arguments [7]
  end 1 clock 2,0 returned [12] state [12]
  module Main count 1
  run 0 path Main procedure 0 clock 0,0 arguments []
  ask 0 to Counter index 0 procedure 1 arguments [5] state [0]
  reply 0 clock 1,0 returned [5]
  ask 1 to Counter index 1 procedure 1 arguments [7] state [5]
  reply 1 clock 2,0 returned [12]
  end 0 clock 2,0 returned [] state [12]

  $ circus run two_of_each.circus
  circus history 1
  module Counter count 1
  run 0 path Main.0 procedure 1 clock 1,0 arguments [5]
  end 0 clock 1,0 returned [5] state [5]
  module Main count 1
  run 0 path Main procedure 0 clock 0,0 arguments []
  ask 0 to Counter index 0 procedure 1 arguments [5] state [0]
  reply 0 clock 1,0 returned [5]
  end 0 clock 1,0 returned [] state [5]

  $ circus run two_steps.circus
  circus history 1
  module Counter count 2
  run 0 path Main.0.0 procedure 1 clock 1,1,0,0 arguments [1]
  end 0 clock 1,1,0,0 returned [1] state [1]
  run 1 path Main.1.0 procedure 1 clock 2,1,1,0 arguments [2]
  end 1 clock 2,1,1,0 returned [3] state [3]
  module A count 1
  run 0 path Main.0 procedure 1 clock 0,1,0,0 arguments []
  ask 0 to Counter index 0 procedure 1 arguments [1] state []
  reply 0 clock 1,1,0,0 returned [1]
  end 0 clock 1,1,0,0 returned [] state []
  module B count 1
  run 0 path Main.1 procedure 1 clock 1,1,1,0 arguments []
  ask 0 to Counter index 1 procedure 1 arguments [2] state []
  reply 0 clock 2,1,1,0 returned [3]
  end 0 clock 2,1,1,0 returned [] state []
  module Main count 1
  run 0 path Main procedure 0 clock 0,0,0,0 arguments []
  ask 0 to A index 0 procedure 1 arguments [] state []
  reply 0 clock 1,1,0,0 returned []
  ask 1 to B index 0 procedure 1 arguments [] state []
  reply 1 clock 2,1,1,0 returned []
  end 0 clock 2,1,1,0 returned [] state []

  $ circus run one_step.circus
  circus history 1
  module Counter count 1
  run 0 path Main.0.0 procedure 1 clock 1,1,0 arguments [1]
  end 0 clock 1,1,0 returned [1] state [1]
  module A count 1
  run 0 path Main.0 procedure 1 clock 0,1,0 arguments []
  ask 0 to Counter index 0 procedure 1 arguments [1] state []
  reply 0 clock 1,1,0 returned [1]
  end 0 clock 1,1,0 returned [] state []
  module Main count 1
  run 0 path Main procedure 0 clock 0,0,0 arguments []
  ask 0 to A index 0 procedure 1 arguments [] state []
  reply 0 clock 1,1,0 returned []
  end 0 clock 1,1,0 returned [] state []

  $ circus run room_32768.circus
  circus history 1
  module Store count 0
  module Main count 1
  run 0 path Main procedure 0 clock 0,0 arguments []
  end 0 clock 0,0 raised 60004 [] state []

  $ circus run vault.circus
  circus history 1
  module Vault count 2
  run 0 path Main.0 procedure 1 clock 1,0 arguments [3]
  end 0 clock 1,0 raised 1 [3] state [1, 0]
  run 1 path Main.1 procedure 1 clock 2,0 arguments [4]
  end 1 clock 2,0 raised 1 [4] state [2, 0]
  module Main count 1
  run 0 path Main procedure 0 clock 0,0 arguments []
  ask 0 to Vault index 0 procedure 1 arguments [3] state [0]
  reply 0 clock 1,0 raised 1 [3]
  ask 1 to Vault index 1 procedure 1 arguments [4] state [4]
  reply 1 clock 2,0 raised 1 [4]
  end 0 clock 2,0 raised 60009 [] state [4]

  $ circus run shop.circus
  circus history 1
  module Store count 3
  run 0 path Shop.0 procedure 1 clock 1,0 arguments [10]
  end 0 clock 1,0 returned [10] state [10]
  run 1 path Shop.1 procedure 2 clock 2,0 arguments [4]
  end 1 clock 2,0 returned [6] state [6]
  run 2 path Shop.2 procedure 2 clock 3,0 arguments [8]
  end 2 clock 3,0 raised 1 [2] state [6]
  module Shop count 1
  run 0 path Shop procedure 0 clock 0,0 arguments []
  ask 0 to Store index 0 procedure 1 arguments [10] state [0]
  reply 0 clock 1,0 returned [10]
  ask 1 to Store index 1 procedure 2 arguments [4] state [0]
  reply 1 clock 2,0 returned [6]
  ask 2 to Store index 2 procedure 2 arguments [8] state [0]
  reply 2 clock 3,0 raised 1 [2]
  end 0 clock 3,0 returned [] state [2]

  $ circus run shapes.circus
  circus history 1
  module Idle count 1
  run 0 path Idle procedure 0 clock 0,0 arguments []
  end 0 clock 0,0 returned [] state []
  module Unused count 0

As many steps as a run may have, and one more.

  $ circus run wheel.circus
  circus history 1
  module Wheel count 2
  run 0 path Main.0 procedure 1 clock 1,0 arguments [499999]
  end 0 clock 1,0 returned [499999] state []
  run 1 path Main.1 procedure 2 clock 2,0 arguments [499999]
  end 1 clock 2,0 raised 60005 [] state []
  module Main count 1
  run 0 path Main procedure 0 clock 0,0 arguments []
  ask 0 to Wheel index 0 procedure 1 arguments [499999] state []
  reply 0 clock 1,0 returned [499999]
  ask 1 to Wheel index 1 procedure 2 arguments [499999] state []
  reply 1 clock 2,0 raised 60005 []
  end 0 clock 2,0 returned [] state []

The bank: 16 of 20 payments of 6 are made of 100.

  $ circus run bank.circus >h
  $ head -n 2 h
  circus history 1
  module Ledger count 20
  $ grep -B 1 ^module h
  circus history 1
  module Ledger count 20
  --
  end 19 clock 20,20,0 raised 1 [2] state [{4, 96, 0, 0}, TRUE]
  module Teller count 20
  --
  end 19 clock 20,20,0 returned [FALSE] state [4]
  module Day count 1
  $ tail -n 1 h
  end 0 clock 20,20,0 returned [] state [16]

An argument as long as one may be in format 1, and a longer one in format 2.

  $ circus run room_32767.circus | grep ^end | head -n 1
  end 0 clock 1,0 returned [32767] state []
  $ circus run room_32768_2.circus | grep ^end | head -n 1
  end 0 clock 1,0 returned [32768] state []

Two errors whose numbers are in another order than their names in REPORTS. The first is handled with its
value, the second as any other.

  $ circus run store.circus
  circus history 1
  module Store count 4
  run 0 path Main.0 procedure 2 clock 1,0 arguments [3]
  end 0 clock 1,0 returned [2] state [3, FALSE]
  run 1 path Main.1 procedure 2 clock 2,0 arguments [4]
  end 1 clock 2,0 raised 3 [2] state [3, FALSE]
  run 2 path Main.2 procedure 1 clock 3,0 arguments []
  end 2 clock 3,0 returned [] state [3, TRUE]
  run 3 path Main.3 procedure 2 clock 4,0 arguments [1]
  end 3 clock 4,0 raised 1 [] state [3, TRUE]
  module Main count 1
  run 0 path Main procedure 0 clock 0,0 arguments []
  ask 0 to Store index 0 procedure 2 arguments [3] state [0, FALSE]
  reply 0 clock 1,0 returned [2]
  ask 1 to Store index 1 procedure 2 arguments [4] state [2, FALSE]
  reply 1 clock 2,0 raised 3 [2]
  ask 2 to Store index 2 procedure 1 arguments [] state [20, FALSE]
  reply 2 clock 3,0 returned []
  ask 3 to Store index 3 procedure 2 arguments [1] state [20, FALSE]
  reply 3 clock 4,0 raised 1 []
  end 0 clock 4,0 returned [] state [20, TRUE]

A variable of each form, as it is at first.

  $ circus run zeros.circus
  circus history 1
  module Main count 1
  run 0 path Main procedure 0 clock 0 arguments []
  end 0 clock 0 returned [] state [FALSE, 0, 0, "", #4, {[0, ""], [0, ""]}, {}, 7(#3)]

The procedures of a module may stand in another order than in its interface.

  $ circus run wheel_turned.circus
  circus history 1
  module Wheel count 2
  run 0 path Main.0 procedure 1 clock 1,0 arguments [499999]
  end 0 clock 1,0 returned [499999] state []
  run 1 path Main.1 procedure 2 clock 2,0 arguments [499999]
  end 1 clock 2,0 raised 60005 [] state []
  module Main count 1
  run 0 path Main procedure 0 clock 0,0 arguments []
  ask 0 to Wheel index 0 procedure 1 arguments [499999] state []
  reply 0 clock 1,0 returned [499999]
  ask 1 to Wheel index 1 procedure 2 arguments [499999] state []
  reply 1 clock 2,0 raised 60005 []
  end 0 clock 2,0 returned [] state []

What is large is shared as long as nobody changes it: 100,000 copies of 15,000 items, and 2,000 calls, each with 32,768 items
of its own.

  $ circus run copies.circus | tail -1
  end 0 clock 0,0 returned [] state [15000]
  $ circus run locals.circus | tail -1
  end 0 clock 2000,0 returned [] state [10000]
