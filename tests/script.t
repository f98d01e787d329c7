The help of the script circus, which needs no program.

  $ script() { "$TREE/script" "$@" 2>&1 | sed "s,$TREE,TOP,g"; }

Without words, and with one word of these, it lists the forms and the statuses.

  $ script help >whole
  $ head -n 12 whole
  circus FORM: runs programs whose modules are replicated. circus help WORD explains the form that begins with WORD.
  
    settle PROGRAM DELIVERIES   delivers each datagram once, in the order of sending; DELIVERIES: 0 to 1000000
    replay PROGRAM SCHEDULE     does what the lines of a schedule say, at most 200000
    picture PROGRAM SCHEDULE    draws what a replay does
    sample PROGRAM SEED STEPS   does what a seed draws; SEED: 0 to 18446744073709551615, STEPS: 0 to 200000
    lines PROGRAM SEED STEPS    writes as a schedule what a sample does; SEED and STEPS as for sample
    run PROGRAM                 runs the modules once, unreplicated
    stubs PROGRAM               shows how calls are marshalled
    node PROGRAM NAME TURNS     serves one node over UDP on 127.0.0.1; TURNS: 0 to 100000
    place FILE                  chooses machines for the members of a troupe
    audit PROGRAM RECORD        says whether the record that a node has written is a true one
  $ for word in -h --help; do script $word | cmp - whole; done
  $ script | cmp - whole
  $ tail -n 2 whole
  Try it:   cd TOP/examples && circus settle first.circus 100
  Read on:  TOP/README.md, then TOP/docs/GUIDE.md

Each form is explained by itself.

  $ for form in $(sed -n 's/^  \([a-z]*\) [A-Z].*/\1/p' whole); do script help $form | head -n 1; done
  circus settle PROGRAM DELIVERIES
  circus replay PROGRAM SCHEDULE
  circus picture PROGRAM SCHEDULE
  circus sample PROGRAM SEED STEPS
  circus lines PROGRAM SEED STEPS
  circus run PROGRAM
  circus stubs PROGRAM
  circus node PROGRAM NAME TURNS
  circus place FILE
  circus audit PROGRAM RECORD
  $ script help settle
  circus settle PROGRAM DELIVERIES
  
  Simulates all nodes of PROGRAM, delivers each datagram once, in the order of sending, until none is left, and writes
  how many that were, the Ringmaster's views, and what each member did. DELIVERIES is the most that may be delivered,
  0 to 1000000.
  
  For example, in TOP/examples:  circus settle first.circus 100
  
  Status  Meaning
    0  what was asked for is written
    1  the words are none of these forms
    2  the program file is refused, with its line and the cause, or has no node NAME
    4  a file is missing, is a folder, cannot be read, or has more than 16777216 bytes
    5  the standard output cannot be written
    7  there is too little memory
    8  a node has no number left for a call to another one
   10  DELIVERIES were made, and some datagrams are left
  126  the program could not be made or run (said by this script)
  127  the command rt of the Rattle kit is not on the PATH (said by this script)
  $ script -h place | sed -n '/^Status/,$p'
  Status  Meaning
    0  what was asked for is written
    1  the words are none of these forms
    4  a file is missing, is a folder, cannot be read, or has more than 16777216 bytes
    5  the standard output cannot be written
    7  there is too little memory
   11  the text of a placing is refused, with its line and the cause
   12  no choice of machines satisfies the placing
  126  the program could not be made or run (said by this script)
  127  the command rt of the Rattle kit is not on the PATH (said by this script)

A word that begins no form.

  $ "$TREE/script" help nothing 2>said
  [1]
  $ head -n 2 said
  circus: the forms are
    settle PROGRAM DELIVERIES   delivers each datagram once, in the order of sending; DELIVERIES: 0 to 1000000
  $ tail -n 1 said
  circus: circus help says more
