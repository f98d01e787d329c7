# What transcripts of many small cases share: each case is a text that stands in a frame, and that circus is performed with.
#
# A frame is a program of frames/ in which the word HERE stands. In a case \n is a newline, as printf has it. In a case that
# stands in a frame an @ is a newline as well: it stands in front of what is refused, so that the line tells the place.

front=
behind=

# Takes a frame for the cases behind.
frame() {
    whole=$(cat "$TESTDIR/frames/$1.circus")
    front=${whole%%HERE*}
    behind=${whole#*HERE}
}

# Runs the frame with a case in it.
with() {
    { printf '%s' "$front"; printf '%b' "$1" | tr @ '\n'; printf '%s\n' "$behind"; } >p
    circus run p
}

# How the run of the last module in the history ends.
ends() {
    with "$1" | tail -n 1
}

# Runs the frame with this in it: a beginning, so many times what is repeated, a middle, as many times an end.
nested() {
    opened=$(printf "%$1s" '' | sed "s/ /$3/g")
    closed=$(printf "%$1s" '' | sed "s/ /$5/g")
    with "$2$opened$4$closed"
}

# Runs a file that is this text.
file() {
    printf '%b' "$1" >p
    circus run p
}

# Runs frames/counter.circus with other lines in the places of some: a number and a text for each, in which \n is a newline. A
# line is left out where its text is empty.
changed() {
    cp "$TESTDIR/frames/counter.circus" p
    change "$@"
    circus run p
}

change() (
    at=$1 text=$2
    shift 2
    if [ $# -gt 0 ]; then change "$@"; fi
    {
        head -n $((at - 1)) p
        if [ -n "$text" ]; then printf '%b\n' "$text"; fi
        tail -n +$((at + 1)) p
    } >q
    mv q p
)

# Replays a program under a schedule that is this text.
replayed() {
    printf '%b' "$2" >s
    circus replay "$1" s
}

# Chooses machines for a placing that is this text.
placed() {
    printf '%b' "$1" >f
    circus place f
}
