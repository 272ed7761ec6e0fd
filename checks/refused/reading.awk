# Says whether what the runs of reading.rt.txt print is as it should be (see run.sh).
#
# The lines of a run begin with '== CASE' and end with 'case=CASE ..'. CASES is how many runs there are beside the one
# in which nothing is refused.
function wrong(why) {
    print "WRONG: case " name ": " why
    bad++
}

/^== / { name = $2; refusals = 0; read = ""; own = 0 }

/^refused$/ { refusals++ }

/^pieces false$/ { own = 1 }

/^script / { read = read $0 "\n" }

/^WRONG / { wrong($0) }

/^case=/ {
    runs++
    if ($0 !~ / status=0$/) wrong($0)
    if (read == "") wrong("no script")
    if (name == "0000") {
        whole = read
        if (refusals > 0 || own) wrong("something is refused")
    }
    if (read != whole) wrong(read)
    if (refusals > 1) wrong("refused twice")
    if (refusals == 1 && own) wrong("two pieces are refused")
    if (refusals == 1) last = name + 0
    if (refusals == 1) tried++
    if (own) before++
}

END {
    name = "all"
    if (runs != CASES + 1) wrong(runs " runs")
    if (tried == 0 || tried + before > CASES - 4) wrong("there are fewer runs than pieces: " tried " and " before)
    print "reading a script: " tried + 0 " pieces of memory are refused"
    print "refused reading: " (bad < runs ? runs - bad : 0) " passed, " bad + 0 " failed"
    exit bad > 0
}
