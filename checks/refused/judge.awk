# Says whether what the program of calls/ prints is as it should be (see run.sh).
#
# Each of its two parts prints a line 'NAME: N' for each call, which was refused N pieces of memory, a line for whatever
# is wrong, and a line of sums; its status follows. CALLS names the file of the calls of which each has to be refused
# some.
BEGIN {
    while ((getline line < CALLS) > 0) calls[line] = 1
}

function wrong(why) {
    print "WRONG: " why
    bad++
}

/^WRONG / { wrong($0) }

/^[a-z].*: [0-9]+$/ {
    print
    name = $0
    sub(/: [0-9]+$/, "", name)
    tried++
    if ($NF > 0) seen[name] = 1
}

/^refused: / {
    sums = sums $0 "\n"
    ended++
    if ($0 !~ /, 0 not as they should be, 0 kept$/) wrong($0)
}

/^status=/ {
    sub(/^status=/, "")
    if ($0 == "0") good++
    else wrong("a part ended with status " $0)
    next
}

!/^[a-z].*: [0-9]+$/ && !/^refused: / { rest[++lines] = $0 }

END {
    if (good != 2 || ended != 2) wrong("a part is missing")
    for (name in calls) if (!(name in seen)) wrong(name " is never refused")
    if (bad > 0) for (i = 1; i <= lines; i++) if (rest[i] !~ /^WRONG /) print rest[i]
    printf "%s", sums
    print "refused calls: " (bad < tried ? tried - bad : 0) " passed, " bad + 0 " failed"
    exit bad > 0
}
