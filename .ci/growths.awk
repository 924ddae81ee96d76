# What a program said in each run of `.ci/refused_growths`, after its file `stdout` and the log of
# the runs, which are numbered from 0 to `most`: counts how often each call lacked memory. It fails
# if the answers of a run are others than those of the file, if a run ended at a fault, if the first
# run, in which nothing is refused, lacked memory, if several calls of a run did, if one of the last
# twenty runs did, or if one of `calls` never did.
FNR == 1 { file++ }
file == 1 { if ($0 !~ /^lacked:/) wanted = wanted $0 "\n"; next }
file == 2 { if ($1 ~ /^case=/ && $3 == "status=0") ended++; next }
/^== / { run = $2 + 0; answers = ""; next }
/^lacked:/ {
    said++
    if (answers != wanted) wrong = wrong " " run
    for (word = 2; word <= NF; word++) count[$word]++
    if (NF > 1) last = run
    if (NF > 2) several = several " " run
    if (run == 0 && NF > 1) lacked_first = 1
    next
}
{ answers = answers $0 "\n" }
END {
    if (wrong != "") fault = "other answers if these growths are refused:" wrong
    else if (ended != most + 1 || said != most + 1) fault = "not each run ended well"
    else if (lacked_first) fault = "memory is lacking although none is refused"
    else if (several != "") fault = "several calls lacked memory for one growth:" several
    else if (last > most - 20) fault = "there are more growths than " most
    calls_count = split(calls, listed, " ")
    for (place = 1; place <= calls_count; place++)
        if (fault == "" && !(listed[place] in count)) fault = listed[place] " never lacked memory"
    if (fault != "") { print program ": " fault > "/dev/stderr"; exit 1 }
    print program ": " last " growths, each refused once"
    for (call in count) print "  " count[call], call | "sort -k 2"
}
