# Sums core time: how long each core was held, and by which task. It checks nothing.
#
# usage: awk -f core_time.awk TRACE

BEGIN { FS = "," }

/^#/ { next }

{ last = $1 }

$4 != "T" && $4 != "I" { next }

$7 == "start" || $7 == "resume" || $7 == "poll_parking" {
    since[$2] = $1
    task[$2] = $5
    next
}

$7 == "preempt" || $7 == "wait" || $7 == "park" || $7 == "terminate" {
    held[$2] += $1 - since[$2]
    charge[$5] += $1 - since[$2]
    delete task[$2]
}

END {
    for (core in task) {
        held[core] += last - since[core]
        charge[task[core]] += last - since[core]
    }
    for (core in held) printf "core %s %.0f\n", core, held[core]
    for (name in charge) printf "task %s %.0f\n", name, charge[name]
}
