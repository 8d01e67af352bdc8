#!/bin/sh
# cost.sh LOG..: what each crate costs in the gate, as a table, from logs that bench/watch wrote.
#
#     bench/watch gate.log rt ci && bench/cost.sh gate.log
#
# P is the processor time of a crate's first check, in seconds, without its tests; `tests` that of proving and building them, which
# proves the crate once more; `edits` that of trying its must-fail edits, whose number stands behind. A level is 1 more than the
# highest level of the crates below. A crate that the runs took from earlier ones has `-`. Of two logs with the same crate the later
# one counts.
#
# The last lines are the sums, and the chain of crates, each over the next, with the most seconds of P: no run is shorter than that.

top=$(CDPATH='' cd -- "$(dirname -- "$0")/.." && pwd -P) || exit 1
[ $# -gt 0 ] || { echo "cost.sh LOG.." >&2; exit 2; }

edits=$(cd -- "$top/crates" && for it in */must-fail; do [ -d "$it" ] && echo "number ${it%/*} $(find "$it" -name '*.edit' | wc -l)"; done)

{
    printf '%s\n' "$edits"
    cat -- "$@"
    echo crates
    cat -- "$top/crates.txt"
} | awk '
    function or_none(x) { return x == "" ? "-" : sprintf("%.0f", x) }
    is_crates {
        sub(/#.*/, "")
        if (split($0, part, ":") < 1 || split(part[1], head, " ") < 1) next
        order[++crates] = head[1]
        below[head[1]] = part[2]
        next
    }
    $1 == "crates" { is_crates = 1 }
    $1 == "number" { number[$2] = $3 }
    $1 == "cost" { cost[$2, $3] = $4 }
    $1 == "all" { whole += $2; wall += $3; memory = $4 > memory ? $4 : memory; runs++ }

    # the level of a crate, and its longest chain by seconds of P
    function climb(crate,    deps, n, i, dep) {
        if (crate in level) return
        level[crate] = 1
        n = split(below[crate], deps, " ")
        chain[crate] = 0
        for (i = 1; i <= n; i++) {
            dep = deps[i]
            if (!(dep in below)) continue
            climb(dep)
            if (level[dep] >= level[crate]) level[crate] = level[dep] + 1
            if (chain[dep] > chain[crate] || under[crate] == "") { chain[crate] = chain[dep]; under[crate] = dep }
        }
        chain[crate] += cost[crate, "proof"]
    }
    END {
        for (i = 1; i <= crates; i++) {
            climb(order[i])
            it = order[i]
            total[it] = cost[it, "proof"] + cost[it, "tests"] + cost[it, "edits"] + cost[it, "build"]
            sum += total[it]; p += cost[it, "proof"]; t += cost[it, "tests"]; e += cost[it, "edits"]; b += cost[it, "build"]; n += number[it]
            if (level[it] > highest) highest = level[it]
            if (last == "" || chain[it] > chain[last]) last = it
        }
        row = "%-20s %5s %6s %6s %6s %5s %7s %6s\n"
        printf row, "crate", "level", "P", "tests", "edits", "(n)", "all", "share"
        for (l = 1; l <= highest; l++)
            for (i = 1; i <= crates; i++) {
                it = order[i]
                if (level[it] != l) continue
                has = (total[it] > 0)
                printf row, it, l, or_none(cost[it, "proof"]), or_none(cost[it, "tests"]), or_none(cost[it, "edits"]), number[it] + 0,
                    (has ? or_none(total[it]) : "-"), (has && sum ? sprintf("%.1f%%", 100 * total[it] / sum) : "-")
            }
        printf row, "sum", highest, or_none(p), or_none(t), or_none(e), n + 0, or_none(sum), ""
        printf "\nseen: %.1f CPU minutes of crates; the whole of %d run(s): %.1f CPU minutes, %.1f minutes by the clock, %d MB\n", sum / 60, runs, whole / 60, wall / 60, memory
        printf "longest chain: %.0f s of P:", chain[last]
        for (it = last; it != ""; it = under[it]) printf " %s (%s)", it, or_none(cost[it, "proof"])
        printf "\n"
    }'
