#!/usr/bin/env bash
# Another bench beside this one, in turn: versus.sh BENCH [NAME [RUNS]]. BENCH is a built one, kept from before a change,
# say; NAME picks benches as it does for the bench itself. Prints, of every time that both print, the medians over the
# runs, in ns, and the median of this/other, run by run. The columns of a table are numbered.
set -euo pipefail

other=$(realpath "${1:?usage: versus.sh BENCH [NAME [RUNS]]}")
name=${2-}
runs=${3:-9}
cd "$(dirname "$0")/.."

cargo build --release --offline --quiet --package bench
this=${CARGO_TARGET_DIR:-target}/release/bench

for ((run = 0; run < runs; run++)); do
    "$other" "$name" | sed 's/^/other /'
    "$this" "$name" | sed 's/^/this /'
done | awk '
    # The median of list[1] to list[n], which are sorted for that.
    function median(list, n,    i, j, held) {
        for (i = 2; i <= n; i++) {
            held = list[i]
            for (j = i - 1; j > 0 && list[j] > held; j--) list[j + 1] = list[j]
            list[j + 1] = held
        }
        return (list[int((n + 1) / 2)] + list[int(n / 2) + 1]) / 2
    }

    # A heading. In a contest only the first figure is a time, in a table all but the last.
    / ns\// {
        contest = $2 == "call"
        table = contest ? "" : substr($0, length($1) + 2, index($0, ", ns/") - length($1) - 2) ": "
        next
    }

    {
        label = ""
        figures = 0
        for (i = 2; i <= NF; i++) {
            if ($i ~ /^[0-9]+\.[0-9][0-9]$/) figure[++figures] = $i
            else if (!figures) label = label (label ? " " : "") $i
        }
        times = contest ? figures > 0 : figures - 1
        for (i = 1; i <= times; i++) {
            line = sprintf("%-64s %6s", table label, contest ? "" : i)
            if (!(line in seen)) { seen[line]; lines[++count] = line }
            time[$1, line, ++runs[$1, line]] = figure[i] + 0
        }
    }

    END {
        printf "%-64s %6s %10s %10s %10s\n", "time", "column", "other", "this", "this/other"
        for (l = 1; l <= count; l++) {
            n = runs["this", lines[l]]
            if (runs["other", lines[l]] != n) continue
            for (i = 1; i <= n; i++) {
                other[i] = time["other", lines[l], i]
                this[i] = time["this", lines[l], i]
                ratio[i] = this[i] / other[i]
            }
            printf "%s %10.2f %10.2f %10.2f\n", lines[l], median(other, n), median(this, n), median(ratio, n)
        }
    }
'
