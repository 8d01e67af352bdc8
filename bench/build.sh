#!/bin/bash
# build.sh [PROGRAM]: the time and the memory that `build` takes for the examples and for texts of 1 KB to 256 KB that bench/text makes, beside avr-gcc -Os
# on programs in C that do the same (bench/twins, bench/text --c), where it is installed. PROGRAM is the compiler; where it is left out, that of this checkout.
# A time is the least processor time of some runs, with the start of the program in it; memory is the most that a run takes at one time, with avr-gcc that
# of the largest of its processes. The last lines are the exponents of growth, by least squares in logarithms over the texts from 4 KB on, of times less the
# start's: 1 where time is in proportion to the text, 2 where it grows with its square.
# The status is 0 where all was built, and 1 where something was not.
set -eu
here=$(cd "$(dirname "$0")" && pwd)
top=$(dirname "$here")
program=${1:-$("$here/program")}
command -v "$program" > /dev/null || { echo "$program is no program"; exit 1; }
work=$(mktemp -d)
trap 'rm -rf "$work"' EXIT
status=0

TIMEFORMAT='%3U %3S'
# Prints the least time of so many runs of a command, in milliseconds, and the memory of one more, in MB.
cost() {
  local runs=$1 run
  shift
  for ((run = 0; run < runs; run++)); do
    { time "$@" > "$work/out" 2> "$work/note" < /dev/null; } 2>> "$work/times" || return 1
  done
  /usr/bin/time -f 'memory %M' -o "$work/times" -a "$@" > "$work/out" 2> "$work/note" < /dev/null || return 1
  awk '
    $1 == "memory" { memory = $2 }
    $1 != "memory" { spent = 1000 * ($1 + $2); if (!runs++ || spent < best) best = spent }
    END { printf "%d %.1f\n", best, memory / 1024 }' "$work/times"
}

# Prints a line on a text and its twin: name, bytes, and for each compiler milliseconds and MB.
line() {
  local our their='- -'
  rm -f "$work/times"
  if ! our=$(cost 9 "$program" build "$2"); then
    echo "$1: $(tail -n 1 "$work/note")" >&2
    return 1
  fi
  rm -f "$work/times"
  if command -v avr-gcc > /dev/null; then their=$(cost 3 avr-gcc -Os -mmcu=atmega128 -I "$here/twins" -o "$work/elf" "$3") || their='- -'; fi
  echo "$1 $(wc -c < "$2") $our $their"
}

show() { awk '{ printf "%-12s %7d bytes: %5d ms, %6.1f MB; avr-gcc %5s ms, %6s MB\n", $1, $2, $3, $4, $5, $6; fflush() }'; }

echo "zetikomi of commit $(git -C "$top" rev-parse --short HEAD); $(avr-gcc --version 2> /dev/null | head -n 1 || true)"
for text in "$top"/examples/*.vg "$top"/examples/*/*.vg; do
  name=$(basename "$text" .vg)
  line "$name" "$text" "$here/twins/$name.c" > "$work/line" && show < "$work/line" || status=1
done
for kb in 1 2 4 8 16 32 64 128 256; do
  "$here/text" $((kb * 1000)) > "$work/text.vg"
  "$here/text" $((kb * 1000)) --c > "$work/text.c"
  line "${kb}KB" "$work/text.vg" "$work/text.c" > "$work/line" && show < "$work/line" && cat "$work/line" >> "$work/lines" || status=1
done

# What the start takes: that of a text of constants, and of a C program of them.
start=$(line start "$top/examples/constant.vg" "$here/twins/constant.c") && [ -s "$work/lines" ] || exit 1
awk -v start="$start" '
  function slope(n, x, y, xx, xy) { return (n * xy - x * y) / (n * xx - x * x) }
  BEGIN { split(start, first, " ") }
  $2 >= 3500 {
    for (c = 3; c <= 5; c += 2) {
      spent = $c - first[c]
      if ($c == "-" || spent <= 0) continue
      a = log($2); b = log(spent); n[c]++; x[c] += a; y[c] += b; xx[c] += a * a; xy[c] += a * b
    }
  }
  END {
    if (n[3] > 1) printf "time grows with the power %.2f of the text\n", slope(n[3], x[3], y[3], xx[3], xy[3])
    if (n[5] > 1) printf "that of avr-gcc with the power %.2f\n", slope(n[5], x[5], y[5], xx[5], xy[5])
  }' "$work/lines"
exit $status
