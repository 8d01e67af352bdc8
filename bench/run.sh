#!/bin/bash
# Times the command `run` on a loop of an assignment and a comparison, beside a C program that interprets the same steps (steps.c), and
# the making of some 60,000 stored objects. It wants a C compiler. The launcher's look for newer sources counts as time of `run`.
set -eu
here=$(cd "$(dirname "$0")" && pwd)
top=$(dirname "$here")
work=$(mktemp -d)
trap 'rm -rf "$work"' EXIT
turns=30000000

echo "zetikomi of commit $(git -C "$top" rev-parse --short HEAD), built with $(rt version); $(cc --version | head -n 1)"
cc -O2 -o "$work/steps" "$here/steps.c"
: > "$work/script.txt"

# A text of one component with this body of main and this constructor.
text() {
  printf 'class A { }\ncomponent Main { constructor() { local i: int = 0; %s } method main() { local i: int = 0; %s } }\n' "$2" "$1"
  printf 'program P { entry main = Main.main; }\n'
}
text '' '' > "$work/empty.vg"
text "while (i < $turns) { i = i + 1; }" '' > "$work/loop.vg"
text '' 'while (i < 59990) { new A(); i = i + 1; }' > "$work/heap.vg"

# The user seconds that a command takes; what it writes goes to a file.
TIMEFORMAT=%U
took() {
  { time "$@" > "$work/out" 2>&1 < /dev/null || true; } 2>&1
}

run() {
  "$top/zetikomi" run "$1" "$work/script.txt" --steps 1000000000
}

# Says that a run did not end as it should, if so.
idle() {
  if [ "$(tail -n 1 "$work/out")" != "idle" ]; then
    echo "$1 did not end idle: $(tail -n 1 "$work/out")" >&2
    exit 1
  fi
}

took run "$work/empty.vg" > /dev/null # builds the program, where that is due
for round in 1 2 3 4 5; do
  start=$(took run "$work/empty.vg")
  idle empty.vg
  loop=$(took run "$work/loop.vg")
  idle loop.vg
  plain=$(took "$work/steps" "$turns")
  heap=$(took run "$work/heap.vg")
  idle heap.vg
  awk -v round="$round" -v start="$start" -v loop="$loop" -v plain="$plain" -v heap="$heap" -v turns="$turns" 'BEGIN {
    spent = loop - start
    printf "round %d: %.1f million ticks a second, steps.c %.1f (ratio %.1f); 59,990 objects in %.2f s\n",
      round, turns / spent / 1000000, turns / plain / 1000000, spent / plain, heap - start
  }'
done
