#!/bin/bash
# Times how long texts of 1 KB to 256 KB are read and checked, and their typed programs made, by the command `build`. Nothing of them is live but an empty
# main, so what `build` does behind that has little to do.
# The start of the program, with an empty text, is shown first and is subtracted. Behind a time stands the exponent of
# its growth since the text before: 1 where time is in proportion to the text, 2 where it grows with its square.
# Then come texts of 131,072 and 262,144 bytes, the most that is read, nearly all of whose tokens have one byte, with the
# most memory that a run takes. They have one method, which is live, so what is behind the typed program counts too, as far
# as it comes. Those of arguments and of indices break a rule: the one behind all of them, the other at the first.
set -eu
here=$(cd "$(dirname "$0")" && pwd)
top=$(dirname "$here")
work=$(mktemp -d)
trap 'rm -rf "$work"' EXIT

program=$("$here/program")
echo "zetikomi of commit $(git -C "$top" rev-parse --short HEAD), built with $(rt version)"

# A text of about so many bytes: one component of many methods.
text() {
  awk -v size="$1" 'BEGIN {
    printf "component Main {\n"
    n = 17
    for (i = 0; n < size - 400; i++) {
      line = sprintf("  method m%d(a: int, b: raw.8): int { local x: int = a * %d + (b :: int) / 3; while (x > 0 && a != %d) { if (x == 3) { return x; } else { x = x - 1; } } return m%d(x, 0x%02x) + x; } // %d\n", i, i, i, i, i % 256, i)
      n += length(line)
      printf "%s", line
    }
    printf "  method main() { }\n}\nprogram P { entry main = Main.main; }\n"
  }'
}

# A text of so many bytes: one method, whose body begins with one word and ends with another, and between them as often as fits a third.
dense() {
  awk -v size="$1" -v front="$2" -v unit="$3" -v back="$4" 'BEGIN {
    head = "component Main { method main() { " front
    tail = back " } }\nprogram P { entry main = Main.main; }\n"
    count = int((size - length(head) - length(tail)) / length(unit))
    printf "%s", head
    for (i = 0; i < count; i++) printf "%s", unit
    printf "%s", tail
  }'
}

# The least time of nine runs on a file, in nanoseconds; what the last one writes goes to a file.
least() {
  best=
  for run in 1 2 3 4 5 6 7 8 9; do
    begin=$(date +%s%N)
    "$program" build "$1" > /dev/null 2> "$work/note" < /dev/null || true
    spent=$(($(date +%s%N) - begin))
    if [ -z "$best" ] || [ "$spent" -lt "$best" ]; then best=$spent; fi
  done
  echo "$best"
}

: > "$work/empty.vg"
start=$(least "$work/empty.vg")
awk -v start="$start" 'BEGIN { printf "start: %.2f ms\n", start / 1000000 }'
before=
size_before=
for kb in 1 2 4 8 16 32 64 128 256; do
  text $((kb * 1000)) > "$work/text.vg"
  now=$(($(least "$work/text.vg") - start))
  size=$(wc -c < "$work/text.vg")
  awk -v now="$now" -v before="$before" -v size="$size" -v size_before="$size_before" 'BEGIN {
    printf "%d bytes: %.2f ms", size, now / 1000000
    if (before > 0 && now > 0) printf ", exponent %.2f", log(now / before) / log(size / size_before)
  }'
  echo " ($(head -n 1 "$work/note"))"
  before=$now
  size_before=$size
done
while IFS='|' read -r name front unit back; do
  before=
  for size in 131072 262144; do
    dense "$size" "$front" "$unit" "$back" > "$work/text.vg"
    now=$(($(least "$work/text.vg") - start))
    memory=$(/usr/bin/time -f %M "$program" build "$work/text.vg" 2>&1 > /dev/null < /dev/null | tail -n 1)
    awk -v name="$name" -v size="$size" -v now="$now" -v before="$before" -v memory="$memory" 'BEGIN {
      printf "%s, %d bytes: %.0f ms, %.0f MB", name, size, now / 1000000, memory / 1024
      if (before > 0) printf ", exponent %.2f", log(now / before) / log(2)
    }'
    echo " ($(head -n 1 "$work/note"))"
    before=$now
  done
done << 'TEXTS'
statements|local x: int = 0; x;|x;|x;
sums|local x: int = 0; x|+x|;
arguments|local x: int = 0; main(x|,x|);
indices|local x: int = 0; x|[x]|;
blocks|{}|{}|{}
TEXTS
