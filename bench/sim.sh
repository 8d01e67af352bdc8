#!/bin/bash
# Times the command `sim` beside simavr on the same HEX text, a loop of ten million instructions (loop.s).
# It wants the Debian packages simavr and binutils-avr. The launcher's look for newer sources counts as time of `sim`.
set -eu
here=$(cd "$(dirname "$0")" && pwd)
top=$(dirname "$here")
work=$(mktemp -d)
trap 'rm -rf "$work"' EXIT

dpkg-query -W -f '${Package} ${Version}\n' simavr binutils-avr
echo "zetikomi of commit $(git -C "$top" rev-parse --short HEAD), built with $(rt version)"

avr-as -mmcu=atmega128 -o "$work/loop.o" "$here/loop.s"
avr-ld -m avr51 -o "$work/loop.elf" "$work/loop.o"
avr-objcopy -O ihex "$work/loop.elf" "$work/loop.hex"
: > "$work/script.txt"

# The user seconds and the seconds by the clock that a command takes; what it writes goes to a file.
TIMEFORMAT='%U s user, %R s in all'
took() {
  { time "$@" > "$work/out" 2>&1 < /dev/null || true; } 2>&1
}

sim() {
  "$top/zetikomi" sim "$work/loop.hex" "$work/script.txt" --steps 20000000
}

took sim > /dev/null # builds the program, where that is due
for run in 1 2 3 4 5; do
  ours=$(took sim)
  said=$(tail -n 1 "$work/out")
  theirs=$(took simavr -m atmega128 -f 16000000 "$work/loop.hex")
  echo "run $run: sim $ours; simavr $theirs"
  if [ "$said" != "stop 0" ]; then
    echo "sim has not run the loop to its end: $said" >&2
    exit 1
  fi
done
