#!/bin/bash
# size.sh [PROGRAM]: the bytes of flash and of RAM of the images that `build` makes, beside those of C programs that do the same (bench/twins), by avr-gcc -Os.
# PROGRAM is the compiler; where it is left out, that of this checkout. Flash is the data bytes of the HEX text, and avr-size's text + data; RAM is the static
# area, and avr-size's data + bss. A ratio is one of flash, and the mean of ratios is the geometric one.
# Then the same for bodies of a line or two (bench/bodies): the image of a text less that of the text without the lines that end with `// body`.
# The status is 0 where all was measured, and 1 where something is missing or was not built.
set -eu
here=$(cd "$(dirname "$0")" && pwd)
top=$(dirname "$here")
program=${1:-$top/zetikomi}
for tool in avr-gcc avr-size; do
  command -v "$tool" > /dev/null || { echo "$tool is missing: apt-get install gcc-avr avr-libc"; exit 1; }
done
command -v "$program" > /dev/null || { echo "$program is no program"; exit 1; }
work=$(mktemp -d)
trap 'rm -rf "$work"' EXIT

# Prints the bytes of flash and of RAM of the image of a text.
ours() {
  if ! "$program" build "$1" > "$work/hex" 2> "$work/note" < /dev/null; then
    echo "$(basename "$1"): $(tail -n 1 "$work/note")" >&2
    return 1
  fi
  awk '
    /^:......00/ { flash += 16 * (index(digits, substr($0, 2, 1)) - 1) + index(digits, substr($0, 3, 1)) - 1 }
    $1 == "static" { ram = $3 }
    END { print flash, ram }' digits=0123456789ABCDEF "$work/hex" "$work/note"
}

# Prints the same of a C program.
theirs() {
  avr-gcc -Os -mmcu=atmega128 -I "$here/bodies" -o "$work/elf" "$1" && avr-size "$work/elf" | awk 'NR == 2 { print $1 + $2, $2 + $3 }'
}

# Prints lines of a name, the bytes of flash and RAM of an image and those of its twin, as a table.
table() {
  [ -s "$2" ] || return 0
  awk -v what="$1" '
    function row(name, flash, words, twin, ratio, ram, twin_ram) {
      printf "%-16s %8s %6s %8s %6s %6s %8s\n", name, flash, words, twin, ratio, ram, twin_ram
    }
    BEGIN { row(what, "flash", "words", "avr-gcc", "ratio", "RAM", "avr-gcc") }
    { row($1, $2, $2 / 2, $4, sprintf("%.2f", $2 / $4), $3, $5); logs += log($2 / $4) }
    END { row("mean of " NR, "", "", "", sprintf("%.2f", exp(logs / NR)), "", ""); print "" }' "$2"
}

echo "zetikomi of commit $(git -C "$top" rev-parse --short HEAD); $(avr-gcc --version | head -n 1), -Os -mmcu=atmega128"
status=0
touch "$work/constants" "$work/images" "$work/bodies"
for twin in "$here"/twins/*.c; do
  name=$(basename "$twin" .c)
  text=$top/examples/$name/$name.vg table=images
  [ -f "$text" ] || text=$top/examples/$name.vg table=constants
  if our=$(ours "$text") && their=$(theirs "$twin"); then echo "$name $our $their" >> "$work/$table"; else status=1; fi
done
for twin in "$here"/bodies/*.c; do
  name=$(basename "$twin" .c)
  grep -v '// body$' "$here/bodies/$name.vg" > "$work/$name.vg"
  grep -v '// body$' "$twin" > "$work/$name.c"
  if our=$(ours "$here/bodies/$name.vg") && their=$(theirs "$twin") && our_rest=$(ours "$work/$name.vg") && their_rest=$(theirs "$work/$name.c"); then
    echo "$name $our $their $our_rest $their_rest" | awk '{ print $1, $2 - $6, $3 - $7, $4 - $8, $5 - $9 }' >> "$work/bodies"
  else
    status=1
  fi
done
table image "$work/images"
table 'of constants' "$work/constants"
table body "$work/bodies"
exit $status
