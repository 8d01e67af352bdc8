#!/bin/bash
# Times the command `why` on generated texts: 198 classes below one, each with a method that calls the same name on an object, and a component; that is the
# most that a text may have. So many objects are in an array (live), or made and held by nothing (dead). A text stores at most 60,000 values, of which an
# object without fields is one and its place in an array another.
# The last lines are the exponents of growth, by the times without that of the smallest text. The launcher's look for newer sources counts as time of `why`.
set -eu
here=$(cd "$(dirname "$0")" && pwd)
top=$(dirname "$here")
work=$(mktemp -d)
trap 'rm -rf "$work"' EXIT
classes=199

echo "zetikomi of commit $(git -C "$top" rev-parse --short HEAD), built with $(rt version)"

# A text with so many objects, in turns of as many as there are classes; those behind the last whole turn are of the first class.
text() {
  awk -v n="$1" -v classes="$classes" -v kind="$2" 'BEGIN {
    print "class B { method m() { } }"
    for (c = 0; c < classes - 1; c++) printf "class C%d extends B { method m() { Main.all[0].m(); } }\n", c
    size = kind == "live" ? n : 1
    printf "component Main {\n  field all: B[];\n  constructor() {\n    local i: int = 0;\n    all = new B[%d];\n", size
    printf "    while (i + %d <= %d) {\n", classes - 1, n
    for (c = 0; c < classes - 1; c++) printf kind == "live" ? "      all[i + %d] = new C%d();\n" : "      new C%d();\n", kind == "live" ? c : c, c
    printf "      i = i + %d;\n    }\n    while (i < %d) { %snew C0(); i = i + 1; }\n  }\n", classes - 1, n, kind == "live" ? "all[i] = " : ""
    print "  method main() { all[0].m(); }\n}\nprogram P { entry main = Main.main; }"
  }'
}

TIMEFORMAT=%U
took() {
  { time "$top/zetikomi" why "$1" "$2" > "$work/out" 2>&1 < /dev/null || true; } 2>&1
}

# The least of three times, for a text whose answer begins so.
least() {
  best=''
  for round in 1 2 3; do
    spent=$(took "$1" "$2")
    case $(head -n 1 "$work/out") in
      "$3"*) ;;
      *) echo "$1: $(head -n 1 "$work/out")" >&2; exit 1 ;;
    esac
    best=$(awk -v a="$best" -v b="$spent" 'BEGIN { print a == "" || b < a ? b : a }')
  done
  echo "$best"
}

text 1 dead > "$work/first.vg"
took "$work/first.vg" Main.main > /dev/null # builds the program, where that is due
for kind in live dead; do
  : > "$work/times"
  for n in 60 600 6000 $([ "$kind" = live ] && echo 29900 || echo 59700); do
    text "$n" "$kind" > "$work/$kind$n.vg"
    # the last class's method is live where its object is
    if [ "$kind" = live ] && [ "$n" -gt "$classes" ]; then
      spent=$(least "$work/$kind$n.vg" "C$((classes - 2)).m" 'method C')
    else
      spent=$(least "$work/$kind$n.vg" Main.main 'method Main.main by 1')
    fi
    echo "$n $spent" >> "$work/times"
    echo "$kind: $n objects of $((classes - 1)) classes in $spent s"
  done
  awk -v kind="$kind" 'NR == 1 { base = $2; next } { n[NR] = $1; t[NR] = $2 - base; last = NR }
    END { a = last - 1; if (t[a] > 0.005 && t[last] > 0) printf "%s: time grows with the power %.2f from %d to %d objects\n", kind, log(t[last] / t[a]) / log(n[last] / n[a]), n[a], n[last]
          else printf "%s: too short to tell a power\n", kind }' "$work/times"
done
