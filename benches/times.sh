#!/usr/bin/env bash
# Prints how long the built program takes on logs of 8 to 1,024 rows, on files of 1 MiB and on long and
# nested formulas, how long the differences of a log take, and the solver on 1,024 nodes.
# Each time is the least of several runs, in milliseconds, start of the process included.
refuse() {
  echo "times.sh: $1" >&2
  exit "$2"
}

cd "$(dirname "$0")/.." || refuse "the repository can't be entered" 74
runs=${1:-20}
folder=$(mktemp -d) || refuse "no temporary folder can be made" 73
trap 'rm -rf "$folder"' EXIT

# A log of $1 rows over 4 hosts, whose clocks run apart by less than their skew; $2 is the rows' gap.
log() {
  awk -v rows="$1" -v gap="$2" 'BEGIN {
    srand(rows)
    print "kind,host,time,name"
    split("a b c d", hosts, " ")
    for (i = 1; i <= 4; i++) print "host," hosts[i] ",500," gap
    for (row = 0; row < rows; row++) {
      clock = 100 * row + int(400 * rand())
      print (row % 2 ? "note" : "set") "," hosts[1 + int(4 * rand())] "," clock ",p"
    }
  }'
}

# The least time of the runs of the command that the words after the first are; the first is its input.
least() {
  local input=$1 best= began taken
  shift
  for ((run = 0; run < runs; run++)); do
    began=${EPOCHREALTIME/./}
    "$@" <"$input" >"$folder/answer"
    taken=$((${EPOCHREALTIME/./} - began))
    if [ -z "$best" ] || [ "$taken" -lt "$best" ]; then best=$taken; fi
  done
  printf '%d.%d' $((best / 1000)) $((best % 1000 / 100))
}

./skewcheck -- </dev/null >/dev/null
[ $? -eq 64 ] || refuse "the program isn't built" 72
printf '%-28s %12s  %s\n' "times" "milliseconds" "answer"
for rows in 8 64 256 1024; do
  for gap in 1 3000; do
    log "$rows" "$gap" >"$folder/log"
    taken=$(least "$folder/log" ./crates/skewcheck/out/skewcheck times -)
    answer=$(head -n 1 "$folder/answer")
    case $answer in
      inconsistent*) ;;
      [0-9]* | -[0-9]*) answer="a timing" ;;
      *) answer="no answer" ;;
    esac
    printf '%-28s %12s  %s\n' "$rows rows, gap $gap" "$taken" "$answer"
  done
done

# Files of 1 MiB: one with a row too many at record 1027, which is told after the whole file was taken
# apart, and one of 1,024 rows and blank lines.
head=$'kind,host,time,name\nhost,a,0,0\n'
{ printf '%s' "$head"; yes 'note,a,1234567,n' | head -c $((1048576 - ${#head})); } >"$folder/rows"
{ printf '%s' "$head"; yes 'note,a,7,n' | head -n 1024; yes '' | head -c 1048576; } | head -c 1048576 >"$folder/blank"
printf '\n%-28s %12s  %s\n' "times of 1 MiB" "milliseconds" "answer"
for kind in rows blank; do
  taken=$(least "$folder/$kind" ./crates/skewcheck/out/skewcheck times -)
  printf '%-28s %12s  %s\n' "$kind" "$taken" "$(head -n 1 "$folder/answer")"
done

# Formulas of the most bytes, of the most nodes, and of one part that occurs often, on 64 and on 1,024 rows.
repeated() { head -c "$2" /dev/zero | tr '\0' "$1"; }
conjunctions() { # of $1 untils, as a tree
  awk -v count="$1" 'function tree(low, high, middle) {
    if (low == high) return "(a.p U[" low % 7 "," low + 5 "] !a.p)"
    middle = int((low + high) / 2)
    return "(" tree(low, middle) " & " tree(middle + 1, high) ")"
  } BEGIN { print tree(1, count) }'
}
shared() { # a conjunction of itself, $1 times over
  awk -v count="$1" 'BEGIN { f = "F[0,5] a.p"; for (i = 0; i < count; i++) f = "(" f " & " f ")"; print f }'
}
{ repeated '(' 32000; printf true; repeated ')' 32000; } >"$folder/parentheses"
{ repeated '!' 60000; printf true; } >"$folder/signs"
conjunctions 252 >"$folder/untils"
shared 12 >"$folder/shared"
{
  printf 'kind,host,time,name\nhost,a,0,1\n'
  for ((row = 0; row < 1024; row++)); do printf '%s,a,%d,p\n' "$((row % 2))" "$row"; done
} | sed 's/^0,/clear,/; s/^1,/set,/' >"$folder/rows1024"
seq 0 1023 >"$folder/times1024"
head -n 66 "$folder/rows1024" >"$folder/rows64"
head -n 64 "$folder/times1024" >"$folder/times64"
for rows in 64 1024; do
  printf '\n%-28s %12s  %s\n' "replay on $rows rows" "milliseconds" "answer"
  for formula in parentheses signs untils shared; do
    taken=$(least /dev/null ./crates/skewcheck/out/skewcheck replay "$folder/$formula" "$folder/rows$rows" "$folder/times$rows")
    printf '%-28s %12s  %s\n' "$formula, $(wc -c <"$folder/$formula") bytes" "$taken" "$(head -n 1 "$folder/answer")"
  done
  runs=3
done
runs=${1:-20}

# A benchmark program, built where it isn't; what the build says is shown only where it fails.
built() {
  local program=$1
  shift
  if ! (cd "crates/$program" && rt run -- "$@") >"$folder/build" 2>&1; then
    cat "$folder/build" >&2
    refuse "crates/$program isn't built" 72
  fi
}

# A table with a log of $1 rows, which take turns on the hosts, each second one a receive of what the one before it
# sends, and the question how far apart its first and its last row are.
span() {
  printf '[logs\n+line kind,host,time,name\n*4 +line host,h#,500,1\n'
  for ((row = 0; row < $1; row++)); do
    if ((row % 2)); then kind=recv; else kind=send; fi
    printf '+line %s,h%d,%d,m%d\n' "$kind" $((row % 4)) $((100 * row)) $((row / 2))
  done
  printf '=read\n?span\n'
}
built text_table </dev/null
printf '\n%-28s %12s  %s\n' "tight" "milliseconds" "least and greatest"
for rows in 8 64 256 1024; do
  span "$rows" >"$folder/span"
  taken=$(least "$folder/span" ./crates/text_table/out/text_table)
  printf '%-28s %12s  %s\n' "$rows rows" "$taken" "$(tail -n 1 "$folder/answer" | cut -d ' ' -f 6-)"
done

# What `logic_table` and `audit` answer to what is made for them.
logic=./crates/logic_table/out/logic_table
built logic_table <crates/logic_table/stdin
make() { python3 benches/inputs.py "$@"; }

runs=3
printf '\n%-28s %12s  %s\n' "solve" "milliseconds" "answer"
for rows in 256 1023; do
  for kind in possible impossible crowded backward; do
    make system "$rows" "$kind" >"$folder/table"
    taken=$(least "$folder/table" "$logic")
    answer=$(awk '$1 == "numbers" { print "potential of " NF - 1 " nodes" }
      $1 == "cycle" { print "cycle of " NF - 1 " edges" }' "$folder/answer")
    printf '%-28s %12s  %s\n' "$((rows + 1)) nodes, $kind" "$taken" "$answer"
  done
done

# A derivation of 100,000 Learn lines with ten hints each, in a report: that it is of another log is told once
# the whole report was read.
make derivation 100000 "$folder"
printf '\n%-28s %12s  %s\n' "100,000 learnt clauses" "milliseconds" "answer"
for report in events.report report; do
  taken=$(least /dev/null ./crates/skewcheck/out/skewcheck audit --conflicts 100000 "$folder/formula" "$folder/log" "$folder/$report")
  printf '%-28s %12s  %s\n' "$([ "$report" = report ] && echo check || echo read)" "$taken" "$(cat "$folder/answer")"
done

# Problems: logs of more and more rows with one eventually, and many that untils join on logs of fewer rows.
printf '\n%-28s %12s  %s\n' "encode" "milliseconds" "answer"
for case in "8 1" "64 1" "256 1" "1024 1" "64 8" "16 32" "8 255"; do
  read -r rows count <<<"$case"
  make problem "$rows" "$count" >"$folder/table"
  taken=$(least "$folder/table" "$logic")
  answer=$(grep -v '^[=*![]' "$folder/answer" | paste -s -d, | sed 's/,/, /')
  printf '%-28s %12s  %s\n' "$rows rows, $count joined" "$taken" "$answer"
done
