#!/usr/bin/env bash
# Runs the built program on logs with each of its allocations failing in turn. Each run has to write
# nothing and end with 70, or with 71 before there are words, or to answer as with ample memory.
# The program is the built one of this folder, or the one that SKEWCHECK names. Needs a C compiler, `cc`. The status is
# 0 where all runs did so, 1 where one didn't, and from 72 on where they can't be tried.
refuse() {
  echo "allocations.sh: $1" >&2
  exit "$2"
}

case ${SKEWCHECK-} in '' | /*) ;; *) SKEWCHECK=$PWD/$SKEWCHECK ;; esac
cd "$(dirname "$0")/.." || refuse "the repository can't be entered" 74
program=${SKEWCHECK:-./crates/skewcheck/out/skewcheck}
[ -n "${SKEWCHECK-}" ] || [ -x "$program" ] || ./skewcheck -- </dev/null >/dev/null
[ -x "$program" ] || refuse "$program isn't there" 72
folder=$(mktemp -d) || refuse "no temporary folder can be made" 73
trap 'rm -rf "$folder"' EXIT
cc -shared -fPIC -O1 -o "$folder/fail_alloc.so" faults/fail_alloc.c -ldl || refuse "cc makes no library of faults/fail_alloc.c" 72

runs=0
wrong=0

# Tries every allocation of the program on the words; the input is the file that comes first.
try() {
  local input=$1 due status total
  shift
  total=$(TELL_ALLOCS=1 LD_PRELOAD=$folder/fail_alloc.so "$program" "$@" <"$input" 2>&1 >"$folder/due")
  if ! [[ $total =~ ^[1-9][0-9]*$ ]]; then
    wrong=$((wrong + 1))
    echo "words $*: no allocation was counted: $total"
    return
  fi
  "$program" "$@" <"$input" >"$folder/due"
  due=$?
  for ((place = 1; place <= total; place++)); do
    FAIL_ALLOC=$place LD_PRELOAD=$folder/fail_alloc.so "$program" "$@" <"$input" >"$folder/answer"
    status=$?
    runs=$((runs + 1))
    case $status in
      70 | 71) [ ! -s "$folder/answer" ] && continue ;;
      "$due") cmp -s "$folder/answer" "$folder/due" && continue ;;
    esac
    wrong=$((wrong + 1))
    echo "words $*: with allocation $place failing, the status is $status"
  done
}

for log in examples/*.csv; do
  try "$log" times -
  try /dev/null times "$log"
  try "$log" order -
  try /dev/null order "$log"
done
formula=examples/request.formula
log=examples/request.csv
try /dev/null replay $formula $log examples/request.times
try examples/request.times replay $formula $log -
try /dev/null replay $formula $log $log
try /dev/null replay $formula examples/skewed.csv examples/request.times
try /dev/null replay README.md $log examples/request.times
try /dev/null replay examples/deadline.formula examples/skewed.csv examples/late.times
try /dev/null replay examples/deadline.formula $log examples/request.times
log=examples/answered.csv
try /dev/null check examples/within_9.formula $log
try /dev/null check examples/within_5.formula $log
try /dev/null check --conflicts 1 examples/either.formula examples/apart.csv
try /dev/null check examples/p.formula examples/twice_apart.csv
try /dev/null audit examples/within_9.formula $log examples/answered_within_9.report
try /dev/null audit examples/within_9.formula $log examples/answered_within_8.report
try /dev/null audit --conflicts 1 examples/either.formula examples/apart.csv examples/apart_either_after_1.report
try /dev/null audit examples/within_9.formula $log README.md
try examples/lease.report audit examples/lease.formula examples/lease.csv -
for report in examples/{near_since_either,together_both,lease,one_by_hand,hint_missing,end_missing,not_empty,walk_of_nothing}.report; do
  try /dev/null trim "$report"
  try "$report" trim -
done
for file in examples/*.json; do
  try /dev/null json "$file"
  try "$file" json -
done
try /dev/null json README.md
for value in true false; do
  try /dev/null tolerance $value 100 examples/lease.formula examples/lease_stamps.csv
  try /dev/null tolerance --conflicts 1 $value 10 examples/lease.formula examples/handover_stamps.csv
  try /dev/null tolerance $value 9 examples/true.formula examples/message.csv
  try /dev/null span $value 0 1 examples/within_5.formula $log
  try /dev/null span $value 1 0 examples/lease.formula examples/lease.csv
  try /dev/null span --conflicts 1 $value 0 1 examples/either.formula examples/apart.csv
  try /dev/null span $value 0 1 examples/true.formula examples/impossible.csv
done
try /dev/null span true 0 99 examples/within_5.formula $log
try $log tolerance true 3 examples/within_8.formula -
try /dev/null times -
try README.md times -
try /dev/null times -x
try /dev/null
echo "$runs runs, $wrong wrong"
[ "$wrong" -eq 0 ] && [ "$runs" -gt 0 ]
