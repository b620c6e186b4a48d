#!/usr/bin/env bash
# Times crates/lock_bench beside the same atomic steps in C (sc_locks.c) and the same work over Concurrency Kit (Debian's libck-dev), all in
# turn, five times each, and prints a table: lock, threads, the least and the greatest of the nanoseconds a hold of each, and the ratios of
# the medians. It needs a built lock_bench (rt run in crates/lock_bench).
#
#   bench/locks.sh [LOCK[:THREADS]..]     by default ticket mcs clh hemlock and each with a c behind its name (waiters are counted), each
#                                         with 1, 2 and 4 threads, in some three minutes. mcs:4 is one line of the table, in seconds.
#                                         Concurrency Kit has no Hemlock, which stands beside its MCS lock, and no counted waiters
set -eu
cd "$(dirname "$0")/.."
. bench/timing.sh
ours=$(built lock_bench)
steps=$(compiled sc_locks)
theirs=$(compiled ck_locks)
folder=$(mktemp -d)
trap 'rm -rf "$folder"' EXIT
[ $# -gt 0 ] || set -- ticket mcs clh hemlock ticketc mcsc clhc hemlockc

# LOCK: the lock of Concurrency Kit beside which it stands, or nothing
peer_of() {
  case $1 in hemlock) echo mcs ;; *c) ;; *) echo "$1" ;; esac
}

# FILE FILE: the ratio of their medians, or a dash where one has none
ratio() {
  [ -s "$1" ] && [ -s "$2" ] || { echo -; return; }
  awk -v a="$(median "$1")" -v b="$(median "$2")" 'BEGIN { printf "%.2f\n", a / b }'
}

# LOCK THREADS HOLDS: times the three programs in turn
times() {
  local peer
  peer=$(peer_of "$1")
  rm -f "$folder"/*
  touch "$folder/ck"
  for _ in 1 2 3 4 5; do
    nanoseconds "$ours" "$1" "$2" "$3" >> "$folder/here"
    nanoseconds "$steps" "$1" "$2" "$3" >> "$folder/steps"
    [ -z "$peer" ] || nanoseconds "$theirs" "$peer" "$2" "$3" >> "$folder/ck"
  done
}

machine
printf '%-9s %7s %16s %16s %16s %7s %7s\n' lock threads 'ns here' 'ns same steps' 'ns ck' '/steps' '/ck'
for word in "$@"; do
  lock=${word%%:*}
  case $word in *:*) counts=${word#*:} ;; *) counts='1 2 4' ;; esac
  for threads in $counts; do
    case $threads in 1) holds=10000000 ;; 2) holds=2000000 ;; *) holds=500000 ;; esac
    times "$lock" "$threads" "$holds"
    all=$((threads * holds))
    printf '%-9s %7d %16s %16s %16s %7s %7s\n' "$lock" "$threads" "$(range "$folder/here" $all)" "$(range "$folder/steps" $all)" \
      "$(range "$folder/ck" $all)" "$(ratio "$folder/here" "$folder/steps")" "$(ratio "$folder/here" "$folder/ck")"
  done
done
