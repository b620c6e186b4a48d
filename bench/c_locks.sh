#!/usr/bin/env bash
# Times holds through libclof.a beside Concurrency Kit's locks (Debian's libck-dev), pthread's mutex and, where it is built,
# crates/lock_bench (of `composed`, crates/plan_bench), all in turn, five times each, and prints for each the least and the greatest of
# nanoseconds a hold; behind that, by four threads who each hold for about a microsecond, the library beside the mutex. It needs
# c/build/libclof.a (make in c).
#
#   bench/c_locks.sh [LOCK[:THREADS]..]     by default ticket mcs clh hemlock composed, each with 1, 2 and 4 threads, in some five minutes.
#                                           Concurrency Kit has no Hemlock: there its MCS lock stands. `composed` has two levels of
#                                           tickets, and beside it stands its cohort lock of tickets
set -eu
cd "$(dirname "$0")/.."
. bench/timing.sh
[ -f c/build/libclof.a ] || { echo "there is no c/build/libclof.a: run make in c first" >&2; exit 1; }
folder=$(mktemp -d)
trap 'rm -rf "$folder"' EXIT
cc -O2 -pthread -Ic/include -o "$folder/c_locks" bench/c_locks.c c/build/libclof.a
theirs=$(compiled ck_locks)
cohorts=$(compiled ck_cohorts)
[ $# -gt 0 ] || set -- ticket mcs clh hemlock composed

# LOCK THREADS HOLDS: the words that run the same work by Concurrency Kit, and by a program of this repository
peer() {
  case $1 in
    composed) echo "$cohorts $((($2 + 1) / 2)) $2 $3 10 count" ;;
    hemlock) echo "$theirs mcs $2 $3" ;;
    *) echo "$theirs $*" ;;
  esac
}
rattle() {
  case $1 in
    composed) echo "crates/plan_bench/out/plan_bench tkt-tkt 9 $2 $3 free" ;;
    *) echo "crates/lock_bench/out/lock_bench $*" ;;
  esac
}

# NAME WORD..: one run's time, behind those of the name
once() { local name=$1; shift; nanoseconds "$@" >> "$folder/$name.times"; }

machine
cc --version | head -1
printf '%-8s %7s %16s %16s %16s %16s\n' lock threads 'ns library' 'ns rattle' 'ns ck' 'ns mutex'
for word in "$@"; do
  lock=${word%%:*}
  case $word in *:*) counts=${word#*:} ;; *) counts='1 2 4' ;; esac
  for threads in $counts; do
    case $threads in 1) holds=10000000 ;; 2) holds=2000000 ;; *) holds=500000 ;; esac
    rm -f "$folder"/*.times
    touch "$folder/rattle.times"
    ours=$(rattle "$lock" "$threads" "$holds")
    for _ in 1 2 3 4 5; do
      once library "$folder/c_locks" "$lock" "$threads" "$holds"
      [ ! -x "${ours%% *}" ] || once rattle $ours
      once ck $(peer "$lock" "$threads" "$holds")
      once mutex "$folder/c_locks" mutex "$threads" "$holds"
    done
    n=$((threads * holds))
    printf '%-8s %7d %16s %16s %16s %16s\n' "$lock" "$threads" "$(range "$folder/library.times" $n)" "$(range "$folder/rattle.times" $n)" \
      "$(range "$folder/ck.times" $n)" "$(range "$folder/mutex.times" $n)"
  done
done

printf '\n%-8s %7s %16s %16s\n' 'held 1us' threads 'ns library' 'ns mutex'
for word in "$@"; do
  rm -f "$folder"/*.times
  for _ in 1 2 3 4 5; do
    once library "$folder/c_locks" "${word%%:*}" 4 100000 550
    once mutex "$folder/c_locks" mutex 4 100000 550
  done
  printf '%-8s %7d %16s %16s\n' "${word%%:*}" 4 "$(range "$folder/library.times" 400000)" "$(range "$folder/mutex.times" 400000)"
done
