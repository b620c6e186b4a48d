#!/usr/bin/env bash
# Times holds of composed locks of one to five levels, of a plan's kinds (crates/plan_bench), beside a mutex of the C library and the
# ticket lock and the cohort lock of Concurrency Kit (Debian's libck-dev), by one, two and four threads. It runs all in turn, five times
# each, and prints three tables, with an empty line between: nanoseconds a hold (the median) with each number of threads, the start of the
# process and of its threads included; how many times as long some rows take as others, by the two runs of each round: the median, the
# least and the greatest; and, where valgrind is there, how many instructions a hold by one thread takes, counted by its callgrind.
# Each hold notes its caller in a list, but for rows with a / in their name, whose holds add one to a number. Threads stand two by two
# under a node of the lowest level or in a cohort, which keeps the lock above for nine turns more; of three levels and more the nodes stand
# under one. For rows of plans it needs a built plan_bench (rt run in its folder).
#
#   bench/cohorts.sh [ROW..]    the rows pthread, ck (a ticket lock), ck-ck (a cohort lock of two), ck/count, ck-ck/count (the same, whose
#                               holders count), and kinds as of `clof run --locks`, of one to five levels: alone with a trail that keeps
#                               its turns in memory, and with /free behind it with one that keeps none; by default twenty-one rows, in
#                               some minutes
#   bench/cohorts.sh > table && bench/cohorts_picture.py < table > docs/cohorts.svg
#
# HOLDS is how many holds all threads of a run make together, 1,000,000 by default; ROUNDS how often each is run, 5 by default; PLAN_BENCH
# the program that holds locks of plans, by default the built one.
set -eu
cd "$(dirname "$0")/.."
. bench/timing.sh
[ $# -gt 0 ] || set -- pthread ck ck-ck ck/count ck-ck/count tkt mcs clh hem tkt-tkt mcs-mcs clh-clh hem-hem mcs-tkt tkt-tkt-tkt \
  mcs-mcs-mcs tkt-tkt-tkt-tkt-tkt {tkt,tkt-tkt,tkt-tkt-tkt,tkt-tkt-tkt-tkt-tkt}/free
holds=${HOLDS:-1000000} rounds=${ROUNDS:-5} counts='1 2 4'
for row in "$@"; do
  case $row in
    pthread) mutex=${mutex:-$(compiled pthread_mutex)} ;;
    ck | ck-ck | ck/count | ck-ck/count) kit=${kit:-$(compiled ck_cohorts)} ;;
    *) ours=${ours:-${PLAN_BENCH:-$(built plan_bench)}} ;;
  esac
done
taken=$(mktemp -d)
trap 'rm -rf "$taken"' EXIT

# ROW THREADS HOLDS: the words that run it once, so that each thread holds so often
words() {
  local cohorts=$((($2 + 1) / 2))
  case $1 in
    pthread) echo "$mutex $2 $3" ;;
    ck) echo "$kit 0 $2 $3 10" ;;
    ck/count) echo "$kit 0 $2 $3 10 count" ;;
    ck-ck) echo "$kit $cohorts $2 $3 10" ;;
    ck-ck/count) echo "$kit $cohorts $2 $3 10 count" ;;
    */*) echo "$ours ${1%/*} 9 $2 $3 ${1#*/}" ;;
    *) echo "$ours $1 9 $2 $3 recorded" ;;
  esac
}

# ROW THREADS: the file of its times
times() { echo "$taken/${1//\//.}.$2"; }

# ROW HOLDS: how many instructions a run of one thread takes
instructions() {
  valgrind --tool=callgrind --callgrind-out-file=/dev/null $(words "$1" 1 "$2") 2>&1 > /dev/null | awk '/Collected :/ { print $NF }'
}

# ROW BESIDE THREADS..: a line for each number of threads, where both rows were run
ratios() {
  local row=$1 beside=$2 threads
  shift 2
  for threads in "$@"; do
    [ -s "$(times "$row" "$threads")" ] && [ -s "$(times "$beside" "$threads")" ] || continue
    paste "$(times "$row" "$threads")" "$(times "$beside" "$threads")" | awk '{ print $1 / $2 }' | sort -g |
      awk -v row="$row" -v beside="$beside" -v threads="$threads" '{ ratio[NR] = $1 } END {
        printf "%-27s %-20s %7d %7.2f %7.2f %7.2f\n", row, beside, threads, ratio[int((NR + 1) / 2)], ratio[1], ratio[NR] }'
  done
}

for row in "$@"; do $(words "$row" 1 $((holds))) > /dev/null; done
for _ in $(seq "$rounds"); do
  for row in "$@"; do
    for threads in $counts; do
      nanoseconds $(words "$row" "$threads" $((holds / threads))) >> "$(times "$row" "$threads")"
    done
  done
done

machine
printf '%-27s %10s %10s %10s\n' 'ns a hold' '1 thread' '2 threads' '4 threads'
for row in "$@"; do
  printf '%-27s' "$row"
  for threads in $counts; do
    awk -v t="$(median "$(times "$row" "$threads")")" -v n=$((holds / threads * threads)) 'BEGIN { printf " %10.1f", t / n }'
  done
  printf '\n'
done

five=tkt-tkt-tkt-tkt-tkt
printf '\n%-27s %-20s %7s %7s %7s %7s\n' 'times as long' beside threads median least most
ratios tkt-tkt ck-ck 1 4
ratios tkt-tkt/free ck-ck/count 1 4
ratios tkt/free ck/count 1
ratios $five tkt 1
ratios $five/free tkt/free 1

command -v valgrind > /dev/null || exit 0
printf '\n%-27s %10s\n' 'instructions a hold' '1 thread'
for row in "$@"; do
  awk -v row="$row" -v few="$(instructions "$row" 10000)" -v many="$(instructions "$row" 30000)" \
    'BEGIN { printf "%-27s %10.1f\n", row, (many - few) / 20000 }'
done
