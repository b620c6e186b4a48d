#!/usr/bin/env bash
# Times clof calc, distrib and topo beside hwloc-calc, hwloc-distrib and lstopo (Debian's hwloc-nox), whole processes, in turn, and prints a
# table: the query, milliseconds a process of each (the median of eleven, or of three where a process of hwloc takes over half a second),
# the ratio, and whether both print the same. It needs a built program (./clof, or rt run in crates/clof).
#
#   bench/queries.sh [PROGRAM [WORD]]
#
# With a WORD only the rows whose name has it.
set -eu
cd "$(dirname "$0")/.."
. bench/timing.sh
ours=${1:-crates/clof/out/clof}
only=${2:-}
[ -x "$ours" ] || { echo "there is no $ours: run ./clof first" >&2; exit 1; }
command -v hwloc-calc > /dev/null || { echo "there is no hwloc-calc: install hwloc-nox" >&2; exit 1; }

# microseconds of one run, by the shell's own clock, so that no other process is timed
microseconds() {
  local start=${EPOCHREALTIME/./}
  "$@" > /dev/null 2>&1 < /dev/null || true
  echo $((${EPOCHREALTIME/./} - start))
}

# NAME, then the words behind clof, then -- and the words of the other program
row() {
  local name=$1 here there words=() runs=11 same=no
  [[ $name == *"$only"* ]] || return 0
  shift
  while [ "$1" != -- ]; do words+=("$1"); shift; done
  shift
  here=$(mktemp) there=$(mktemp)
  "$ours" "${words[@]}" > "$here" || echo "$name: clof refuses it" >&2
  "$@" > "$there" 2> /dev/null
  cmp -s "$here" "$there" && same=yes
  [ "$(microseconds "$@")" -lt 500000 ] || runs=3
  : > "$here"
  : > "$there"
  for _ in $(seq "$runs"); do
    microseconds "$ours" "${words[@]}" >> "$here"
    microseconds "$@" >> "$there"
  done
  awk -v n="$name" -v a="$(median "$here")" -v b="$(median "$there")" -v s="$same" \
    'BEGIN { printf "%-34s %10.2f %10.2f %7.4f %5s\n", n, a / 1000, b / 1000, a / b, s }'
  rm -f "$here" "$there"
}

small="Package:2 Core:2 PU:2"
wide="Package:4 L3:4 Core:64 PU:4"
# 4,095 PUs, and 16,381 objects
limit="Group:1365 Group:1 Group:1 Group:1 Group:1 Group:1 Group:1 Group:1 Group:1 PU:3"

machine
printf '%-34s %10s %10s %7s %5s\n' query 'ms here' 'ms hwloc' ratio same
row 'a set, 8 PUs' calc "$small" core:1 -- hwloc-calc -i "$small" core:1
row '-N pu, 8 PUs' calc -N pu "$small" core:1-2 -- hwloc-calc -i "$small" -N pu core:1-2
row '-I core, 8 PUs' calc -I core "$small" core:1-2 -- hwloc-calc -i "$small" -I core core:1-2
row '-H package.core, 8 PUs' calc -H package.core "$small" all -- hwloc-calc -i "$small" -H package.core all
row '--largest, 8 PUs' calc --largest "$small" pu:1-6 -- hwloc-calc -i "$small" --largest pu:1-6
row 'distrib 8, 8 PUs' distrib 8 "$small" -- hwloc-distrib -i "$small" 8
row 'a set, 4,096 PUs' calc "$wide" core:7-900 -- hwloc-calc -i "$wide" core:7-900
row '-N pu, 4,096 PUs' calc -N pu "$wide" all -- hwloc-calc -i "$wide" -N pu all
row '-I pu, 4,096 PUs' calc -I pu "$wide" all -- hwloc-calc -i "$wide" -I pu all
row '-H package.core.pu, 4,096 PUs' calc -H package.core.pu "$wide" all -- hwloc-calc -i "$wide" -H package.core.pu all
row '--largest, 4,096 PUs' calc --largest "$wide" pu:1-4094 -- hwloc-calc -i "$wide" --largest pu:1-4094
row 'distrib 4096, 4,096 PUs' distrib 4096 "$wide" -- hwloc-distrib -i "$wide" 4096
row '-N pu, 16,381 objects' calc -N pu "$limit" all -- hwloc-calc -i "$limit" -N pu all
row '-I pu, 16,381 objects' calc -I pu "$limit" all -- hwloc-calc -i "$limit" -I pu all
row '-H group0.pu, 16,381 objects' calc -H group0.pu "$limit" all -- hwloc-calc -i "$limit" -H group0.pu all
row '--largest, 16,381 objects' calc --largest "$limit" pu:1-4093 -- hwloc-calc -i "$limit" --largest pu:1-4093
row 'distrib 4096, 16,381 objects' distrib 4096 "$limit" -- hwloc-distrib -i "$limit" 4096
row 'topo, 5,393 objects' topo "$wide" -- lstopo-no-graphics -i "$wide" --of console -v
