#!/usr/bin/env bash
# Prints how many bytes locks take through libclof.a with 2 and with 64 callers, what each further caller takes, and how often holds ask for
# memory. It needs c/build/libclof.a (make in c).
set -eu
cd "$(dirname "$0")/.."
[ -f c/build/libclof.a ] || { echo "there is no c/build/libclof.a: run make in c first" >&2; exit 1; }
folder=$(mktemp -d)
trap 'rm -rf "$folder"' EXIT
cc -O2 -Wall -Wextra -Werror -pthread -Ic/include -Wl,--wrap=malloc,--wrap=realloc,--wrap=free -o "$folder/c_memory" bench/c_memory.c \
  c/build/libclof.a
"$folder/c_memory"
