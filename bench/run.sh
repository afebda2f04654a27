#!/bin/sh
# Builds the static library, then compares its speed with by_hand.c: sh bench/run.sh
set -eu
cd "$(dirname "$0")/.."
sh tools/build.sh
for name in bench next; do
    gcc -O3 -Wall -Wextra "bench/$name.c" bench/by_hand.c target/staticlib/libexport.a -o "target/$name"
    "target/$name"
done
