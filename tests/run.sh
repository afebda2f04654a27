#!/bin/sh
# The test command: the tests outside Rattle, then every crate from nothing. It ends in rt's own line 'N passed, M failed'.
# Relies on rt, gcc, g++, cargo and python3 on the PATH.
set -eu
cd "$(dirname "$0")/.."
sh tests/readers_guide.sh
# The tests need the library and the program.
sh tools/build.sh
python3 tests/readme.py
out=target/tests
mkdir -p "$out"
for name in embed listing; do
    gcc -O2 -Wall -Wextra -Werror "examples/$name.c" target/staticlib/libexport.a -o "$out/$name"
    "$out/$name" >"$out/$name.out" || { echo "$name.c: status $?"; exit 1; }
    diff "$out/$name.out" "examples/$name.out"
    echo "$name.c: as in $name.out"
done
gcc -std=c99 -O2 -Wall -Wextra -Werror tests/stack.c target/staticlib/libexport.a -o "$out/stack"
"$out/stack"
python3 tests/headers.py
python3 tests/layout.py
python3 tests/states.py
sh tests/documents.sh
gcc -std=c99 -O2 -Wall -Wextra -Werror tests/row.c target/staticlib/libexport.a -o "$out/row"
"$out/row"
python3 tests/reads.py
python3 tests/shortcuts.py
sh tests/compare.sh
sh tests/proofs.sh
