#!/bin/sh
# Builds target/bin/leafdrum and target/staticlib/libexport.a: sh tools/build.sh
# Only a proved crate is built. What an earlier check left in out/ is taken, so that where nothing has changed this takes seconds; a first build proves every crate
# below the two, which takes some minutes. rt ci, the end of the test command, takes nothing from out/.
set -eu
cd "$(dirname "$0")/.."
[ $# = 0 ] || { echo "usage: sh tools/build.sh" >&2; exit 2; }
mkdir -p target/bin target/staticlib
# a file of its own, so that a build that runs beside this one is not in the way
log=$(mktemp target/build.XXXXXX)
trap 'rm -f "$log"' EXIT
trap 'exit 1' HUP INT TERM

# Runs rt in a crate's folder, and shows what it says if it fails.
rt_in() { # CRATE VERB
    (cd "crates/$1" && rt "$2") </dev/null >"$log" 2>&1 || { cat "$log" >&2; exit 1; }
}

echo "build.sh: building what is proved, and proving what is not" >&2
rt_in export lib
rt_in leafdrum run
# under another name first, so that a program that runs is not written over
for made in crates/leafdrum/out/leafdrum:bin/leafdrum crates/export/out/libexport.a:staticlib/libexport.a; do
    cp "${made%%:*}" "target/${made#*:}.new"
    mv -f "target/${made#*:}.new" "target/${made#*:}"
done
