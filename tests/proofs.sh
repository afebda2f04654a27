#!/bin/sh
# Every crate, from nothing or as an earlier run on this machine passed it: rt ci, which ends in its line 'N passed, M failed'. Fails where rt ci fails, and where it could
# not read a must-fail edit, which it lets pass.
set -eu
cd "$(dirname "$0")/.."
mkdir -p target
log=target/ci.log
status=0
{ rt ci 2>&1 || echo "$?" >target/ci.status; } | tee "$log" | sed '$d'
if [ -f target/ci.status ]; then status=$(cat target/ci.status); rm -f target/ci.status; fi
# the line counts the edits, as in "must-fail edits: 125 refused, 1 bad", and says nothing of bad ones where there are none
if grep '^rt: ok' "$log" | grep -qE ', [1-9][0-9]* bad'; then
    echo "proofs: a must-fail edit could not be read"
    status=1
fi
tail -n 1 "$log"
exit "$status"
