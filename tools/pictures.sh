#!/bin/sh
# Writes the documents' pictures, the trace and the retries into a folder: sh tools/pictures.sh docs
set -eu
here=$(cd "$(dirname "$0")/.." && pwd -P)
mkdir -p "$1/pictures"
draw() { python3 "$here/tools/draw.py" "$here/examples/$1" "$2" > "$3"; }
draw move.txt 11 "$1/pictures/chain.svg"
draw move.txt 19 "$1/pictures/move-closed.svg"
draw move.txt 30 "$1/pictures/move-amid.svg"
draw move.txt 35 "$1/pictures/move-ended.svg"
draw viewer.txt 30 "$1/pictures/viewer.svg"
python3 "$here/tools/exchanges.py" > "$1/pictures/exchanges.svg"
python3 "$here/tools/exchanges.py" text > "$1/RETRIES.md"
python3 "$here/tools/trace.py" > "$1/TRACE.md"
