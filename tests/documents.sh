#!/bin/sh
# The trace, the retries and the pictures in docs/ are what the library gives now, and each picture stands in a document.
# Relies on tools/pictures.sh, which draws them over target/staticlib/libexport.a.
set -eu
cd "$(dirname "$0")/.."
out=target/documents
rm -rf "$out"
sh tools/pictures.sh "$out"
diff "$out/TRACE.md" docs/TRACE.md
diff "$out/RETRIES.md" docs/RETRIES.md
diff -r "$out/pictures" docs/pictures
for f in docs/pictures/*; do grep -q "pictures/$(basename "$f")" docs/*.md || { echo "documents: no document shows $f"; exit 1; }; done
echo "documents: the trace, the retries and $(ls docs/pictures | wc -l) pictures are as the library gives them"
