#!/bin/sh
# Every name CRATE.Module.name in docs/READERS_GUIDE.md is declared in crates/crate/specs/Module.antt, and every module of
# definitions that a reader must believe is named there. Fails with the missing names.
set -eu
cd "$(dirname "$0")/.."
guide=docs/READERS_GUIDE.md
bad=0
names=$(grep -o "\`[a-z]*\.[A-Z][A-Za-z]*\.[A-Za-z0-9_']*\`" "$guide" | tr -d '\`' | sort -u)
for n in $names; do
    crate=${n%%.*}; rest=${n#*.}; module=${rest%%.*}; name=${rest#*.}
    file=crates/$crate/specs/$module.antt
    if ! grep -qE "pub (record |data )?$name( |\$)" "$file" 2>/dev/null; then
        echo "readers guide: $n is not declared in $file"; bad=1
    fi
done
# steps, worker, mover, table, turns and lists have mirrors of the code alone
for crate in words settings areas record rules reach listing counting bench text printing run export; do
    for file in crates/$crate/specs/*.antt; do
        module=$(basename "$file" .antt)
        case $module in Lib | Everything | Cut) continue ;; esac
        grep -q "\`$crate\.$module\." "$guide" || { echo "readers guide: no name of $crate.$module"; bad=1; }
    done
done
[ "$bad" = 0 ] && echo "readers guide: $(echo "$names" | wc -l) names, each declared"
exit $bad
