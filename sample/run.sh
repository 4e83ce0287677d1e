#!/bin/sh
# run.sh [ARC..]: proves the arc program and what it stands on if that is not done yet, and runs it on arc files; with none named, on the case of
# the paper and on the sample of this folder. It wants the toolchain's rt on the path.
set -e
cd "$(dirname "$0")/.."
top=$PWD
echo "proving the arc program and what it stands on: some minutes the first time"
said=$(mktemp)
trap 'rm -f "$said"' EXIT
(cd crates/arc && rt run <"$top/crates/arc/stdin") >"$said" 2>&1 || { cat "$said"; exit 1; }
grep '^fn .*: proved' "$said" | sed 's/::.*//' | sort -u || :
[ $# -gt 0 ] || set -- crates/arc/stdin sample/two-days.arc
for file; do echo "$file:"; crates/arc/out/arc <"$file"; done
