#!/usr/bin/env bash
# Runs `checkrules` in a folder, and proves and builds it first where that is due: ./checkrules.sh examples-data/hut
set -eu
[ $# -eq 1 ] || { echo "usage: ./checkrules.sh FOLDER" >&2; exit 2; }
top=$(cd "$(dirname "$0")" && pwd)
program=$top/crates/checkrules/out/checkrules
if [ ! -x "$program" ] || [ -n "$(find "$top/crates" \( -name '*.rt' -o -name '*.antt' \) -not -path '*/out/*' -newer "$program" -print -quit)" ]; then
    echo "proving and building checkrules; this takes some minutes the first time" >&2
    # it runs once where it is built, which has no rule file: that run's status says nothing
    log=$(cd "$top/crates/checkrules" && rt run 2>&1 </dev/null) || true
    grep -q '^rt: running' <<<"$log" || { printf '%s\n' "$log" >&2; exit 1; }
fi
cd "$1"
exec "$program"
