#!/usr/bin/env bash
# Proves and builds the program fan where that is not done yet, saying on standard error what is being proved, and runs it on standard
# input: echo 'two 1 0 5 1' | ./fan
set -euo pipefail
here=$(cd "$(dirname "$0")" && pwd)
if [ ! -x "$here/target/bin/fan" ]; then
    command -v rt >/dev/null || { echo "fan: no Rattle kit: the command rt is not on the PATH" >&2; exit 1; }
    log=$(mktemp)
    "$here/scripts/prove" fan </dev/null >"$log" || { cat "$log" >&2; rm -f "$log"; exit 1; }
    rm -f "$log"
fi
exec "$here/target/bin/fan"
