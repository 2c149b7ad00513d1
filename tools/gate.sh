#!/bin/sh
# The gate: rt ci over the whole repository. It also fails where an edit no longer fits its text.
cd "$(dirname "$0")/.." || exit 2
log=$(mktemp) || exit 2
trap 'rm -f "$log" "$log.status"' EXIT
{ rt ci; echo $? > "$log.status"; } 2>&1 | tee "$log"
status=$(cat "$log.status" 2>/dev/null || echo 2)
if grep -Eq '^rt: ok.*, [0-9]+ bad' "$log"; then
    echo "an edit of must-fail/ no longer fits its text: see the line that begins with 'rt: ok'"
    [ "$status" -ne 0 ] || status=1
fi
exit "$status"
