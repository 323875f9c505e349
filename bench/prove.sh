#!/bin/sh
# Proves what isn't proved yet of all crates, as many at a time as the first word says, and tells
# each that is done. What the checks print goes to a file, which is named where one fails.
cd "$(dirname "$0")/.." || exit 2
log=$(mktemp)
total=$(grep -c '^[a-z].*:' crates.txt)
echo "proving $total crates, ${1:-1} at a time; what the checks print is in $log"
{
    rt all check --jobs "${1:-1}" 2>&1
    echo "status $?"
} | tee "$log" | awk -v total="$total" '
    /^== / { done++; printf "%d of %d: %s\n", done, total, $2; fflush() }
    /^status / { status = $2 }
    END { exit status }'
status=$?
if [ "$status" -ne 0 ]; then
    tail -n 40 "$log"
    echo "not proved: see $log"
else
    rm -f "$log"
fi
exit "$status"
