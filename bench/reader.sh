#!/bin/sh
# Times the iCNF reader beside cat, a plain C loop over the bytes, and what minisat and cadical say that
# their parsing took, on one generated text of ternary clauses. Peers that are missing are skipped.
#   bench/reader.sh [CLAUSES]
clauses=${1:-1000000}
top=$(cd "$(dirname "$0")/.." && pwd)
bench=$top/crates/tarmo_bench/out/tarmo_bench
folder=$(mktemp -d)
trap 'rm -rf "$folder"' EXIT

# The same clauses for both kinds of reader. With all variables true every clause is, so peers have little to solve.
awk -v n="$clauses" -v folder="$folder" 'BEGIN {
    srand(1); vars = 100000
    inccnf = folder "/text.icnf"; cnf = folder "/text.cnf"
    print "p inccnf" > inccnf; print "p cnf", vars, n > cnf
    for (i = 0; i < n; i++) {
        a = 1 + int(rand() * (vars - 2)); b = a + 1 + int(rand() * (vars - a - 1)); c = b + 1 + int(rand() * (vars - b))
        line = a " " b " " c " 0"
        print line > inccnf; print line > cnf
    }
}'
bytes=$(wc -c < "$folder/text.icnf")

# best of three runs of a command over a text on standard input, in seconds
best() {
    text=$1; shift
    for _ in 1 2 3; do
        start=$(date +%s%N); "$@" < "$text" > /dev/null 2>&1; end=$(date +%s%N)
        echo $((end - start))
    done | sort -n | head -1
}

report() {
    awk -v name="$1" -v ns="$2" -v bytes="$bytes" -v base="$3" 'BEGIN {
        printf "%-22s %8.3f s %8.1f MB/s   %5.2f of the reader\n", name, ns / 1e9, bytes / (ns / 1e3), ns / base }'
}

base=$(best "$folder/text.icnf" "$bench" reader)
echo "$clauses clauses, $bytes bytes"
report "tarmo's reader" "$base" "$base"
report "cat" "$(best "$folder/text.icnf" cat)" "$base"
if command -v cc > /dev/null; then
    cat > "$folder/loop.c" <<'C'
#include <stdio.h>
int main(void) {
    static unsigned char piece[65536];
    unsigned long tokens = 0, in = 0;
    size_t n;
    while ((n = fread(piece, 1, sizeof piece, stdin)) > 0)
        for (size_t i = 0; i < n; i++) {
            unsigned long word = piece[i] > ' ';
            tokens += word & !in;
            in = word;
        }
    printf("%lu\n", tokens);
    return 0;
}
C
    cc -O2 -o "$folder/loop" "$folder/loop.c" && report "C loop over the bytes" "$(best "$folder/text.icnf" "$folder/loop")" "$base"
fi
# the seconds that a peer says its parsing took, best of three runs, in nanoseconds
parsing() {
    for _ in 1 2 3; do
        "$@" "$folder/text.cnf" 2> /dev/null | awk '/Parse time/ { print $4; exit } /parsed .* clauses in/ { print $6; exit }'
    done | sort -n | head -1 | awk '{ printf "%d", $1 * 1e9 }'
}

for peer in minisat cadical; do
    command -v $peer > /dev/null || { echo "$peer: not installed, skipped"; continue; }
    report "$peer's parsing" "$(parsing $peer)" "$base"
done
