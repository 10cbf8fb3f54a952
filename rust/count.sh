#!/usr/bin/env bash
# Instructions per call, the proved index beside the ordinary one, counted by valgrind's callgrind: they do not vary.
# Usage: rust/count.sh [WORDS]      the rows that have these words, as in "verdict" or "128 lookup"; else all
set -eu
cd "$(dirname "$0")"
cargo build --release --quiet --bin benchmark

# valgrind counts each byte of a `rep stosb` or `rep movsb` as an instruction; so glibc's memset and memcpy do without
# here, and count as the vector moves that they are on other machines. The benchmark's times are with them.
export GLIBC_TUNABLES=glibc.cpu.x86_rep_stosb_threshold=1000000:glibc.cpu.x86_rep_movsb_threshold=1000000

# Instructions of a whole run that makes a row's call so many times.
whole() { # N NAME SIDE TIMES
    valgrind --tool=callgrind --callgrind-out-file=/dev/null target/release/benchmark count "$@" 2>&1 |
        sed -n 's/.*Collected : \([0-9]*\).*/\1/p'
}

printf '%4s  %-44s %12s %12s %8s\n' N call proved ordinary ratio
target/release/benchmark rows "$@" | while read -r blocks times name; do
    none=$(whole "$blocks" "$name" ordinary 0)
    proved=$((($(whole "$blocks" "$name" proved "$times") - none) / times))
    ordinary=$((($(whole "$blocks" "$name" ordinary "$times") - none) / times))
    ratio=$(awk "BEGIN { printf \"%.2f\", $proved / $ordinary }")
    printf '%4s  %-44s %12s %12s %8s\n' "$blocks" "$name" "$proved" "$ordinary" "$ratio"
done
