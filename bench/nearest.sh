#!/bin/sh
# Measures nearest, k = 10, beside a scan of a slice that keeps the ten best, all optimised, on herds of 4,096 adds,
# also with a quarter removed and with a quarter replaced after them: sh bench/nearest.sh [SEED..] writes
# target/bench/nearest.md, and with the seeds of a herd in one line target/bench/seeds.md. With BEFORE=DIR, a folder
# with the libvpindex.a of an earlier tree, that archive is measured in the same rounds and stands in further columns of
# nearest.md. VPINDEX_LIB_DIR, a full path, names the folder of another libvpindex.a.
set -eu
cd "$(dirname "$0")/.."
seeds=${*:-9E3779B97F4A7C15 510E527FADE682D1 9B05688C2B3E6C1F 3243F6A8885A308D 452821E638D01377}
out=$PWD/target/bench
mkdir -p "$out"
rm -f "$out"/now.[123] "$out"/before.[123]

# The program of bench/ linked to the archive in a folder.
program() {
    (cd rust && VPINDEX_LIB_DIR=$1 CARGO_TARGET_DIR=$2 cargo build --offline --release --quiet --package bench)
}

sh tools/build.sh vpindex
program "${VPINDEX_LIB_DIR:-$PWD/target/staticlib}" "$out/now"
programs=now
if [ -n "${BEFORE:-}" ]; then
    program "$(cd "$BEFORE" && pwd)" "$out/before"
    programs='now before'
fi

# Three rounds, the programs one after the other in each; of each line the median.
for round in 1 2 3; do
    for program in $programs; do
        "$out/$program/release/bench" nearest $seeds > "$out/$program.$round"
    done
done
{
    head='| herd | past | metric | seed | visited | nearest µs | scan µs | /scan |'
    line='|---|---|---|---|---|---|---|---|'
    if [ -n "${BEFORE:-}" ]; then
        head="$head before µs | scan µs | /scan | /before |"
        line="$line---|---|---|---|"
    fi
    echo "$head"
    echo "$line"
    paste -d '|' $(for program in $programs; do echo "$out/$program".[123]; done) | awk -F '|' '
        function middle(a, b, c) { return a > b ? (b > c ? b : (a > c ? c : a)) : (a > c ? a : (b > c ? c : b)) }
        {
            n = middle($6 + 0, $13 + 0, $20 + 0); s = middle($7 + 0, $14 + 0, $21 + 0)
            printf "| %s | %s | %s | %s | %s ", $1, $2, $3, $4, $5
            printf "| %.2f | %.2f | %.2f |", n / 1000, s / 1000, n / s
            if (NF > 21) {
                m = middle($27 + 0, $34 + 0, $41 + 0); t = middle($28 + 0, $35 + 0, $42 + 0)
                printf " %.2f | %.2f | %.2f | %.2f |", m / 1000, t / 1000, m / t, n / m
            }
            printf "\n"
        }'
} > "$out/nearest.md"

# The seeds of a herd stand in lines one after the other: of visited and times the mean, of /scan each.
awk -F ' *[|] *' -v seeds="$(echo "$seeds" | wc -w)" '
    NR == 1 {
        printf "| herd | past | metric | visited | nearest µs | scan µs |"
        for (i = 1; i <= seeds; i++) printf " /scan %d |", i
        printf "\n|---|---|---|---|---|---|"
        for (i = 1; i <= seeds; i++) printf "---|"
        printf "\n"
    }
    NR > 2 {
        visited += $6; nearest += $7; scan += $8; each = each " " $9 " |"
        if ((NR - 2) % seeds == 0) {
            printf "| %s | %s | %s | %.0f ", $2, $3, $4, visited / seeds
            printf "| %.2f | %.2f |%s\n", nearest / seeds, scan / seeds, each
            visited = nearest = scan = 0; each = ""
        }
    }' "$out/nearest.md" | tee "$out/seeds.md"
