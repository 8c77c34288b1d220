#!/bin/sh
# Prints instructions a line of each image, call and side, and a stage of each decoder, counted by callgrind. `count` runs with 2
# and with 12 calls, and the difference is taken, so that what happens once falls out, also in the first call. The copying of
# fresh states and memories, which `count` can make by itself, is taken off. CARGO_TARGET_DIR and TS201_LIB_DIR are heeded.
set -eu
cd "$(dirname "$0")"

cargo build --release --quiet --bin count
program=${CARGO_TARGET_DIR:-target}/release/count
folder=$(mktemp -d)
trap 'rm -r "$folder"' EXIT

# total SIDE CALL IMAGE N: all instructions of a run; the image's lines, or the stages, go to a file.
total() {
    valgrind --tool=callgrind --callgrind-out-file="$folder/out" "$program" "$@" >"$folder/lines" 2>"$folder/log" ||
        { cat "$folder/log" >&2; exit 1; }
    awk '$1 == "totals:" { print $2 }' "$folder/out"
}

# cost SIDE CALL IMAGE: instructions of ten calls.
cost() {
    first=$(total "$1" "$2" "$3" 2)
    second=$(total "$1" "$2" "$3" 12)
    echo $((second - first))
}

# print_share TOTAL: instructions a line or a stage of one call, from those of ten.
print_share() {
    echo "$1" "$(cat "$folder/lines")" | awk '{ printf "%10.0f", $1 / 10 / $2 }'
}

printf '%-18s%-10s%10s%10s%10s\n' image call proved plain tuned
for image in "one line" kernel "long mixed" "one slot a line" circular bit-reversed conditional unaligned; do
    for call in words bytes plain ordered; do
        common=0
        case $call in plain | ordered) common=$(cost proved renew "$image") ;; esac
        printf '%-18s%-10s' "$image" "$call"
        for side in proved plain tuned; do
            all=$(cost "$side" "$call" "$image")
            print_share $((all - common))
        done
        echo
    done
done

printf '%-28s%10s%10s\n' 'decoder, stages' proved plain
for stages in 1 16 128 1024; do
    printf '%-28s' "$stages"
    for side in proved plain; do
        all=$(cost "$side" path "$stages")
        print_share "$all"
    done
    echo
done
