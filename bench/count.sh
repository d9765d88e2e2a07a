#!/bin/sh
# Machine instructions of one call, by callgrind: proved, Rust, ratio. `cargo build --release` first.
cd "$(dirname "$0")" || exit 1
bench=target/release/bench
collect() {
    valgrind --tool=callgrind --callgrind-out-file=/dev/null --toggle-collect=counted \
        $bench count "$@" 2>&1 | sed -n 's/.*Collected : //p'
}
$bench list | while IFS="$(printf '\t')" read -r work name bytes; do
    proved=$(collect proved "$work" "$name")
    rust=$(collect rust "$work" "$name")
    echo "$work $name $bytes $proved $rust" |
        awk '{ n = NF; printf "%-32s %8d %12d %12d %7.2f\n", substr($0, 1, length($0) - length($(n-2) $(n-1) $n) - 3), $(n-2), $(n-1), $n, $(n-1) / $n }'
done
