#!/bin/sh
# Times the lanes and the tally of crates/deal: bench/deal.sh
#
# The program is in bench/deal. It isn't among the crates of the repository, so that the gate has no work with it: it is proved and built
# in a copy that is thrown away, over what earlier checks of crates/deal kept. Its files end in .txt here, since the gate takes a source
# outside the crates for one that was forgotten. With one lane, the time by block is that of `Lane::next` without contention.
root=$(CDPATH= cd -- "$(dirname -- "$0")/.." && pwd) || exit 1
copy=$(mktemp -d) || exit 1
trap 'rm -rf "$copy"' EXIT
mkdir "$copy/crates"
cp -r "$root/crates/model" "$root/crates/deal" "$copy/crates/"
cp -r "$root/bench/deal" "$copy/crates/deal_bench"
find "$copy/crates/deal_bench" -name '*.txt' -exec sh -c 'mv "$1" "${1%.txt}"' - {} \;
cp "$root/HANDLES" "$copy/"
grep -E '^(model|deal):' "$root/crates.txt" >"$copy/crates.txt"
echo 'deal_bench: model deal' >>"$copy/crates.txt"
cd "$copy/crates/deal_bench" && rt run
