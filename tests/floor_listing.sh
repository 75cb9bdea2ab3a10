#!/usr/bin/env bash
# Runs the floor listing on files that are missing, folders, empty, long, refused and many, each case in a folder of its own,
# and compares what it writes with the second guard's listing. The last line is 'N passed, M failed'.
set -u
cd "$(dirname "$0")/.." || exit 1
program=$PWD/crates/floor_listing/out/floor_listing
guard=${CARGO_TARGET_DIR:-$PWD/reference/target}/release
cargo build --release --offline --quiet --manifest-path reference/Cargo.toml || exit 1
scratch=$(mktemp -d) || exit 1
trap 'rm -rf "$scratch"' EXIT
"$guard/make_listing_cases" "$scratch" || exit 1

passed=0
failed=0
# result NAME STATUS: counts a case
result() {
  if [ "$2" -eq 0 ]; then
    passed=$((passed + 1))
  else
    failed=$((failed + 1))
    echo "$1: failed"
  fi
}

for folder in "$scratch"/*/; do
  name=$(basename "$folder")
  "$guard/print_listing" "$folder/sheet.bin" "$folder/asks.bin" >"$scratch/said"
  (cd "$folder" && "$program" </dev/null) >"$scratch/written" && cmp "$scratch/said" "$scratch/written"
  result "$name" $?
done

# document 01's example is what the program's crate is run on
cmp "$scratch/sheet_a/sheet.bin" crates/floor_listing/data/sheet.bin && cmp "$scratch/sheet_a/asks.bin" crates/floor_listing/data/asks.bin
result "data of the crate" $?
"$guard/print_listing" crates/floor_listing/data/sheet.bin crates/floor_listing/data/asks.bin | cmp - crates/floor_listing/stdout
result "output of the crate" $?

echo "$passed passed, $failed failed"
[ "$failed" -eq 0 ]
