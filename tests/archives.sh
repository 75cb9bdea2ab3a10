#!/usr/bin/env bash
# archives.sh: builds what C callers link, target/staticlib/libguard.a, libsheet.a and libreadings.a, over what `rt` has proved, and
# the program crates/floor_listing/out/floor_listing. The crates sheet_c and readings_c export what the libraries sheet and readings have.
# What an earlier run built goes first. The last line is 'N passed, M failed'.
set -u
cd "$(dirname "$0")/.." || exit 1
program=crates/floor_listing/out/floor_listing
rm -rf target/staticlib "$program"
mkdir -p target/staticlib || exit 1
passed=0
failed=0
# built NAME COMMAND..: counts one
built() {
  local name=$1
  shift
  if "$@"; then
    passed=$((passed + 1))
  else
    failed=$((failed + 1))
    echo "$name: not built"
  fi
}
archive() { (cd "crates/$1" && rt lib) && cp "crates/$1/out/lib$1.a" "target/staticlib/lib${1%_c}.a"; }
listing() { (cd crates/floor_listing && rt run >/dev/null) && [ -x "$program" ]; }

for crate in guard sheet_c readings_c; do built "$crate" archive "$crate"; done
built floor_listing listing
echo "$passed passed, $failed failed"
[ "$failed" -eq 0 ]
