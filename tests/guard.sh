#!/bin/sh
# guard.sh [FOLDER]: builds tests/guard.c with include/guard.h and the guard's archive alone, tests/sheet.c with the archive of
# sheets beside it, and tests/readings.c with that of readings alone, and runs all three. FOLDER has what tests/archives.sh
# writes. Each program's last line is `N passed, M failed`.
set -eu
root=$(cd "$(dirname "$0")/.." && pwd)
archives=${1:-$root/target/staticlib}
room=$(mktemp -d)
trap 'rm -rf "$room"' EXIT
build() { # NAME ARCHIVE..
  program=$1
  shift
  gcc -std=c11 -O2 -Wall -Wextra -Werror -I "$root/include" -o "$room/$program" "$root/tests/$program.c" "$@"
}
for header in "$root"/include/*.h; do # each by itself
  gcc -std=c11 -Wall -Wextra -Werror -fsyntax-only -x c "$header"
done
build guard "$archives/libguard.a"
build sheet "$archives/libsheet.a" "$archives/libguard.a"
build readings "$archives/libreadings.a"
"$room/guard"
"$room/sheet"
"$room/readings"
