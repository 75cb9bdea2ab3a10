#!/usr/bin/env bash
# Builds the tool `sheet`, runs its tests, and runs the drive of examples/ against the archives in
# GUARD_ARCHIVE_DIR (a folder with libguard.a and libreadings.a). The last line is 'N passed, M failed'.
set -u

root=$(cd "$(dirname "$0")/.." && pwd)
: "${GUARD_ARCHIVE_DIR:?names the folder that holds libguard.a and libreadings.a}"
GUARD_ARCHIVE_DIR=$(cd "$GUARD_ARCHIVE_DIR" && pwd) || exit 2
export GUARD_ARCHIVE_DIR
work=$(mktemp -d) || exit 2
trap 'rm -rf "$work"' EXIT
export CARGO_TARGET_DIR=${CARGO_TARGET_DIR:-$work/target}
sheet=$CARGO_TARGET_DIR/debug/sheet

passed=0
failed=0

# check NAME COMMAND..: counts one, and prints what a failing command wrote.
check() {
    name=$1
    shift
    if "$@" >"$work/said" 2>&1; then
        passed=$((passed + 1))
        echo "ok      $name"
    else
        failed=$((failed + 1))
        echo "FAILED  $name"
        cat "$work/said"
    fi
}

in_tools() { (cd "$root/tools" && "$@"); }

# The tests of the package count one each.
package_tests() {
    in_tools cargo test --offline --no-fail-fast >"$work/tests" 2>&1
    status=$?
    grep '^test .* \.\.\. ' "$work/tests" | sed 's/^test /tools: /'
    ok=$(grep -c '^test .* \.\.\. ok$' "$work/tests")
    bad=$(grep -c '^test .* \.\.\. FAILED$' "$work/tests")
    passed=$((passed + ok))
    failed=$((failed + bad))
    if [ "$status" -ne 0 ]; then
        [ "$bad" -gt 0 ] || failed=$((failed + 1))
        grep -v '^test ' "$work/tests"
    fi
}

# compile OUT SOURCE: a C program against the header and the archive alone.
compile() {
    gcc -std=c11 -Wall -Wextra -Werror -I "$root/include" "$2" "$GUARD_ARCHIVE_DIR/libguard.a" \
        -lpthread -o "$1"
}

# With its no-go lines the other way round the leg press is the same file, and prints the same.
other_order_packs() {
    leg_press=$root/examples/leg_press.txt
    other=$work/other
    mkdir -p "$other" || return 1
    awk 'NR == FNR { if (/^no-go/) lines[++n] = $0; next } /^no-go/ { $0 = lines[n--] } { print }' \
        "$leg_press" "$leg_press" >"$other/leg_press.txt"
    "$sheet" pack "$other/leg_press.txt" --to "$other" >"$other/said" || return 1
    lines=$(grep -n '^no-go' "$other/leg_press.txt" | cut -d : -f 1 | tac | paste -s -d , | sed 's/,/, /g')
    echo "$other/leg_press.txt: no-go boxes put in order: sheet.bin has them in the order of lines $lines" |
        diff - "$other/said" || return 1
    cmp "$work/sheet.bin" "$other/sheet.bin" || return 1
    "$sheet" text "$work/sheet.bin" --like "$other/leg_press.txt" | diff "$leg_press" -
}

# Record J of the leg press, counted from 0: of its last four records, with 18 bytes each, the first three are
# its no-go records.
leg_press_record() { tail -c "$((18 * (4 - $1)))" "$work/sheet.bin" | head -c 18; }

# With its no-go records in another order the leg press is refused, and comes back byte for byte.
records_come_back() {
    old=$work/old
    mkdir -p "$old" || return 1
    { head -c -72 "$work/sheet.bin" && for j in 2 0 1 3; do leg_press_record "$j"; done; } >"$old/old.bin"
    ! "$sheet" list "$old/old.bin" 2>"$old/said" && grep -q 'refused 20 .* sheet order' "$old/said" || return 1
    (cd "$old" && "$sheet" order old.bin) >"$old/said" || return 1
    echo "old.bin: no-go boxes put in order: sheet.bin has them in the order of records 2, 3, 1" |
        diff - "$old/said" && cmp "$work/sheet.bin" "$old/sheet.bin"
}

# With a recovery box that ends on the front buffer the leg press is refused, with both lines, and both boxes
# are drawn with their common part marked in each of the two panels.
overlap_is_drawn() {
    overlap=$work/overlap
    mkdir -p "$overlap" || return 1
    sed 's/^recovery .*/recovery  position 1000..5800  coasting 1400..4600/' "$root/examples/leg_press.txt" \
        >"$overlap/leg_press.txt"
    line_of() { grep -n "^$1" "$overlap/leg_press.txt" | cut -d : -f 1; }
    (
        cd "$overlap" || exit 1
        ! "$sheet" pack leg_press.txt 2>packed && ! [ -e sheet.bin ] || exit 1
        ! "$sheet" picture leg_press.txt >picture.svg 2>said && cmp packed said
    ) || return 1
    echo "leg_press.txt: line $(line_of recovery): refused 22 (recovery box shares a state with a no-go box):" \
        "the recovery box shares position 5800..5800, coasting 1400..4600 with no-go box \"front buffer\" on" \
        "line $(line_of 'no-go "front buffer"')" | diff - "$overlap/said" || return 1
    [ "$(grep -c 'class="common"' "$overlap/picture.svg")" -eq 2 ] && [ "$(tail -n 1 "$overlap/picture.svg")" = "</svg>" ]
}

# Questions to the leg press at rest, about one force, about the span of that force alone, and about a span.
span_asks() {
    for commands in 0 0..0 -500..-300 "$@"; do
        echo "ask  position 2998..3002  coasting 2975..3025  command $commands  allowance 2000"
    done
}

# The answer to question J of the leg press.
leg_press_answer() { sed -n "s/^$1 //p" "$root/examples/leg_press.listing"; }

# Spans pack with the mark QR and four more bytes than one force has, come back as they were, and are listed; the
# span of one force as that force. A reversed span is refused with its line, and nothing is written.
spans_are_asked() {
    leg_press=$root/examples/leg_press.txt
    spans=$work/spans
    mkdir -p "$spans" || return 1
    span_asks >"$spans/asks.txt"
    (
        cd "$spans" || exit 1
        "$sheet" pack "$leg_press" asks.txt || exit 1
        [ "$(wc -c <asks.bin)" -eq $((26 + 30 + 30)) ] && [ "$(tail -c 60 asks.bin | head -c 2)" = QR ] || exit 1
        "$sheet" text sheet.bin asks.bin --like "$leg_press" asks.txt | diff asks.txt - || exit 1
        "$sheet" list sheet.bin asks.bin | tail -n +2 >listed || exit 1
        printf '%s\n' "1 $(leg_press_answer 2)" "2 $(leg_press_answer 2)" "3 $(leg_press_answer 11)" |
            diff - listed || exit 1
        rm asks.bin
        span_asks 1..0 >reversed.txt
        ! "$sheet" pack "$leg_press" reversed.txt 2>said && ! [ -e asks.bin ] || exit 1
        grep -q '^reversed.txt: line 4: refused 14 (command): .* greatest command is 0, .* within 1..400 ' said
    )
}

# reading_asks READING..: questions to the leg press at rest, each with this reading of its position.
reading_asks() {
    for reading in "$@"; do
        echo "ask  position $reading  coasting 3000 +- 24.5  command 0  allowance 2000"
    done
}

# reading_is_refused READING NUMBER CAUSE: behind asks.txt such a line is listed and shown with its refusal. Where it is
# packed, and where it does not say that it is refused, it is refused with its line, and nothing is written.
reading_is_refused() {
    { cat asks.txt && reading_asks "$1" | sed "s/$/  refused $2/"; } >refused.txt
    [ "$("$sheet" list "$leg_press" refused.txt | tail -n 1)" = "3 refused $2" ] || return 1
    "$sheet" show "$leg_press" refused.txt 3 | grep -q "^  line 3: refused $2 ($3): " || return 1
    ! "$sheet" pack "$leg_press" refused.txt 2>said && ! [ -e sheet.bin ] && ! [ -e asks.bin ] || return 1
    grep -q "^refused.txt: line 3: refused $2 ($3): .* asks.bin cannot have this question)$" said || return 1
    sed "s/  refused $2$//" refused.txt >unsaid.txt
    ! "$sheet" list "$leg_press" unsaid.txt 2>said || return 1
    grep -q "^unsaid.txt: line 3: refused $2 ($3): .* end the line with: refused $2)$" said
}

# A value with a tolerance and a pair pack as their box, print its sides without the text and their own with it, and are
# listed as the box is. Refused readings have no box.
readings_are_asked() {
    leg_press=$root/examples/leg_press.txt
    readings=$work/readings
    mkdir -p "$readings" || return 1
    (
        cd "$readings" || exit 1
        reading_asks '2999.5 +- 1.5' '2998.25..3001.75' >asks.txt
        "$sheet" pack "$leg_press" asks.txt && [ "$(wc -c <asks.bin)" -eq $((26 + 26)) ] || exit 1
        "$sheet" text sheet.bin asks.bin --like "$leg_press" asks.txt | diff asks.txt - || exit 1
        printf 'ask  x1 %s  x2 2975..3025  command 0  allowance 2000\n' 2997..3002 2998..3002 >sides.txt
        "$sheet" text sheet.bin asks.bin | diff sides.txt - || exit 1
        "$sheet" list sheet.bin asks.bin >listed && "$sheet" list "$leg_press" asks.txt | diff listed - || exit 1
        [ "$(sed -n 3p listed)" = "2 $(leg_press_answer 2)" ] || exit 1
        "$sheet" show "$leg_press" asks.txt 1 | grep -qx '  position 2999.5 +- 1.5 gives 2997..3002' || exit 1
        rm sheet.bin asks.bin
        reading_is_refused none 18 "no reading" && reading_is_refused nan..3000 19 "a reading's number"
    )
}

# With a law behind each band's line the leg press packs with bands marked BF, ten bytes longer each, and comes back
# as it was. A divisor of 0 and a band without a law are refused with their lines, and nothing is written.
laws_pack() {
    laws=$work/laws
    mkdir -p "$laws" || return 1
    sed '/^band from/a\  law force = (-coasting + 3000) / 10' "$root/examples/leg_press.txt" >"$laws/laws.txt"
    first=$(grep -n '^  law' "$laws/laws.txt" | head -n 1 | cut -d : -f 1)
    (
        cd "$laws" || exit 1
        "$sheet" pack laws.txt || exit 1
        longer=$(($(wc -c <sheet.bin) - $(wc -c <"$work/sheet.bin")))
        [ "$longer" -eq $((10 * $(grep -c '^band from' laws.txt))) ] || exit 1
        [ "$(tail -c +25 "$work/sheet.bin" | head -c 2)$(tail -c +25 sheet.bin | head -c 2)" = BDBF ] || exit 1
        "$sheet" text sheet.bin --like laws.txt | diff laws.txt - || exit 1
        "$sheet" show laws.txt | grep -q ' plain law: force -*[0-9]' || exit 1
        rm sheet.bin
        sed "${first}s|/ 10|/ 0|" laws.txt >zero.txt
        sed "${first}d" laws.txt >without.txt
        ! "$sheet" pack zero.txt 2>zero && ! "$sheet" pack without.txt 2>without && ! [ -e sheet.bin ] || exit 1
        grep -q "^zero.txt: line $first: refused 10 (law or row number): the divisor is 0, " zero || exit 1
        grep -q '^without.txt: line [0-9]*: the first band has no law: every band has a law, or none has$' without
    )
}

packs_without_a_word() {
    "$sheet" pack "$root/examples/leg_press.txt" "$root/examples/leg_press.asks.txt" --to "$work" \
        >"$work/said_at_packing" && ! [ -s "$work/said_at_packing" ]
}

drive_prints_its_summary() {
    "$work/drive" "$work/sheet.bin" >"$work/summary" && diff "$root/examples/drive.summary" "$work/summary"
}

drive_refuses_no_sheet() {
    [ "$("$work/drive" /dev/null)" = "sheet refused 1" ]
}

check "the tool builds" in_tools cargo build --offline
package_tests
check "the leg press packs" packs_without_a_word
check "the leg press packs in another order" other_order_packs
check "the leg press's records are put in order" records_come_back
check "the leg press on a no-go box is drawn" overlap_is_drawn
check "spans are asked" spans_are_asked
check "readings are asked" readings_are_asked
check "laws pack" laws_pack
check "drive.c builds" compile "$work/drive" "$root/examples/drive.c"
check "the drive prints its summary" drive_prints_its_summary
check "the drive refuses no sheet" drive_refuses_no_sheet
check "measure.c builds" compile "$work/measure" "$root/examples/measure.c"
check "measure runs" "$work/measure" "$work/sheet.bin" "$work/asks.bin"

echo "$passed passed, $failed failed"
[ "$failed" -eq 0 ]
