#!/usr/bin/env bash
# What ./sheet does where reading or writing fails: no row may be lost in silence. Builds the program if it has to.
set -eu
cd "$(dirname "$0")/.."
./sheet crates/sheet/stdin | cmp - crates/sheet/stdout
work=$(mktemp -d)
trap 'rm -rf "$work"' EXIT
for _ in $(seq 300); do echo 'C;118;1.2;'; done >"$work/rows"
ln -s "$PWD/sheet" "$work/link"

# refused WHAT STATUS MESSAGE COMMAND..: it must end so, tell that on standard error, and print nothing.
refused() {
    local what=$1 status=$2 message=$3 ended=0
    shift 3
    "$@" >"$work/out" 2>"$work/err" || ended=$?
    if [ "$ended" -ne "$status" ] || [ -s "$work/out" ] || ! grep -qF "$message" "$work/err"; then
        echo "tests/sheet.sh: $what: status $ended, $(wc -l <"$work/out") lines, told: $(cat "$work/err")" >&2
        exit 1
    fi
}

unwritable="the sheet could not be written whole: do not use what was printed"
refused "a full disk under the program" 1 "$unwritable" bash -c "trap '' XFSZ; ulimit -f 4; ./sheet '$work/rows'"
refused "a full disk under the sheet" 1 "$unwritable" bash -c "./sheet '$work/rows' >/dev/full"
refused "the program alone" 0 "$unwritable" bash -c "target/bin/sheet <'$work/rows' >/dev/full"
refused "a read that fails" 1 "the input could not be read to its end" bash -c "./sheet </"
refused "no input" 1 "there is no input" ./sheet /dev/null
refused "standard input closed" 1 "standard input is closed" bash -c "./sheet <&-"
refused "no such file" 1 "is not a file that can be read" ./sheet "$work/none"
refused "two files" 2 "usage: sheet [FILE]" ./sheet a b
"$work/link" crates/sheet/stdin | cmp - crates/sheet/stdout
echo "sheet.sh: ok"
