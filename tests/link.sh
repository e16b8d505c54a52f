#!/bin/sh
# Everything that holds of the static library, its header and its Rust wrapper. In order: the header alone; what the archive needs
# and that it keeps no state; tests/cases.txt from C, and under valgrind; the stack of each call; the example, from the source and
# as installed; the wrapper's tests and examples.
#
# The archive is PURSEGABLE_ARCHIVE, else what tools/archive proves and writes. Needs gcc, cargo and valgrind; says so and
# goes on where g++, pkg-config or rustfmt is missing. Prints what each checked; the exit status is 0 only if all of it was right.
set -eu
cd "$(dirname "$0")/.."
# wrong WHAT: ends with it.
wrong() {
    echo "link.sh: $1"
    exit 1
}

built=$PWD/target/link
mkdir -p "$built"
if [ -z "${PURSEGABLE_ARCHIVE:-}" ]; then
    tools/archive || wrong "there is no archive"
    PURSEGABLE_ARCHIVE=target/staticlib/libpursegable.a
fi
PURSEGABLE_ARCHIVE=$(cd "$(dirname "$PURSEGABLE_ARCHIVE")" && pwd)/$(basename "$PURSEGABLE_ARCHIVE")
export PURSEGABLE_ARCHIVE
strict="-O2 -Wall -Wextra -pedantic -Werror"

at_hand() {
    command -v "$1" >/dev/null || { echo "link.sh: $1 is missing, so this is left out: $2"; return 1; }
}

# ---- the header alone
printf '#include "pursegable.h"\nconst char *said(void);\nconst char *said(void) { return pursegable_answer_text(1); }\n' >"$built/alone.c"
for standard in c99 c11; do
    gcc -std=$standard $strict -Ic -c "$built/alone.c" -o "$built/alone.o"
done
if at_hand g++ "the header as C++"; then
    for standard in c++98 c++11 c++17; do
        g++ -std=$standard $strict -Ic -x c++ -c "$built/alone.c" -o "$built/alone.o"
    done
fi
if gcc -std=c11 -DPURSEGABLE_WRITTEN_FOR=0 -Ic -c "$built/alone.c" -o "$built/alone.o" 2>"$built/refused.log"; then
    wrong "a program written for another version is compiled"
fi
grep -q "another major version" "$built/refused.log" || wrong "a program written for another version is refused for something else"

# ---- the archive: calls in any threads need it to keep nothing
needs=$(nm -u "$PURSEGABLE_ARCHIVE" | awk '$1 == "U" { print $2 }' | sort -u | tr '\n' ' ')
[ "$needs" = "memcpy memset " ] || wrong "the archive needs $needs"
kept=$(size -A "$PURSEGABLE_ARCHIVE" | awk '$1 ~ /^\.(data|bss|tdata|tbss)/ && $2 > 0 { print $1 }')
[ -z "$kept" ] || wrong "the archive keeps state in $kept"

# ---- from C
gcc -std=c11 $strict -Ic tests/link.c "$PURSEGABLE_ARCHIVE" -o "$built/link"
"$built/link" tests/cases.txt
command -v valgrind >/dev/null || wrong "valgrind is missing (apt-get install valgrind)"
valgrind --quiet --error-exitcode=9 --leak-check=full --errors-for-leak-kinds=all "$built/link" tests/cases.txt
gcc -std=c11 $strict -Ic tests/stack.c "$PURSEGABLE_ARCHIVE" -o "$built/stack"
"$built/stack"

# ---- the example, by both link lines of the header
printed() {
    [ "$("$built/example")" = "$(printf 'Fis\nneu beledern')" ] || wrong "the example $1 prints something else"
}
gcc -std=c99 $strict -Ic tests/example.c "$PURSEGABLE_ARCHIVE" -o "$built/example"
printed "beside the source"
rm -rf "$built/first" "$built/prefix"
tools/install "$built/first"
mv "$built/first" "$built/prefix"
if at_hand pkg-config "the example as installed, by pkg-config"; then
    flags=$(PKG_CONFIG_PATH=$built/prefix/lib/pkgconfig pkg-config --cflags --libs pursegable)
else
    flags="-I$built/prefix/include -L$built/prefix/lib -lpursegable"
fi
gcc -std=c99 $strict tests/example.c $flags -o "$built/example"
printed "as installed"

# ---- from Rust
PURSEGABLE_LIB=$(dirname "$PURSEGABLE_ARCHIVE")
export PURSEGABLE_LIB
rust="--quiet --offline --manifest-path rust/Cargo.toml --target-dir $built/rust"
if at_hand rustfmt "the layout of the wrapper's files"; then
    cargo fmt --check --manifest-path rust/Cargo.toml
fi
cargo test $rust -- --nocapture
cargo test $rust --no-default-features --test lent
echo "link.sh: ok"
