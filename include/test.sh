#!/bin/sh
# Compiles bizakoma.h as C99 and as C++17 with all warnings as errors, alone and in two programs, runs them and compares what they write.
# usage: include/test.sh    (from anywhere; CC and CXX name the compilers)
set -eu
top=$(cd "$(dirname "$0")/.." && pwd)
made=$(mktemp -d)
trap 'rm -rf "$made"' EXIT
library=$top/crates/bizakoma/out/libbizakoma.a
warnings='-Wall -Wextra -Wpedantic -Wshadow -Wconversion -Werror'

# whether the library is there and no source is newer
fresh() { [ -f "$library" ] && [ -z "$(find "$top/crates.txt" "$top/crates" -name out -prune -o -newer "$library" \( -name '*.rt' -o -name '*.antt' -o -name crates.txt \) -print)" ]; }
fresh || (cd "$top/crates/bizakoma" && rt lib >"$made/log" 2>&1) || { cat "$made/log"; exit 1; }

as_c() { ${CC:-cc} -std=c99 $warnings -Wstrict-prototypes -Wmissing-prototypes -I"$top/include" "$@"; }
as_cpp() { ${CXX:-c++} -std=c++17 $warnings -I"$top/include" -x c++ "$@"; }

# compare NAME PROGRAM EXPECTED
compare() {
    "$2" >"$made/out"
    diff -u "$3" "$made/out" || { echo "include/test.sh: $1 writes something else"; exit 1; }
    echo "include/test.sh: $1 ok"
}

# program SOURCE EXPECTED
program() {
    as_c "$top/$1" "$library" -o "$made/c"
    compare "$1 as C99" "$made/c" "$top/$2"
    as_cpp "$top/$1" -x none "$library" -o "$made/cpp"
    compare "$1 as C++17" "$made/cpp" "$top/$2"
}

# The library defines the functions that the header declares, and no other name.
grep -o 'bizakoma_[a-z_]*(' "$top/include/bizakoma.h" | tr -d '(' | sort >"$made/declared"
nm -g --defined-only "$library" | awk 'NF == 3 { print $3 }' | sort >"$made/defined"
diff -u "$made/declared" "$made/defined" || { echo "include/test.sh: the library and the header have other names"; exit 1; }

printf '#include "bizakoma.h"\n' >"$made/alone.c"
as_c -c "$made/alone.c" -o "$made/alone.o"
as_cpp -c "$made/alone.c" -o "$made/alone.o"
program include/test/calls.c include/test/calls.expected
program examples/c/first.c examples/c/first.expected
