#!/bin/sh
# The engine from C: every function of the headers called and its answers checked, the stack that a call takes, the guide's code played,
# and the example's output as stored. The headers from C++. An answer that is dropped unseen warns.
cd "$(dirname "$0")/.." || exit 2
sh tests/need cc c++ || exit 1
sh tools/archive || exit 1
dir=$(mktemp -d) || exit 2
trap 'rm -rf "$dir"' EXIT
bad=0

compile() { # STANDARD ARGUMENT..
    standard=$1
    shift
    cc -std="$standard" -Wall -Wextra -Wpedantic -Werror -O2 -Iinclude "$@" || bad=1
}

# The archive whole: its members share no name.
compile c11 tests/c/every_function.c -Wl,--whole-archive target/staticlib/libcetskobi.a -Wl,--no-whole-archive \
    -o "$dir/every_function"
compile c99 examples/c/two_laptops.c target/staticlib/libcetskobi.a -o "$dir/two_laptops"
# The guide's code, with a program that plays the guide's morning.
awk '/^```c$/ { in_c = 1; next } /^```$/ { in_c = 0 } in_c' docs/GUIDE.md >"$dir/guide_code.c"
[ -s "$dir/guide_code.c" ] || bad=1
compile c99 -I"$dir" tests/c/guide.c target/staticlib/libcetskobi.a -o "$dir/guide"
compile c99 tests/c/stack.c target/staticlib/libcetskobi.a -o "$dir/stack"
c++ -std=c++11 -Wall -Wextra -Wpedantic -Werror -O2 -Iinclude tests/c/from_cpp.cpp target/staticlib/libcetskobi.a \
    -o "$dir/from_cpp" || bad=1

drops() { # COMPILER LANGUAGE STANDARD: every call of tests/c/dropped.c is refused at its line, and none if its answer is used
    flags="-x $2 -std=$3 -Wall -Wextra -Wpedantic -Werror -O2 -Iinclude -c"
    "$1" $flags -DUSED tests/c/dropped.c -o /dev/null || bad=1
    LC_ALL=C "$1" $flags tests/c/dropped.c -o /dev/null 2>"$dir/refused"
    for name in $(grep -oh 'cetskobi_[a-z_]*(' include/cetskobi.h | sort -u); do
        line=$(grep -n "$name" tests/c/dropped.c | cut -d : -f 1)
        grep -q "dropped\.c:$line:.*error: ignoring return value" "$dir/refused" && continue
        echo "$1 -std=$3 does not warn where the answer of $name) is dropped"
        bad=1
    done
}
for standard in c99 c11 c2x; do drops cc c "$standard"; done
for standard in c++11 c++17 c++20; do drops c++ c++ "$standard"; done
[ $bad = 0 ] || exit 1

for name in $(grep -oh 'cetskobi_[a-z_]*(' include/*.h | sort -u); do
    if ! grep -q "$name" tests/c/every_function.c; then
        echo "tests/c/every_function.c does not call $name)"
        bad=1
    fi
done
"$dir/every_function" || bad=1
"$dir/stack" || bad=1
"$dir/from_cpp" || {
    echo "tests/c/from_cpp.cpp: a call answers otherwise than in C"
    bad=1
}
"$dir/guide" || bad=1
"$dir/two_laptops" >"$dir/out" || bad=1
if ! cmp -s examples/c/two_laptops.out "$dir/out"; then
    echo "differs: examples/c/two_laptops"
    bad=1
fi
if ! cmp -s examples/c/two_laptops.out rust/cetskobi/examples/two_laptops.out; then
    echo "the C and the Rust example do not tell the same"
    bad=1
fi
[ $bad = 0 ] && echo "C: every function, its stack, the guide's code, and the example as stored; the headers from C++; dropped answers warn"
exit $bad
