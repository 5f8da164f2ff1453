#!/bin/sh
# Tests what is shipped, as a host meets it. The library and the journal that replay plays need the kit alone; the rest
# needs gcc, g++, rustc, make, pkg-config and python3, and is left out where HARPDAPPLE_SKIP_LIBRARY_TESTS=1.
# Run from the repository's root. A line for each test; the last is `library: N passed, M failed`. With the word `proved`, right after `rt ci`,
# it takes the libraries and programs as that run proved and built them.
set -u

library=crates/harpdapple/out/libharpdapple.a
is_proved=${1:-}
out=target/tests
passed=0
failed=0

# a test: its words, then the command, whose output stands in $out/said and is shown where it fails
try() {
    what=$1
    shift
    if "$@" >"$out/said" 2>&1; then
        echo "library: $what"
        passed=$((passed + 1))
    else
        tail -n 20 "$out/said"
        echo "library: FAILED: $what"
        failed=$((failed + 1))
    fi
}

builds() {
    if [ "$is_proved" != proved ]; then
        (cd crates/harpdapple && rt lib) || return
    elif ! [ -f "$library" ]; then
        tests/proved.py harpdapple || return
    fi
    [ -f "$library" ]
}

# builds a program, if `rt ci` has not
made() {
    [ "$is_proved" = proved ] && [ -x "crates/$1/out/$1" ] || (cd "crates/$1" && rt run </dev/null) && [ -x "crates/$1/out/$1" ]
}

# $1 is what is expected; the rest is run, with standard input as it is
prints() {
    expected=$1
    shift
    "$@" >"$out/printed" && diff "$expected" "$out/printed"
}

plays() { made replay && prints examples/midnight.expected crates/replay/out/replay <examples/midnight.journal; }

in_c() { gcc -std=c11 -O2 -Wall -Wextra -pedantic -Werror -Iinclude "$@"; }

in_cpp() { g++ -std=c++17 -O2 -Wall -Wextra -pedantic -Werror -Iinclude -x c++ "$1" -x none "$2" -o "$3"; }

example_host() { in_c examples/one_day.c "$library" -o "$out/one_day" && prints examples/one_day.expected "$out/one_day"; }

header_in_c() { in_c tests/header.c "$library" -o "$out/header" && "$out/header"; }

header_in_cpp() { in_cpp tests/header.c "$library" "$out/header_cpp" && "$out/header_cpp"; }

# what `make install` puts in place, found through pkg-config: the version, and a host in C and one in C++ that link and run
installs() {
    prefix=$(pwd -P)/$out/prefix
    rm -rf "$prefix"
    make -s install PREFIX="$prefix" || return
    flags=$(PKG_CONFIG_PATH=$prefix/lib/pkgconfig pkg-config --cflags --libs harpdapple) || return
    version=$(PKG_CONFIG_PATH=$prefix/lib/pkgconfig pkg-config --modversion harpdapple)
    grep -qx "#define HARPDAPPLE_VERSION \"$version\"" include/harpdapple.h || return
    # shellcheck disable=SC2086
    gcc -std=c11 -Wall -Wextra -pedantic -Werror examples/one_day.c $flags -o "$out/installed_c" || return
    # shellcheck disable=SC2086
    g++ -std=c++17 -Wall -Wextra -pedantic -Werror -x c++ tests/header.c -x none $flags -o "$out/installed_cpp" || return
    prints examples/one_day.expected "$out/installed_c" && "$out/installed_cpp" || return
    make -s uninstall PREFIX="$prefix" && [ -z "$(find "$prefix" -type f)" ]
}

model_builds() { rustc --edition 2021 -O tests/model/main.rs -o "$out/model" -C link-arg="$library"; }

same_abi() { in_c tests/abi.c -o "$out/abi" && "$out/abi" >"$out/abi.header" && prints "$out/abi.header" "$out/model" abi; }

printer_agrees() { made plan_printer && python3 tests/records.py check 20000; }

if ! [ -f include/harpdapple.h ] || ! mkdir -p "$out"; then
    echo "library: FAILED: run from the repository's root"
    exit 1
fi
try "crates/harpdapple becomes $library" builds
try "replay prints what is expected for the midnight of the ticket" plays
if [ "${HARPDAPPLE_SKIP_LIBRARY_TESTS:-0}" = 1 ]; then
    echo "library: the tests with gcc, g++, rustc, make, pkg-config and python3 are left out, as HARPDAPPLE_SKIP_LIBRARY_TESTS says"
else
    try "the example host prints what is expected" example_host
    try "every function of the header, called from C11, answers what was worked by hand" header_in_c
    try "every function of the header, called from C++17, answers what was worked by hand" header_in_cpp
    try "a C and a C++ host build through pkg-config against what make install put in place" installs
    try "tests/model compiles" model_builds
    try "header and model have the same sizes, offsets and numbers" same_abi
    try "the plan printer and the reader of tests/records.py agree on 20,000 records" printer_agrees
    try "the library and the model of document 01 agree" "$out/model"
    cat "$out/said"
fi
echo "library: $passed passed, $failed failed"
[ "$failed" -eq 0 ]
