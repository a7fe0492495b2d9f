#!/usr/bin/env bash
# Tests the library from C and C++, by both of its builds: worked cases, random questions beside a search that tries every
# map, each allocation refused in turn, and the example of docs/LIBRARY.md; all of it under valgrind too. What a machine
# does not have is left out, and that is told.
#
#   c/test.sh BUILD [QUESTIONS]     BUILD has libsubgraph.a and libsubgraph.so; each C++ thread asks so many QUESTIONS
set -eu
here=$(cd "$(dirname "$0")" && pwd)
build=$(cd "$1" && pwd)
questions=${2:-2000}
cc=${CC:-cc}
cxx=${CXX:-c++}
room=$(mktemp -d)
trap 'rm -rf "$room"' EXIT
strict=(-O1 -g -Wall -Wextra -Werror "-I$here/../include")
wrap=(-Wl,--wrap=malloc -Wl,--wrap=realloc -Wl,--wrap=free)
shared=("-L$build" -lsubgraph "-Wl,-rpath,$build" -pthread)

left_out() {
    echo "left out: $1, since $2 is not installed"
}

has() {
    command -v "$1" >/dev/null 2>&1
}

# Runs a test, and runs it again under valgrind with fewer questions.
try() {
    "$room/$1" "${@:2}"
    if has valgrind; then
        valgrind --quiet --error-exitcode=9 --leak-check=full --show-leak-kinds=all "$room/$1" ${2:+50} >"$room/said" ||
            { cat "$room/said"; echo "$1: refused by valgrind"; exit 1; }
    fi
}

# Whether the page has these lines, indented.
on_page() {
    python3 - "$here/../docs/LIBRARY.md" "$1" "$2" <<'END'
import sys
page, lines = (open(it, encoding="utf-8").read() for it in sys.argv[1:3])
indented = "".join(f"    {it}".rstrip() + "\n" for it in lines.splitlines())
sys.exit(0 if indented in page else f"docs/LIBRARY.md has not {sys.argv[3]}")
END
}

has valgrind || left_out "every test under valgrind" valgrind
if has "$cc"; then
    "$cc" -std=c99 -pedantic "${strict[@]}" "$here/test.c" "$build/libsubgraph.a" -pthread -o "$room/c"
    try c
    "$cc" -std=c99 -pedantic "${strict[@]}" "$here/test.c" "${shared[@]}" -o "$room/c-shared"
    try c-shared
    "$cc" -std=c99 -pedantic "${strict[@]}" "$here/test_flag.c" "$build/libsubgraph.a" -pthread -o "$room/flag"
    try flag
    "$cc" -std=c99 "${strict[@]}" "$here/test_memory.c" "$build/libsubgraph.a" "${wrap[@]}" -o "$room/memory"
    try memory
    "$cc" -std=c99 -pedantic "${strict[@]}" "$here/../examples/library/occurs.c" "$build/libsubgraph.a" -o "$room/occurs"
    try occurs >"$room/images"
    on_page "$here/../examples/library/occurs.c" "the example"
    on_page "$room/images" "what the example prints"
else
    left_out "the tests in C" "$cc"
fi
if has "$cxx"; then
    "$cxx" -std=c++17 -pedantic "${strict[@]}" "$here/test.cpp" "$build/libsubgraph.a" -pthread -o "$room/cpp"
    try cpp "$questions"
    "$cxx" -std=c++17 -pedantic "${strict[@]}" "$here/test.cpp" "${shared[@]}" -o "$room/cpp-shared"
    try cpp-shared "$questions"
else
    left_out "the tests in C++" "$cxx"
fi
