# Programs in C, by the kit's own clang, linker and C library. For a script at the repository's root with a function fail, behind
# tools/kit.sh and tools/archive.sh:
#     . tools/compile.sh
#     compile WORDS..                           clang, on the kit's few headers and include/
#     build FILE STANDARD LINKED OUT WORDS..    the program of a C file and what it is linked with, under its name in the folder OUT; the words go to clang
warnings='-Wall -Wextra -Wpedantic -Werror'
compile() {
    # shellcheck disable=SC2086
    "$tools/bin/clang" --target=x86_64-unknown-linux-gnu -nostdinc -isystem tests/c/kit -I include $warnings "$@"
}
build() {
    source=$1 standard=$2 linked=$3 program=$4/$(basename "$1" .c)
    mkdir -p "$4"
    shift 4
    compile "-std=$standard" -O1 -fPIE "$@" -c "$source" -o "$program.o" || fail "$source does not compile"
    # shellcheck disable=SC2086
    "$kit/bin/rattle-link" --target x86_64-unknown-linux-gnu --toolchain "$tools" -o "$program" "$program.o" $linked 2>"$program.log" ||
        { cat "$program.log" >&2; fail "$source does not link with" $linked; }
}
