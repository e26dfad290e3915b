# The archives for C, each of a crate NAME_c. For a script at the repository's root with a function fail, behind tools/kit.sh:
#     . tools/archive.sh
#     build_archives    proves and builds those that are not there or were built of other sources; their names are in $archives
. tools/sources.sh
archive_names='board step upkeep'
archive_of() { echo "target/staticlib/lib$1.a"; }
archives=$(for name in $archive_names; do archive_of "$name"; done)

# Whether rt ci left each library that a crate stands on as it proved it of these very sources.
are_left_by_ci() {
    for library; do
        [ -d "crates/$library/out/rlib/$library.rlib" ] && [ ! -e "crates/$library/out/rlib/stamp" ] || return
    done
    is_by_ci
}

# Proves and builds an archive over such libraries, as rt lib does over those that it proves itself: build_over_ci CRATE LIBRARY..
# shellcheck disable=SC2154
build_over_ci() {
    crate=$1
    shift
    words="--crate-name $crate --crate-type staticlib --extern std=$kit/rlibs/std.rlib -L dependency=$kit/rlibs"
    for library in $(sed -n "s/^$crate [^:]*://p" crates.txt); do words="$words --extern $library=../$library/out/rlib/$library.rlib"; done
    for library; do words="$words -L dependency=../$library/out/rlib"; done
    words="$words --antt-project $kit/rattle/logic/antt-project.json --logic-built $kit/logic_built --jobs 1 --links $crate= --toolchain $tools --backend llvm"
    # shellcheck disable=SC2086
    (mkdir -p "crates/$crate/out" && cd "crates/$crate" && "$kit/bin/rattle" build $words -o "out/lib$crate.a" src/lib.rt)
}

# One archive: build_archive NAME
build_archive() {
    archive=$(archive_of "$1") sums=target/archive-$1.sums log=target/archive-$1.log crate=$1_c
    is_made "$crate" "$archive" "$sums" && return
    sum=$(sum_of "$crate")
    mkdir -p target/staticlib && rm -f "$sums"
    libraries=$(crates_of "$crate" | sed '$d')
    # shellcheck disable=SC2086
    if are_left_by_ci $libraries; then
        build_over_ci "$crate" $libraries
    else
        (cd "crates/$crate" && rt lib "$crate")
    fi >"$log" 2>&1 </dev/null || { cat "$log" >&2; fail "$crate is not proved, or not built"; }
    { cp "crates/$crate/out/lib$crate.a" "$archive" && note_made "$sum" "$archive" "$sums"; } || fail "$archive and $sums cannot be written"
}

# One script builds at a time, by the lock of tools/build.sh.
build_archives() {
    exec 9<.
    flock 9
    for name in $archive_names; do build_archive "$name"; done
    exec 9<&-
}
