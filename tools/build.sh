# The programs, each of a crate of its name. For a script at the repository's root, behind tools/kit.sh:
#     . tools/build.sh
#     build NAME    proves and builds the program unless that is done; its file, which $on_x86 starts, is then in $program. A
#                   script whose program cannot be built ends with status 2, by its own function fail. Standard input is not
#                   read
# shellcheck disable=SC2034,SC2154
. tools/sources.sh

# Whether the program is the one that was built of these very sources.
is_built() { is_made "$crate" "$program" "$sums"; }

# Reads what rt says as it proves the program's crates, of which those that have not changed are not named. All of it goes to the
# log, and a line for each crate proved to standard error. Succeeds if rt came to run the program, which it does last.
tell() {
    status=1 name='' began=$(date +%s)
    while IFS= read -r line; do
        printf '%s\n' "$line"
        case $line in
        'crate '*': modules '*) name=${line#crate } name=${name%%:*} ;;
        logic=proved*)
            now=$(date +%s)
            [ -z "$name" ] || echo "bystrodol: $name proved in $((now - began)) s, $(left_behind "$name") left" >&2
            name='' began=$now
            ;;
        logic=not-proved*) echo "bystrodol: ${name:-a crate} NOT PROVED" >&2 ;;
        'rt: the library '*' did not build'*) echo "bystrodol: ${line#rt: }" >&2 ;;
        'rt: running '*) status=0 ;;
        esac
    done >"$log"
    return "$status"
}

# How many of the crates that the program is made of stand behind one of them.
left_behind() { crates_of "$crate" | awk -v name="$1" 'found { left++ } $0 == name { found = 1 } END { print left + 0 }'; }

# What rt ci built of these very sources is taken as it lies.
is_left_by_ci() { [ -f "$made" ] && [ ! -e "$made.stamp" ] && is_by_ci; }

prove() {
    sum=$(sum_of "$crate")
    { mkdir -p target/bin && rm -f "$sums" && true >"$log"; } || fail "target cannot be written in, so there is no program $crate to run"
    if ! is_left_by_ci; then
        crates=$(crates_of "$crate" | wc -l)
        echo "bystrodol: rt run $crate proves and builds the program $crate, $crates crates; the first time this takes minutes" >&2
        (cd "crates/$crate" && exec rt run "$crate" </dev/null 2>&1 >/dev/null) | tell ||
            fail "rt run $crate failed, so there is no program $crate to run; $log has all that it said"
    fi
    { cp "$made" "$program.new" && mv "$program.new" "$program" && note_made "$sum" "$program" "$sums"; } ||
        fail "$made is not there, or $program and $sums cannot be written"
}

# One start proves at a time, and others wait for it: they lock the repository's folder, which no build removes. The lock
# ends with the last process that holds it, so a start that is killed leaves none behind. What is changed while it is proved
# is proved once more.
build() {
    crate=$1 program=target/bin/$1 log=target/$1.log sums=target/$1.sums made=crates/$1/out/$1
    if is_built; then return; fi
    exec 9<.
    flock -n 9 || { echo "bystrodol: another start builds a program, and this one waits for it" >&2 && flock 9; }
    is_built || prove
    is_built || prove
    is_built || fail "the sources change while they are proved, so there is no program $crate to run"
    exec 9<&-
}
