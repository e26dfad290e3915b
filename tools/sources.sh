# What a crate is made of. For a script at the repository's root, behind tools/kit.sh:
#     . tools/sources.sh
#     crates_of NAME    the crate's own, each behind those that it stands on; the kit's own libraries are not among them
#     sum_of NAME       a sum of all that these are made of, and of the kit. It is made of bytes and not of times, which a
#                       checkout or a copy sets at will
#     sum_of_all        the same of all crates
#     is_made NAME FILE SUMS        whether the file is the one that was made of these very sources
#     note_made SUM FILE SUMS       notes in SUMS that the file was made of the sources of this sum
#     is_by_ci          whether what lies in crates/*/out is rt ci's, of these very sources: .ci/run notes their sum in
#                       target/ci.sum
# shellcheck disable=SC2154
crates_of() {
    awk -F: -v name="$1" '
        { sub(/#.*/, "") }
        NF { split($1, words, " "); stands_on[words[1]] = $2 }
        function list(name,    i, n, names) {
            if (!(name in stands_on) || name in listed) return
            listed[name]
            n = split(stands_on[name], names, " ")
            for (i = 1; i <= n; i++) list(names[i])
            print name
        }
        END { list(name) }' crates.txt
}

# The folders out/ are what rt makes.
sum_of_files() {
    {
        cat "$kit/KIT-ID"
        find crates.txt "$@" -name out -prune -o ! -type d -exec sha256sum {} + | sort
    } | sha256sum
}

sum_of() {
    # shellcheck disable=SC2046
    sum_of_files $(crates_of "$1" | sed 's,^,crates/,')
}

sum_of_all() { sum_of_files crates; }

is_made() { [ -f "$2" ] && [ "$(sum_of "$1"; sha256sum "$2")" = "$(cat "$3" 2>/dev/null)" ]; }

note_made() { { echo "$1" && sha256sum "$2"; } >"$3"; }

is_by_ci() { [ "$(sum_of_all)" = "$(cat target/ci.sum 2>/dev/null)" ]; }
