# The Rattle kit, found by its command rt. For a script at the repository's root: . tools/kit.sh
#     kit             the kit's folder
#     tools           its clang, linker and C library
#     on_x86          the words before a program's name that run it, by the kit's own loader and C library
# A script whose kit is missing or not whole ends here with status 2, and so does one on another machine than x86-64, for which the kit is.
no_kit() {
    echo "$(basename "$0"): $*" >&2
    exit 2
}
rt=$(command -v rt) || no_kit "rt, the Rattle kit's command, is not on the PATH"
[ "$(uname -m)" = x86_64 ] || no_kit "the Rattle kit is for x86-64, and this machine is $(uname -m)"
kit=${RATTLE_HOME:-$(dirname "$(dirname "$(readlink -f "$rt")")")}
case $kit in *[[:space:]]*) no_kit "the kit's folder has a space in its name: $kit" ;; esac
tools=$kit/toolchain
on_x86="$tools/lib/ld-linux-x86-64.so.2 --library-path $tools/lib"
for file in "$tools/bin/clang" "$tools/bin/ld.lld" "$kit/bin/rattle" "$kit/bin/rattle-link" "$kit/KIT-ID" ${on_x86%% --*}; do
    [ -e "$file" ] || no_kit "the Rattle kit at $kit has no $file"
done
