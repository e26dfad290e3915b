# Why two libraries in files are refused a comparison, as far as it can be told. For a script with a function say:
#     . tools/causes.sh
#     tell_causes REFUSAL A B    says what the refusal R1 or R3 means, and what can be told of the two files

tell_causes() {
    case $1 in
    R1*) say "R1: one of the two is no library, or they have unequally many pages" ;;
    R3*) say "R3: an index tells that a page is stored which its library does not have" ;;
    esac
    tell_file "$2"
    tell_file "$3"
}

# What can be told of a file by its name. A pipe has been read, and is gone.
tell_file() {
    if [ "$1" = - ]; then return; fi
    if [ -d "$1" ]; then
        say "$1 is a directory"
    elif [ ! -r "$1" ]; then
        say "$1 cannot be read"
    elif [ -f "$1" ]; then
        tell_length "$1" "$(wc -c <"$1")"
    fi
}

tell_length() {
    pages=$((($2 - 640) / 512)) rest=$((($2 - 640) % 512))
    if [ "$pages" -lt 1 ] || [ "$pages" -gt 1000 ] || [ "$rest" != 0 ]; then
        say "$1 has $2 bytes, which is not 640 + 512 x pages with 1 to 1000 pages"
        return
    fi
    top=$(top_page "$1")
    if [ "$top" -lt "$pages" ]; then say "$1 has pages: $pages"; else say "$1 has pages: $pages, and its index tells of page $top"; fi
}

# The highest page that the index of a library tells as stored; -1 if there is none.
top_page() {
    od -An -v -tu1 -N128 <"$1" | awk -v top=-1 '
        {
            for (i = 1; i <= NF; i++) {
                for (byte = $i; byte > 0; byte = int(byte / 2)) top = 8 * at + bits++
                bits = 0
                at++
            }
        }
        END { print top }'
}
