# What the scripts need beside a shell. For a script at the repository's root: . tools/needs.sh
#     need [kit] THING...   makes sure of the Rattle kit and of each thing: python3, serial (pyserial), socat, rustc. Root
#                           gets what is missing from Debian's packages. Otherwise all that is missing is told at once, and
#                           the script ends with status 2
#     python                the python3 to start: after need serial one that has pyserial
python=python3

# Whether a thing is here. The first python3 on the PATH need not be Debian's, which is the one that has Debian's pyserial.
has() {
    case $1 in
    kit) (. tools/kit.sh) ;;
    serial)
        for python in python3 /usr/bin/python3; do
            if "$python" -c 'import serial; serial.Serial' 2>/dev/null; then return 0; fi
        done
        return 1
        ;;
    *) command -v "$1" >/dev/null ;;
    esac
}

# Debian's packages of those things that are missing.
packages_for() {
    packages=''
    for thing in "$@"; do
        if has "$thing"; then continue; fi
        case $thing in
        serial) packages="$packages python3-serial" ;;
        *) packages="$packages $thing" ;;
        esac
    done
}

install_packages() {
    # shellcheck disable=SC2086
    set -- apt-get install -y --no-install-recommends $packages
    { "$@" || { apt-get update && "$@"; }; } </dev/null >/dev/null
}

need() {
    # The kit is in no package, and says itself what it lacks.
    kit_lacks=''
    if [ "$1" = kit ]; then
        has kit || kit_lacks=something
        shift
    fi
    packages_for "$@"
    if [ -n "$packages" ] && [ "$(id -u)" = 0 ]; then
        echo "${0#./}: missing, apt-get installs it:$packages" >&2
        install_packages || echo "${0#./}: apt-get failed" >&2
        packages_for "$@"
    fi
    if [ -n "$packages" ]; then echo "${0#./}: missing, please install it:$packages" >&2; fi
    if [ -n "$kit_lacks$packages" ]; then exit 2; fi
}
