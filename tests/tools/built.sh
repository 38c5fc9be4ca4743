# shellcheck shell=bash disable=SC2034 # what its readers use
# What install.sh and packages.sh test. They read this with their arguments, HISTDESK HISTWATCH LIBRARY: build/install and
# build/package take these programs and this library from BUILT_*.

tests=$(dirname -- "$(dirname -- "$(realpath -- "${BASH_SOURCE[0]}")")")
root=$(realpath -- "$tests/..")
tools=$root/tools
build=$root/build
examples=$root/examples
BUILT_HISTDESK=$(realpath -- "$1")
BUILT_HISTWATCH=$(realpath -- "$2")
BUILT_LIBRARY=$(realpath -- "$3")
export BUILT_HISTDESK BUILT_HISTWATCH BUILT_LIBRARY
unset DESTDIR
. "$tests/counts.sh"
. "$tests/tools/common.sh"

# same WHAT GOT WANTED
same() {
    if [[ $2 == "$3" ]]; then
        pass
    else
        fail "$1: $2"
    fi
}
