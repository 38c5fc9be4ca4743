# shellcheck shell=bash disable=SC2154 # what common.sh and the scripts set
# crates.sh: what pairs.sh and tables.sh share, the benches of one crate each. They read it after common.sh.

# copy_crates CRATE..: copies crates and all that they stand on to a repository in FOLDER.
copy_crates() {
    local name line
    mkdir -p -- "$folder/crates"
    for name in "$@"; do
        # A crate that crates.txt does not list is the kit's.
        if [[ -e $folder/crates/$name ]] || ! line=$(grep "^$name:" "$here/../crates.txt"); then
            continue
        fi
        cp -r -- "$here/../crates/$name" "$folder/crates"
        printf '%s\n' "$line" >>"$folder/crates.txt"
        # shellcheck disable=SC2086
        copy_crates ${line#*:}
    done
}

# add_crate NAME CRATE..: adds a crate of this folder, which stands on those. The gate takes each file that ends in .rt or
# .antt for one that it has to read, so here they end in .in too.
add_crate() {
    local file to
    while read -r file; do
        to=$folder/crates/$1/${file%.in}
        mkdir -p -- "${to%/*}"
        cp -- "$here/$1/$file" "$to"
    done < <(cd -- "$here/$1" && find . -name '*.in')
    printf '%s: %s\n' "$1" "${*:2}" >>"$folder/crates.txt"
}

# build_crate NAME ARGUMENT..: proves and builds it, and runs it once with these arguments.
build_crate() {
    (cd -- "$folder/crates/$1" && rt run -- "${@:2}" >"$folder/log" 2>&1) || {
        tail -n 40 -- "$folder/log"
        exit 1
    }
}

# least_columns COMMAND..: prints the least of some runs' numbers, column by column, and after them the least memory in KB.
least_columns() {
    local run
    for ((run = 0; run < times; run++)); do
        /usr/bin/time -f %M -o "$folder/memory" "$@" >"$folder/out"
        echo "$(<"$folder/out") $(<"$folder/memory")"
    done | awk '{ for (i = 1; i <= NF; i++) if (NR == 1 || $i < best[i]) best[i] = $i }
        END { for (i = 1; i <= NF; i++) printf "%s ", best[i]; print "" }'
}
