#!/usr/bin/env bash
# install.sh HISTDESK HISTWATCH LIBRARY: puts these programs, and this libhistdesk.so.0 with the libhistdesk.a beside it,
# below empty prefixes by build/install and build/package, and uses what stands there like somebody who has neither the
# repository nor the Rattle kit. It prints what went wrong, and a last line with the counts.
# shellcheck disable=SC2154 # what counts.sh assigns
set -uo pipefail

. "$(dirname -- "$(realpath -- "${BASH_SOURCE[0]}")")/built.sh" "$@"

# The first python3 that is found has no packages, as that of pyenv, conda or a new environment.
bare=$folder/bare/bin
gives "a bare Python" 0 "" python3 -m venv --without-pip "$folder/bare"

# below PREFIX: what is used next is installed there. "${alone[@]}" COMMAND.. runs with only this and what the system has.
below() {
    prefix=$1
    alone=(env -i "PATH=$prefix/bin:$bare:/usr/bin:/bin" "PYTHONPATH=$prefix/lib/python3/dist-packages"
        "LD_LIBRARY_PATH=$prefix/lib" "PKG_CONFIG_PATH=$prefix/lib/pkgconfig")
}

# The program in C that histdesk(3) shows.
sed -n '/^#include/,/^\.Ed/p' "$root/man/histdesk.3" | sed '/^\./d; s/\\en/\\n/g' >"$folder/wakings.c"
cat >"$folder/wakings.py" <<'END_OF_PYTHON'
import histdesk

desk = histdesk.Desk()
with open("two-wakings.trace", "rb") as trace:
    print(desk.load(trace), desk.attach("sched_waking", "hist:keys=pid").totals())
END_OF_PYTHON

# The programs and the tools, in a folder with only examples.
used_programs() {
    cp -- "$examples"/*.{script,trace} "$work"
    printf 'hits 1\n' >"$work/bad.script"
    gives "$1, histdesk" 0 "" "${alone[@]}" histdesk wakeups.script wakeups.trace
    prints "$1, histdesk" "$(<"$examples/wakeups.expected")"
    gives "$1, histwatch" 0 "" "${alone[@]}" histwatch changes.script wakeups.trace
    prints "$1, histwatch" "$(<"$examples/changes.expected")"
    gives "$1, words" 2 "histdesk: bad words*Examples and documents: $prefix/share/doc/histdesk.*" "${alone[@]}" histdesk --help
    # It finds the package and the library by itself.
    gives "$1, explain" 1 "" env -i "PATH=$prefix/bin:$bare:/usr/bin:/bin" histdesk-explain bad.script
    prints "$1, explain" $'refused 16\n  line 1: hits 1: there is no such command or event; did you mean hist?\n          ^'
    gives "$1, bars" 0 "" "${alone[@]}" bash -c 'histdesk latencies.script wakeups.trace | histdesk-bars | grep -c @@@'
    prints "$1, bars" 7
    for tool in summary waits why diff view export desk explain record from-perf from-trace-cmd; do
        gives "$1, $tool --help" 0 "" "${alone[@]}" "histdesk-$tool" --help
        same "$1, $tool --help" "$(grep -o "^usage: [^ ]*" "$folder/out")" "usage: histdesk-$tool"
        same "$1, $tool of the repository" "$(grep -c 'tools/' "$folder/out")" 0
    done
}

# The tools that need numpy, which the system's Python runs, or what they report if that has none either.
used_reports() {
    local tool
    if ! /usr/bin/python3 -c 'import numpy' 2>"$folder/err"; then
        for tool in summary waits why desk; do
            gives "$1, $tool" 2 "$tool: * nor *numpy*apt-get install python3-numpy*" "${alone[@]}" "histdesk-$tool" \
                wakeups.trace
        done
        return
    fi
    gives "$1, desk" 0 "" "${alone[@]}" histdesk-desk wakeups.trace <wakeups.script
    prints "$1, desk" "$(<"$examples/wakeups.expected")"
    gives "$1, waits" 0 "" "${alone[@]}" histdesk-waits wakeups.trace --kind woken --by kind --csv
    prints "$1, waits" "kind,count,total,mean,p50,p90,p99,max,end_stamp,end_cpu,end_line,task,pid,doubtful
woken,10,263,26.3,7,12,204,204,6012001581,0,11,kworker/0:2,7105,0"
    gives "$1, summary" 0 "" "${alone[@]}" histdesk-summary wakeups.trace --by cpu --csv
    same "$1, summary" "$(head -n 1 "$folder/out" | cut -d , -f 1-5)" cpu,busy,idle,idle_with_waiters,longest
    gives "$1, why" 0 "" "${alone[@]}" histdesk-why wakeups.trace 0:11
    same "$1, why" "$(head -n 1 "$folder/out")" "kworker/0:2-7105 (prio 120) waited 204 us for CPU 0, from 6012.001377 to"
    gives "$1, diff" 0 "" "${alone[@]}" histdesk-diff wakeups.trace --without 'sched_waking if pid == 7105'
    same "$1, diff" "$(sed -n 2p "$folder/out")" "without 2 of 11 sched_waking if pid == 7105"
    gives "$1, view" 0 "" "${alone[@]}" histdesk-view wakeups.trace --save page.html
    same "$1, view" "$(grep -o '"command":"[^"]*view[^"]*"' page.html | LC_ALL=C sort -u)" '"command":"histdesk view.script wakeups.trace"
"command":"histdesk-view wakeups.trace"'
    gives "$1, export" 0 "" "${alone[@]}" histdesk-export wakeups.trace rows sched_waking hist:keys=prio
    prints "$1, export" $'prio,hitcount\n19,3\n120,8'
}

# The library: programs are compiled with the flags of pkg-config, with the shared library and with the static one.
used_library() {
    local flags
    flags=$("${alone[@]}" pkg-config --cflags --libs histdesk)
    # shellcheck disable=SC2086 # these are words
    gives "$1, cc" 0 "" "${alone[@]}" cc -Wall -Werror -o shared "$folder/wakings.c" $flags
    gives "$1, shared" 0 "" "${alone[@]}" ./shared
    prints "$1, shared" "pid 42: 2"
    # shellcheck disable=SC2086
    gives "$1, cc -static" 0 "" "${alone[@]}" cc -static -o static "$folder/wakings.c" $flags
    # shellcheck disable=SC2086
    gives "$1, cc -l:" 0 "" "${alone[@]}" cc -o linked "$folder/wakings.c" ${flags/-lhistdesk/-l:libhistdesk.a}
    for program in static linked; do
        gives "$1, $program" 0 "" env -i "./$program"
        prints "$1, $program" "pid 42: 2"
    done
    gives "$1, Python" 0 "" "${alone[@]}" /usr/bin/python3 "$folder/wakings.py"
    prints "$1, Python" "2 Totals(hits=2, entries=1, dropped=0)"
}

# The man pages: they are read without a warning, and each program has one.
used_pages() {
    local page program
    for page in "$prefix"/share/man/man?/*; do
        gives "$1, ${page##*/}" 0 "" env -C "$prefix/share/man" mandoc "${page#"$prefix/share/man/"}"
    done
    for program in "$prefix"/bin/*; do
        same "$1, man ${program##*/}" "$(compgen -G "$prefix/share/man/man1/${program##*/}.1*" | wc -l)" 1
    done
}

# The documents: none of their links is broken, all files of docs are there, and LIBRARY.md links to an example and the header.
used_documents() {
    local doc=$prefix/share/doc/histdesk page
    holds "$tests/documents/pages.py" --links "$doc"/*.md "$doc"/*/*.md
    for page in "$root"/docs/*; do
        same "$1, ${page##*/}" "$(find "$doc/${page##*/}")" "$doc/${page##*/}"
    done
    has "$1, links" "$doc/LIBRARY.md" '.*](examples/c/waits\.c).*' '.*](\.\./\.\./\.\./include/histdesk\.h).*'
}

# used WHAT: uses all that stands below $prefix.
used() {
    work=$(mktemp -d -- "$folder/work.XXXXXX")
    cd -- "$work" || exit
    used_programs "$1"
    has_helpers "$1"
    used_reports "$1"
    used_library "$1"
    used_pages "$1"
    used_documents "$1"
    cd -- "$folder" || exit
    same "$1, BUILT" "$(sed -n 's/^Commit \([0-9a-f]*\).*/\1/p' "$prefix/share/doc/histdesk/BUILT")" \
        "$(git -C "$root" rev-parse HEAD)"
}

# installed WHAT WORD..: checks that build/install with these arguments succeeds, and prints nothing.
installed() {
    gives "$1" 0 "" "$build/install" "${@:2}"
    prints "$1" ""
}

# What build/build has compiled for the converters, if anything, stands beside them.
has_helpers() {
    local name
    for name in perf_filter.so trace_cmd_lines; do
        same "$1, $name" "$(test -x "$prefix/lib/histdesk/helpers/out/$name" && echo there)" \
            "$(test -e "$root/helpers/out/$name" && echo there)"
    done
}

# ---- A prefix of its own.

below "$folder/own"
installed install "$prefix"
used install
PATH=$prefix/bin:$PATH holds "$tests/documents/man_examples.py" "$examples" "$root"/man/*.[17]
gives "pages without warnings" 0 "" mandoc -Tlint -W warning "$root"/man/*.[1-8]
# It is installed again, over what stands there; then uninstalling leaves what somebody else has put there.
echo mine >"$prefix/bin/other"
rm -- "$prefix/bin/histwatch"
installed "install again" "$prefix"
gives "histwatch again" 0 "" "${alone[@]}" histwatch
installed uninstall --uninstall "$prefix"
same uninstall "$(cd -- "$prefix" && find . | sort | tr '\n' ' ')" '. ./bin ./bin/other '
rm -r -- "$prefix"

# The whole prefix may be moved, and the script of a program adds large pages to the tunables that it passes on.
installed "to be moved" "$folder/before"
below "$folder/moved"
mv -- "$folder/before" "$prefix"
ln -s -- "$prefix/bin/histdesk" "$folder/linked"
gives moved 0 "" "$folder/linked" "$examples/wakeups.script" "$examples/wakeups.trace"
prints moved "$(<"$examples/wakeups.expected")"
# shellcheck disable=SC2016 # for the program that stands for it
printf '%s\n' '#!/bin/sh' 'echo "$GLIBC_TUNABLES" "$@"' >"$prefix/lib/histdesk/programs/histdesk"
GLIBC_TUNABLES=glibc.a=b gives pages 0 "" "$folder/linked" 'a b' ''
prints pages 'glibc.a=b:glibc.malloc.hugetlb=1 a b '
installed "uninstall what was moved" --uninstall "$prefix"
same "uninstall what was moved" "$(find "$prefix")" "$prefix"

# ---- Below another root, and in packages.

DESTDIR=$folder/root installed DESTDIR /usr
same DESTDIR "$(cd -- "$folder/root" && find . -maxdepth 2 | sort | tr '\n' ' ')" \
    '. ./usr ./usr/bin ./usr/include ./usr/lib ./usr/share '
below "$folder/root/usr"
used DESTDIR
DESTDIR=$folder/root installed "DESTDIR --uninstall" --uninstall /usr
same "DESTDIR --uninstall" "$(find "$folder/root/usr")" "$folder/root/usr"
# Below /usr/local, the package is where the system's Python looks.
DESTDIR=$folder/root installed "below /usr/local" /usr/local
package=$(find "$folder/root/usr/local" -path '*/histdesk/__init__.py')
package=${package#"$folder/root"}
gives "Python below /usr/local" 0 "" /usr/bin/python3 -c 'import sys; print(sys.argv[1] in sys.path)' \
    "${package%/histdesk/*}"
prints "Python below /usr/local" True

# The wheel is used by packages.sh.
gives package 0 "" "$build/package" "$folder/packages"
version=$(sed -n 's/.*_\(.*\)_amd64\.deb$/\1/p' "$folder/out")
gives "deb's fields" 0 "" dpkg-deb -f "$folder/packages/histdesk_${version}_amd64.deb" Package Version Architecture
prints "deb's fields" "Package: histdesk"$'\n'"Version: $version"$'\n'"Architecture: amd64"
gives "dpkg-deb -x" 0 "" dpkg-deb -x "$folder/packages/histdesk_${version}_amd64.deb" "$folder/deb"
below "$folder/deb/usr"
used deb
same "what runs the deb's tools" "$(head -qn 1 -- "$prefix"/lib/histdesk/tools/* | LC_ALL=C sort -u)" \
    $'#!/usr/bin/env bash\n#!/usr/bin/python3'
gives tar 0 "" tar -C "$folder" -xf "$folder/packages/histdesk-$version-linux-x86_64.tar.gz"
below "$folder/histdesk-$version-linux-x86_64"
used tarball

# ---- Arguments and files that are wrong.

gives "install --help" 0 "" "$build/install" --help
gives "install's words" 2 "install: no such option: --what; --help says more" "$build/install" --what
gives "install's prefixes" 2 "install: expects one argument, PREFIX; --help says more" "$build/install" /a /b
gives "nothing to uninstall" 1 "install: nothing is installed in $folder/none: *" "$build/install" --uninstall "$folder/none"
BUILT_HISTDESK=$folder/none gives "no program" 1 "install: cannot read $folder/none" "$build/install" "$folder/never"
gives "no folder" 1 "install: cannot make $folder/wakings.c/in" "$build/install" "$folder/wakings.c/in"
same "nothing is put there" "$(find "$folder/never" 2>&1)" "find: ‘$folder/never’: No such file or directory"
gives "package --help" 0 "" "$build/package" --help
gives "build --help" 0 "" "$build/build" --help
gives "build's words" 2 "build: all is none of histdesk, histwatch, library, helpers; --help says more" "$build/build" all
gives "helpers --help" 0 "" "$build/helpers" --help
gives "link --help" 0 "" "$build/link" --help
gives "needs --help" 0 "" "$build/needs" --help
gives needs 0 "" "$build/needs"
same needs "$(wc -l <"$folder/out") $(cut -d ' ' -f 1-4 "$folder/out")" "1 apt-get install bash git"

finish
