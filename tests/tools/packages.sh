#!/usr/bin/env bash
# packages.sh HISTDESK HISTWATCH LIBRARY: has build/package make a Debian package, a tarball and a wheel of these programs and
# of this libhistdesk.so.0 with the libhistdesk.a beside it, twice. Both times they are the same bytes; they name one version,
# that of python/histdesk/_version.py, and have the licences. The tarball has a README, whose commands work after its env.sh.
# The wheel is installed into an empty environment of Python and used there, without the repository and the Rattle kit;
# install.sh uses what is in the other two. It prints what went wrong, what was not tried and why, and a last line with the
# counts.
# shellcheck disable=SC2154 # what counts.sh assigns
set -uo pipefail

unset HISTDESK_LIBRARY PYTHONPATH
. "$(dirname -- "$(realpath -- "${BASH_SOURCE[0]}")")/built.sh" "$@"

# same_file WHAT FILE FILE
same_file() {
    gives "$1" 0 "" cmp -- "$2" "$3"
}

# ---- What is made, which is the same both times.

version=$(sed -n 's/^__version__ = "\(.*\)"$/\1/p' "$root/python/histdesk/_version.py")
gives package 0 "" "$build/package" "$folder/packages"
mapfile -t made <"$folder/out"
deb=$folder/packages/histdesk_${version}_amd64.deb
tarball=$folder/packages/histdesk-$version-linux-x86_64.tar.gz
wheel=${made[2]-}
same "the files" "${made[*]:0:2}" "$deb $tarball"
same "the wheel's name" "${wheel/_2_[0-9]*_x/_2_N_x}" "$folder/packages/histdesk-$version-py3-none-manylinux_2_N_x86_64.whl"
gives "package again" 0 "" "$build/package" "$folder/again"
for file in "${made[@]}"; do
    same_file "${file##*/} again" "$file" "$folder/again/${file##*/}"
done
gives "dpkg-deb -x" 0 "" dpkg-deb -x "$deb" "$folder/deb"
gives tar 0 "" tar -C "$folder" -xf "$tarball"
tree=$folder/histdesk-$version-linux-x86_64
gives unzip 0 "" python3 -m zipfile -e "$wheel" "$folder/wheel"

# ---- What it is for, in one line of at most 80 characters.

purpose="analysis of Linux scheduler traces: which tasks waited for a processor, and why"
same "the deb's purpose" "$(dpkg-deb -f "$deb" Description | head -n 1)" "$purpose"
has "the wheel's purpose" "$folder/wheel/histdesk-$version.dist-info/METADATA" "Summary: $purpose"

# ---- The version.

doc=share/doc/histdesk
same "the deb's version" "$(dpkg-deb -f "$deb" Version)" "$version"
same "the deb's changelog" "$(zcat "$folder/deb/usr/$doc/changelog.gz" | head -n 1)" \
    "histdesk ($version) unstable; urgency=medium"
for at in "$folder/deb/usr" "$tree"; do
    same "BUILT" "$(head -n 1 "$at/$doc/BUILT")" "histdesk $version"
    same "pkg-config" "$(PKG_CONFIG_PATH=$at/lib/pkgconfig pkg-config --modversion histdesk)" "$version"
    for page in "$at"/share/man/man?/hist{desk,watch,desk-tools}.[1-7]*; do
        same "${page##*/}" "$(mandoc "$page" | tail -n 1 | grep -c "histdesk $version$")" 1
    done
    gives "the package" 0 "" env "PYTHONPATH=$(dirname -- "$(find "$at" -type d -path '*-packages/histdesk')")" \
        /usr/bin/python3 -Bc 'import histdesk; print(histdesk.__version__)'
    prints "the package" "$version"
done
has "the version of python/" "$root/python/pyproject.toml" 'version = { attr = "histdesk\._version\.__version__" }'
has "the wheel's version" "$folder/wheel/histdesk-$version.dist-info/METADATA" "Version: ${version//./\\.}" 'Name: histdesk'
same CHANGELOG.md "$(head -n 12 "$root/CHANGELOG.md" | grep -oFw -m 1 -- "$version")" "$version"

# ---- The tarball: env.sh sets what its README says, in bash from any folder, and in a POSIX shell from its own.

has README "$tree/README" "histdesk $version for Linux on x86-64" '.*glibc [0-9.]* or later\..*' '    \. \./env\.sh'
same "names that README leaves open" "$(grep -cw 'VERSION\|GLIBC' "$tree/README")" 0
while read -r name _; do
    same "README's $name" "$(compgen -G "$tree/${name%,}" | wc -l)" 1
done < <(sed -n '/^    bin /,$p' "$tree/README")
# in_tarball WHAT FOLDER SHELL COMMAND: checks that the command, which begins with env.sh, succeeds in an environment that has
# nothing else.
in_tarball() {
    gives "$1" 0 "" env -i -C "$2" PATH=/usr/bin:/bin "HOME=$folder" "$3" -c "$4" </dev/null
}
while read -r command; do
    in_tarball "README's $command" "$tree" bash ". ./env.sh && $command"
done < <(sed -n '/^Then try:/,/^It needs/s/^    \(histdesk.*\|python3.*\)/\1/p' "$tree/README")
prints "README's version" "$version"
for shell in bash dash; do
    in_tarball "$shell, env.sh" "$tree" "$shell" ". ./env.sh && command -v histdesk && command -v histdesk-waits &&
        pkg-config --modversion histdesk"
    prints "$shell, env.sh" "$tree/bin/histdesk"$'\n'"$tree/bin/histdesk-waits"$'\n'"$version"
done
in_tarball "env.sh from another folder" "$folder" bash ". ${tree@Q}/env.sh && echo \"\$MANPATH\" && histwatch </dev/null"
prints "env.sh from another folder" "$tree/share/man:"
gives "dash in another folder" 0 "env.sh: histdesk isn't in $folder; *" env -i -C "$folder" PATH=/usr/bin:/bin \
    dash -c ". ${tree@Q}/env.sh"

# ---- The licences.

licences=(LICENSE-MIT LICENSE-APACHE NOTICE)
for name in "${licences[@]}"; do
    for at in "$folder/deb/usr/$doc" "$tree/$doc" "$folder/wheel/histdesk-$version.dist-info/licenses"; do
        same_file "$name" "$at/$name" "$root/$name"
    done
    has "the wheel's $name" "$folder/wheel/histdesk-$version.dist-info/METADATA" "License-File: $name"
done
has "the wheel's licence" "$folder/wheel/histdesk-$version.dist-info/METADATA" 'License-Expression: MIT OR Apache-2\.0'
holds "$tests/tools/packages.py" "$folder/deb/usr/$doc/copyright" "$wheel"

# ---- The wheel: the only program in it is the library, and it needs no other C library than its name says.

library=$folder/wheel/histdesk/libhistdesk.so.0
same "programs in the wheel" "$(grep -rl -m 1 $'^\x7fELF' "$folder/wheel")" "$library"
same "what the library needs" "$(readelf -d "$library" | sed -n 's/.*(NEEDED).*\[\(.*\)\]/\1/p')" libc.so.6
most=$(readelf -VW "$library" | grep -o 'Name: GLIBC_2\.[0-9]*' | cut -d . -f 2 | sort -n | tail -n 1)
tag=${wheel##*manylinux_2_}
same "the wheel's glibc" "${tag%%_*}" "$((most > 5 ? most : 5))"

# ---- The wheel in use, by a Python that can make an environment and has numpy.

# answers WHAT TEXT WORD..: checks that the command, in the environment and in a folder with examples, succeeds and prints that
# text.
answers() {
    gives "$1" 0 "" "${alone[@]}" "${@:3}"
    prints "$1" "$2"
}

# The package: the library is that of the wheel, and questions have answers.
used_package() {
    answers "the wheel's library" "$version $folder/env/lib/pythonN/site-packages/histdesk/libhistdesk.so.0" python -c '
import re, histdesk
from histdesk.native.library import library
print(histdesk.__version__, re.sub("/python[0-9.]+/", "/pythonN/", library._name))'
    answers "a question" "27 woken 204" python -c '
import histdesk
desk = histdesk.Desk()
row = histdesk.waits("wakeups.trace").table("kind")[0]
print(desk.load(histdesk.read("wakeups.trace")), row.kind, row.max)'
}

# Each tool, by its command.
used_tools() {
    local name
    for name in summary waits why diff view export desk record from-perf from-trace-cmd; do
        gives "$name --help" 0 "" "${alone[@]}" "histdesk-$name" --help
        same "$name --help" "$(grep -o "^usage: [^ ]*" "$folder/out" | grep -o 'histdesk-.*')" "histdesk-$name"
        same "$name of the repository" "$(grep -c 'tools/' "$folder/out")" 0
    done
    answers waits "kind,count,total,mean,p50,p90,p99,max,end_stamp,end_cpu,end_line,task,pid,doubtful
woken,10,263,26.3,7,12,204,204,6012001581,0,11,kworker/0:2,7105,0" histdesk-waits wakeups.trace --kind woken --by kind --csv
    answers why "kworker/0:2-7105 (prio 120) waited 204 us for CPU 0, from 6012.001377 to" \
        bash -c 'histdesk-why wakeups.trace 0:11 | head -n 1'
    answers diff "without 2 of 11 sched_waking if pid == 7105" \
        bash -c "histdesk-diff wakeups.trace --without 'sched_waking if pid == 7105' | sed -n 2p"
    answers export $'prio,hitcount\n19,3\n120,8' histdesk-export wakeups.trace rows sched_waking hist:keys=prio
    answers desk "$(<"$examples/wakeups.expected")" bash -c 'histdesk-desk wakeups.trace <wakeups.script'
    answers bars 7 bash -c 'histdesk-desk wakeups.trace <latencies.script | histdesk-bars | grep -c @@@'
    answers view '"command":"histdesk-view wakeups.trace"' \
        bash -c "histdesk-view wakeups.trace --save page.html && grep -o '\"command\":\"histdesk-view [^\"]*\"' page.html"
    answers from-perf "migration/0-18 [000] 3752.816377: sched_waking: comm=perf pid=25692 prio=120 target_cpu=000" bash -c "
echo '    migration/0    18 [000]  3752.816376632:     sched:sched_waking: comm=perf pid=25692 prio=120 target_cpu=000' |
    histdesk-from-perf"
    # A recording is handed to the converter beside the tool.
    printf PERFILE2 >"$folder/work/perf.data"
    gives "a recording" 2 "from-perf: *" "${alone[@]}" histdesk-waits perf.data
}

# pip installs the wheel into the environment; it is used there, and pip uninstalls it.
used() {
    mkdir -- "$folder/work"
    cp -- "$examples"/{wakeups,latencies}.script "$examples/wakeups.trace" "$folder/work"
    alone=(env -i -C "$folder/work" "PATH=$folder/env/bin:/usr/bin:/bin" "HOME=$folder/work")
    gives "pip install" 0 "" "${alone[@]}" pip --disable-pip-version-check install -q --no-index --no-deps "$wheel"
    answers "pip's licence" "MIT OR Apache-2.0" python -c '
import importlib.metadata
print(importlib.metadata.metadata("histdesk")["License-Expression"])'
    gives "man pages" 0 "" mandoc "$folder/env/share/man/man1/histdesk-tools.1"
    holds "$tests/documents/pages.py" --links "$folder/env/$doc"/*.md
    used_package
    used_tools
    gives "pip uninstall" 0 "" "${alone[@]}" pip --disable-pip-version-check uninstall -q -y histdesk
    same "pip uninstall" "$(find "$folder/env" -name '*histdesk*' ! -type d)" ""
}

if python=$(python_with ensurepip numpy); then
    gives "an environment" 0 "" "$python" -m venv --system-site-packages "$folder/env"
    used
else
    skip "the wheel, since no Python has both ensurepip and numpy"
fi

# ---- Arguments that are wrong.

gives "wheel --help" 0 "" "$root/build/wheel" --help
gives "wheel's arguments" 2 "wheel: expects TREE, GLIBC and FOLDER; --help says more" "$root/build/wheel" "$tree" 3 "$folder"

finish
