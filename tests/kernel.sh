#!/usr/bin/env bash
# kernel.sh [OPTION].. PROGRAM: compares the desk's tables with a real kernel's. It is run by hand, never in CI: it boots a
# kernel in qemu, without hardware virtualisation, attaches hist triggers there, runs a workload, takes the kernel's `hist`
# files and the text of its `trace` file, and has PROGRAM, a built histdesk, answer the same triggers from that text. It prints
# each difference, and a last line with the counts. The status is 0, or 1 if something differs, or 2 if it could not run.
set -euo pipefail

# shellcheck disable=SC2016 # what stands in backquotes is the text's
usage='usage: tests/kernel.sh [OPTION].. PROGRAM
       tests/kernel.sh --judge [OPTION]..

Boots a kernel in qemu, attaches hist triggers to the four events of the scheduler, runs a workload, and compares the
tables, the totals, the orders of rows and the latencies of the kernel with those that PROGRAM, a built histdesk, gives
for the text of the same trace. It takes half a minute. With --judge, it records the guest instead, quiet and loaded, and holds
the waits that are reported as sure against the account of this kernel, as tests/judge.sh does; the library is that of
$HISTDESK_LIBRARY, or else the one that is built.

  --cpus N             the guest has N processors (1); with several, tables that overflow are left out
  --random SEED COUNT  adds COUNT random triggers to the fixed ones; the workload has the same seed
  --package NAME       boot the kernel of this Debian package (linux-image-cloud-amd64), which apt-get downloads, such as
                       linux-image-6.12-rt-amd64 or linux-image-6.1.0-50-cloud-amd64
  --vmlinuz FILE       boot this kernel instead
  --all                boot four kernels one after the other, 6.1 and 6.12, cloud and rt, each with one processor and
                       with two; each boot has the next seed
  --keep FOLDER        leave there what the guest showed, and what the desk was given and printed

It needs qemu-system-x86, busybox-static, cpio, python3, and gcc with the static C library; without --vmlinuz also
apt-get, dpkg-deb and a network. The package of the kernel is not installed: its kernel is unpacked in $KERNEL_CACHE, or
else ~/.cache/histdesk-kernel, and the next run finds it there.'

tests=$(dirname -- "$(realpath -- "${BASH_SOURCE[0]}")")
cpus=1
seed=1
count=0
vmlinuz=
package=linux-image-cloud-amd64
all=
keep=
judge=
# What --all boots.
packages=(linux-image-cloud-amd64 linux-image-rt-amd64 linux-image-6.12-cloud-amd64 linux-image-6.12-rt-amd64)
# A boot that takes more seconds of the processors than `limit`, or more of time, on a busy machine, than `patience`, is ended.
limit=600
patience=7200

stop() {
    printf 'kernel.sh: %s\n' "$1" >&2
    exit 2
}

is_number() {
    [[ $1 =~ ^(0|[1-9][0-9]{0,8})$ ]] || stop "no number: $1; --help says more"
}

while (($# > 0)); do
    case $1 in
    --help)
        printf '%s\n' "$usage"
        exit 0
        ;;
    --cpus)
        is_number "${2-}"
        cpus=$2
        shift 2
        ;;
    --random)
        is_number "${2-}"
        is_number "${3-}"
        seed=$2
        count=$3
        shift 3
        ;;
    --package | --vmlinuz | --keep)
        [[ -n ${2-} ]] || stop "$1 needs a word after it; --help says more"
        printf -v "${1#--}" %s "$2"
        shift 2
        ;;
    --all | --judge)
        declare "${1#--}=yes"
        shift
        ;;
    -*) stop "no such option: $1; --help says more" ;;
    *) break ;;
    esac
done
(($# == (${#judge} ? 0 : 1))) || stop "wants one word, PROGRAM, and none with --judge; --help says more"
((cpus > 0)) || stop "a guest has one processor at least"
program=
if [[ -z $judge ]]; then
    program=$(realpath -- "$1")
    [[ -f $program && -x $program ]] || stop "no program: $1"
fi

# needs COMMAND PACKAGE: ends the run if the command is missing.
needs() {
    command -v "$1" >/dev/null || stop "$1 is missing: apt-get install $2"
}

needs qemu-system-x86_64 qemu-system-x86
needs busybox busybox-static
needs cpio cpio
needs gcc gcc
needs python3 python3

folder=$(mktemp -d)

# Leaves what the run has made in the folder that --keep names, even if the guest failed.
finish() {
    if [[ -n $keep && -z $all ]]; then
        mkdir -p -- "$keep"
        rm -rf -- "$folder/root" "$folder/initrd"
        cp -r -- "$folder/." "$keep/"
    fi
    rm -rf -- "$folder"
}
trap finish EXIT

# Puts the kernel of the package in the cache, unless it is there, and prints where it is. A package may have no kernel and
# depend on the one that has it, whose version is in its name.
debian_kernel() {
    local cache=${KERNEL_CACHE:-${XDG_CACHE_HOME:-$HOME/.cache}/histdesk-kernel} name found
    needs apt-get apt
    needs dpkg-deb dpkg
    apt-cache show "$package" >/dev/null 2>&1 || stop "apt knows no $package: apt-get update, or name a kernel by --vmlinuz"
    name=$(apt-cache depends "$package" | awk '$1 == "Depends:" && $2 ~ /^linux-image-/ { print $2; exit }')
    name=${name:-$package}
    found=$cache/boot/vmlinuz-${name#linux-image-}
    if [[ ! -e $found ]]; then
        mkdir -p -- "$cache"
        (cd -- "$folder" && apt-get download "$name" >&2) || stop "cannot download $name"
        dpkg-deb --fsys-tarfile "$folder/$name"_*.deb | tar -x -C "$cache" --wildcards './boot/vmlinuz-*'
    fi
    printf '%s\n' "$found"
}

# The file system of the guest: busybox, its first process, the workload, and the cases or the program that reads the account.
initrd() {
    local root=$folder/root first=init.sh
    [[ -z $judge ]] || first=judged.sh
    mkdir -p -- "$root/bin"
    cp -- "$(command -v busybox)" "$root/bin/busybox"
    if ! "$root/bin/busybox" --list | grep -x base64 >/dev/null || ldd "$root/bin/busybox" >/dev/null 2>&1; then
        stop "busybox is not the static one: apt-get install busybox-static"
    fi
    cp -- "$tests/kernel/$first" "$root/init"
    chmod +x -- "$root/init"
    gcc -O2 -static -o "$root/workload" "$tests/kernel/workload.c" || stop "gcc cannot link the workload statically"
    if [[ -n $judge ]]; then
        gcc -O2 -static -o "$root/readings" "$tests/kernel/readings.c" || stop "gcc cannot link the readings statically"
    else
        cp -- "$folder/cases" "$root/cases"
    fi
    (cd -- "$root" && find . | cpio -o -H newc --quiet) >"$folder/initrd"
}

# Boots the guest. On a busy machine, an emulated guest with several processors may reset before its first process runs, and
# then has written nothing: it is booted again, twice at most.
boot() {
    # On one processor the clock is that of a trigger that names none; kernel/triggers.py says why not on several.
    local clock=global words tries
    ((cpus == 1)) || clock=mono
    # The clock of a guest that is judged counts instructions, so that it stands still while qemu waits for a processor. With
    # several processors, such a guest hardly gets anywhere.
    local clocked=()
    [[ -z $judge ]] || ((cpus > 1)) || clocked=(-icount shift=4)
    # Without hardware virtualisation, a kernel may take the interrupts of its serial line for lost ones and turn them off.
    words="console=ttyS0 panic=-1 noirqdebug loglevel=0 hd_seed=$seed hd_clock=$clock"
    for tries in 1 2 3; do
        (
            ulimit -t "$limit"
            timeout "$patience" qemu-system-x86_64 -accel tcg "${clocked[@]}" -smp "$cpus" -m 1024 -nic none -display none -monitor none \
                -no-reboot -kernel "$1" -initrd "$folder/initrd" -append "$words" \
                -serial "file:$folder/console" -serial "file:$folder/shown" </dev/null
        ) || stop "the guest did not end; its last words: $(tail -n 3 -- "$folder/console")"
        [[ ! -s $folder/console && ! -s $folder/shown ]] || break
        printf 'kernel.sh: the guest ended before its first process ran (%d of 3)\n' "$tries" >&2
    done
    unpack
}

# Unpacks what the guest wrote on its second serial line.
unpack() {
    mkdir -p -- "$folder/out"
    tr -d '\r' <"$folder/shown" | base64 -d 2>/dev/null | tar -x -z -C "$folder/out" 2>/dev/null ||
        stop "the guest showed no whole archive; its last words: $(tail -n 3 -- "$folder/console")"
}

# Boots each of the packages with one processor and with two, and sums up what each boot printed.
boot_all() {
    local status=0 options
    for package in "${packages[@]}"; do
        for cpus in 1 2; do
            options=(${judge:+--judge} --package "$package" --cpus "$cpus" --random "$seed" "$count")
            [[ -z $keep ]] || options+=(--keep "$keep/$package-$cpus")
            "$tests/kernel.sh" "${options[@]}" ${program:+"$program"} | tee -a -- "$folder/told" || status=$?
            seed=$((seed + 1))
        done
    done
    echo
    grep -E '^kernel |[0-9] tables \(|^[0-9]+ of [0-9]+ rows ' -- "$folder/told"
    awk '/^[0-9]+ of [0-9]+ things hold$/ { boots++; passed += $1; failed += $3 - $1 }
        /^[0-9]+ passed, [0-9]+ failed$/ { boots++; passed += $1; failed += $3 }
        END { printf "%d boots\n%d passed, %d failed\n", boots, passed, failed }' "$folder/told"
    return "$status"
}

if [[ -n $all ]]; then
    [[ -z $vmlinuz ]] || stop "--all names the kernels itself"
    boot_all
    exit
fi
[[ -n $vmlinuz ]] || vmlinuz=$(debian_kernel)
[[ -r $vmlinuz ]] || stop "cannot read the kernel: $vmlinuz"
if [[ -n $judge ]]; then
    python=python3
    "$python" -c 'import numpy' 2>/dev/null || python=/usr/bin/python3
    PYTHONPATH=$tests/../python "$python" -Bc 'import histdesk; histdesk.Desk()' 2>"$folder/said" ||
        stop "$(grep -m 1 Error: "$folder/said")"
    initrd
    boot "$vmlinuz"
    printf 'kernel %s, %d CPUs\n' "$(<"$folder/out/version")" "$cpus"
    "$python" "$tests/judge/judge.py" "$folder"/out/*/
    exit
fi
python3 "$tests/kernel/triggers.py" "$cpus" "$seed" "$count" "$folder"
initrd
boot "$vmlinuz"
python3 "$tests/kernel/compare.py" "$cpus" "$folder" "$program"
