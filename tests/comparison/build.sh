# shellcheck shell=sh disable=SC2046,SC2086,SC2154
# Sourced by run and prove_checks, after toolchain.sh: how the comparison is built. Objects of tests/independent have their own folder, since some of
# its files have the names of files here; its library.txt names those that are needed.
flags="-std=c99 -O2 $warnings"

independent=$root/tests/independent

# objects TARGET HEADER_FOLDER: compiles the comparison and the independent program into TARGET
objects() {
    mkdir -p "$1/own" "$1/independent"
    rm -f "$1"/own/*.o "$1"/independent/*.o
    for source in "$here"/*.c; do
        $cc $flags -I"$independent" -I"$2" -c -o "$1/own/$(basename "$source" .c).o" "$source" || return 1
    done
    for source in $(cat "$independent/library.txt"); do
        $cc $flags -c -o "$1/independent/${source%.c}.o" "$independent/$source" || return 1
    done
}

# link_with PROGRAM TARGET OTHERS..: links them with the archive, or with what stands for it
link_with() {
    program=$1 target=$2
    shift 2
    $cc $flags -o "$program" "$target"/own/*.o "$target"/independent/*.o "$@"
}

# link_with_quick PROGRAM TARGET FAULT FOLDER: with the quick interpreter of this folder under the archive's names; FAULT is one of broken/faults.h, 0 none
link_with_quick() {
    link_with "$1" "$2" -I"$root/include" -I"$4" -I"$here/broken" -DFAULT="$3" "$here/broken/standin.c" "$4"/quick*.c
}
