# shellcheck shell=sh disable=SC2034
# Sourced by every test in C: how C is compiled for the archive, which is for x86-64, and how a program of it is run.
#   cc, cxx     the compilers
#   emulator    what runs a program; empty where the machine itself does
#   warnings    what every C file compiles without
#   give_up     ends a test that cannot be run, saying why
case $(uname -m) in
x86_64)
    cc=gcc
    cxx=g++
    emulator=
    ;;
*)
    cc=x86_64-linux-gnu-gcc
    cxx=x86_64-linux-gnu-g++
    # the C library for x86-64 stands where Debian's cross compiler has it
    emulator="qemu-x86_64 -L /usr/x86_64-linux-gnu"
    ;;
esac
warnings="-Wall -Wextra -Wpedantic -Wshadow -Werror"

give_up() {
    echo "failed: $1"
    echo "0 passed, 1 failed"
    exit 1
}
