# How x86-64 programs are built and run on this machine; sourced by scripts, and asked by programs.py. Natively where the machine is one;
# elsewhere Debian's cross compiler builds them (packages installs it), and they run on the kit's emulator.
# shellcheck shell=bash disable=SC2034
kit=/opt/rattle
compiler=(cc) binutils='' on_static=() on_debian=() on_kit=()
# what a program's object needs of C beside the C library
of_c=("$kit/c/libos_c.a" "$kit/c/liblibc_c.a")
if [ "$(uname -m)" != x86_64 ]; then
    # linked statically, so that the emulator needs no x86-64 libraries
    compiler=(x86_64-linux-gnu-gcc -static) binutils=x86_64-linux-gnu-
    emulator="$kit/on/$(uname -m)/toolchain/bin/qemu-x86_64"
    # without erms: the C library then clears and copies by vectors; the emulator takes rep stosb byte by byte, a hundred times slower
    on_static=("$emulator" -cpu max,-erms)
    # with Debian's C library for x86-64
    on_debian=("${on_static[@]}" -L /usr/x86_64-linux-gnu)
    # with the kit's C library, as `rt` links programs
    on_kit=("$emulator" "$kit/toolchain/lib/ld-linux-x86-64.so.2" --library-path "$kit/toolchain/lib")
fi
