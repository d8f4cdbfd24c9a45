# shellcheck shell=sh
# x86.sh, to be sourced: what runs an x86-64 program on this machine.
machine=$(uname -m)
# The kit's tools: x86-64 alone, with its loader and C library, and no emulator.
tools=$(dirname "$(rt doc)")/toolchain
emulator=$(command -v qemu-x86_64)
# What tells the emulator to trace one instruction at a time; its name before qemu 8 was another.
single=-one-insn-per-tb
[ -z "$emulator" ] || "$emulator" -help | grep -q -e "$single" || single=-singlestep

# Without erms the C library doesn't copy by string moves, which are emulated byte by byte: some thirty times slower.
words="'$emulator' -cpu max,-erms '$tools/lib/ld-linux-x86-64.so.2' --library-path '$tools/lib'"
[ "$machine" != x86_64 ] || words=
# x86words: what stands before a program's name in a line for sh
x86words() {
    [ "$machine" = x86_64 ] || [ -n "$emulator" ] || {
        echo "$(basename "$0" .sh): no qemu-x86_64 on the PATH: nothing here runs an x86-64 program" >&2
        return 1
    }
    echo "$words"
}
# x86 PROGRAM WORD..: runs it, on Arm through the emulator
x86() {
    before=$(x86words) || return 1
    eval "$before \"\$@\""
}
