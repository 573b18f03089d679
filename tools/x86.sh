# Builds and runs x86-64 programs, on an x86-64 machine or on an Arm one. Sourced by a script that has set `root`, the project's folder.
#   need COMMAND PACKAGE..   installs these packages of Debian's where the command is missing
#   need_file FILE PACKAGE.. the same where the file is missing
#   need_compilers           sees to $x86cc and $x86cxx, compilers for x86-64
#   need_archive             proves crate `host` and sets $archive to its archive (FF_ARCHIVE: another one instead)
#   need_run_archive         the same of crate `told_c`, under the name libtold.a: $run_archive (FF_RUN_ARCHIVE)
#   need_program NAME        proves a program, runs it once on nothing and sets $program to it; $tools, the kit's folder, has a loader for it
#   x86 PROGRAM ARG..        runs a statically linked x86-64 program; on an Arm machine under QEMU

x86cc=x86_64-linux-gnu-gcc x86cxx=x86_64-linux-gnu-g++

need() {
    command -v "$1" >/dev/null && return
    shift
    add_packages "$@"
}

need_file() {
    [ -e "$1" ] && return
    shift
    add_packages "$@"
}

add_packages() {
    if [ "$(id -u)" = 0 ]; then as_root=''; else as_root=sudo; fi
    $as_root apt-get update -qq >&2 && $as_root apt-get install -y -qq --no-install-recommends "$@" >&2
}

need_compilers() {
    if [ "$(uname -m)" = x86_64 ]; then
        need $x86cc gcc libc6-dev
        need $x86cxx g++
    else
        need $x86cc gcc-x86-64-linux-gnu libc6-dev-amd64-cross
        need $x86cxx g++-x86-64-linux-gnu
        need "$emulator" qemu-user
    fi
}

# In a crate's folder.
in_crate() {
    (cd "$root/crates/$1" && shift && "$@" >&2)
}

need_archive() {
    archive=${FF_ARCHIVE:-$root/crates/host/out/libhost.a}
    [ -n "${FF_ARCHIVE:-}" ] || in_crate host rt lib
}

need_run_archive() {
    run_archive=${FF_RUN_ARCHIVE:-$root/crates/told_c/out/libtold.a}
    [ -n "${FF_RUN_ARCHIVE:-}" ] || { in_crate told_c rt lib && cp "$root/crates/told_c/out/libtold_c.a" "$run_archive"; }
}

need_program() {
    program=$root/crates/$1/out/$1
    in_crate "$1" rt run </dev/null
}

tools=$(dirname "$(dirname "$(readlink -f "$(command -v rt)")")")/toolchain
emulator=''
[ "$(uname -m)" = x86_64 ] || emulator=qemu-x86_64

x86() {
    ${emulator:+"$emulator"} "$@"
}
