# Sourced, from the project's root, by the scripts that build programs in C over the proved library: finds the compiler, builds
# the library, compiles, runs. The script sets `script` to its own name first, for the messages; these go to stderr, so that
# stdout is the programs' own.
#
# What rt builds is x86-64. On another machine C is cross-compiled, and run under the emulator that comes with the Rattle kit
# or one on the PATH.
# shellcheck shell=sh

root=$PWD
# shellcheck source=building/products.sh
. building/products.sh

if [ "$(uname -m)" = x86_64 ]; then
    compiler=${CC:-cc}
    packages=gcc
else
    compiler=x86_64-linux-gnu-gcc
    packages="gcc-x86-64-linux-gnu libc6-dev-amd64-cross"
fi
if ! command -v "$compiler" >/dev/null; then
    [ "$(id -u)" = 0 ] || die "there is no $compiler: install $packages (as root this is done for you)"
    say "installing $packages"
    # shellcheck disable=SC2086 # the packages are words
    { apt-get update && apt-get install -y --no-install-recommends $packages; } >/dev/null \
        || die "could not install $packages: install a C compiler for x86-64 as $compiler"
fi
{ mkdir -p target/c && [ -w target/c ]; } 2>/dev/null ||
    die "$root cannot be written to, where the programs are to be built: work in a copy of it that you own"

# compile PROGRAM FILE|OPTION..: builds target/c/PROGRAM with the library.
compile() {
    program=$1
    shift
    "$compiler" -std=c11 -O2 -Wall -Wextra -Werror -static -Iinclude -Itests/c "$@" "$library" -o "target/c/$program" \
        || die "could not compile $program"
}

# run PROGRAM ARGUMENT..: runs target/c/PROGRAM.
run() {
    program=$1
    shift
    ${emulator:+"$emulator"} "target/c/$program" "$@"
}
