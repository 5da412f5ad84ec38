# Sourced by the scripts that run or link what rt has proved. They use a copy alone, which is put in place after rt has said that
# all is proved, and beside it a stamp of what it was made of. A copy whose stamp says otherwise is never used: it is made anew.
#
# The script sets `script`, its name for the messages, and `root`, the project's folder. Where a copy stands nothing is written,
# and no rt is needed.
# shellcheck shell=sh

script=${script:?is the name of the script that sources this}
root=${root:?is the folder of the project}

say() { printf '%s: %s\n' "$script" "$*" >&2; }
die() { say "$*"; exit 2; }

# shellcheck source=building/progress.sh
. "$root/building/progress.sh"

# All that rt is given: with any edit under crates/ it is another sum. What rt keeps in out/ is no source.
sources() { (cd "$root" && find crates.txt crates -name out -prune -o -type f -exec sha256sum {} +) | LC_ALL=C sort | sha256sum | cut -c 1-64; }
checksum() { sha256sum <"$1" | cut -c 1-64; }

# The kit's identity, and nothing where rt is not on the PATH.
kit_name() { ! command -v rt >/dev/null || rt version; }

# kit_program NAME: the first of that name that runs here, of the kit or else on the PATH.
kit_program() {
    # shellcheck disable=SC2016 # the inner sh has its own $1
    found=$(find "$kit" -name "$1" -exec sh -c '"$1" --version >/dev/null 2>&1' sh {} \; -print | head -n 1)
    [ -n "$found" ] || found=$(command -v "$1") || return 1
    printf '%s\n' "$found"
}

# Where the kit has what its programs, which are x86-64, are run with: its loader, and on another machine an emulator.
find_kit() {
    kit=$(dirname "$(dirname "$(rt doc)")")
    loader=$(find "$kit" -type f -name ld-linux-x86-64.so.2 | head -n 1)
    [ -n "$loader" ] || die "the kit at $kit has no ld-linux-x86-64.so.2 to run programs with: install it again"
    emulator=
    [ "$(uname -m)" = x86_64 ] || emulator=$(kit_program qemu-x86_64) || emulator=$(command -v qemu-x86_64-static) ||
        die "there is no qemu-x86_64 to run x86-64 programs with, in the kit or on the PATH: install qemu-user"
}

# stamped COPY NAME: what a copy's stamp has under a name.
stamped() { sed -n "s/^$2 //p" "$1.stamp"; }

# stands COPY: it was proved, of the sources as they are and by the kit that is there.
stands() {
    [ -f "$1" ] && [ -f "$1.stamp" ] && [ -x "$(stamped "$1" loader)" ] || return 1
    name=$(kit_name)
    [ "$(stamped "$1" copy)" = "$(checksum "$1")" ] && [ "$(stamped "$1" sources)" = "$(sources)" ] &&
        { [ -z "$name" ] || [ "$(stamped "$1" kit)" = "$name" ]; }
}

# proved COPY BUILD CRATE..: COPY is what the function BUILD has left in the file `built`, by a proof of CRATE.. ; and `loader`
# and `emulator` are what its code is run with. One build at a time.
proved() {
    if ! stands "$1"; then
        command -v rt >/dev/null ||
            die "$1 is not built of these sources, and the Rattle kit's 'rt' is not on the PATH: add the kit's bin folder to it"
        { mkdir -p "${1%/*}" && [ -w "${1%/*}" ] && [ -w "$root/target" ]; } 2>/dev/null ||
            die "$1 is not built of these sources, and $root cannot be written to: build in a copy of it that you own"
        exec 9>"$root/target/lock"
        flock -n 9 || { say "another build is under way: waiting for it"; flock 9; }
        stands "$1" || build "$@"
        exec 9>&-
    fi
    loader=$(stamped "$1" loader)
    emulator=$(stamped "$1" emulator)
}

# build COPY BUILD CRATE..: as above, and whatever stands. The stamp comes last: a build that is killed has none.
build() {
    copy=$1 recipe=$2 log=$1.log built=
    shift 2
    find_kit
    of=$(sources) began=$(date +%s)
    progress_begins "$@"
    if "$recipe" </dev/null >"$log" 2>&1; then failed=; else failed=yes; fi
    progress_ends
    if [ -n "$failed" ]; then
        grep -E '^(fn .*: (no proof|not proved)|rt: .* did not build)' "$log" | cut -c 1-200 >&2 || :
        die "rt has not proved and built $copy, and nothing is used in its stead: read the end of $log"
    fi
    [ "$of" = "$(sources)" ] || die "files under crates/ have changed while they were proved: run $script again"
    {
        cp "$built" "$copy.new" && mv -f "$copy.new" "$copy" &&
            stamp >"$copy.stamp.new" && mv -f "$copy.stamp.new" "$copy.stamp"
    } || die "$copy cannot be written: see that its disk has room, and run $script again"
    say "all is proved, after $(duration $(($(date +%s) - began)))"
}

stamp() {
    printf '%s\n' "sources $of" "kit $(rt version)" "copy $(checksum "$built")" "loader $loader" "emulator $emulator" \
        "took $(($(date +%s) - began))"
}
