# Sourced by the scripts that run or link what is proved, after `script` and `root` are set: what there is to build, and how.
# shellcheck shell=sh
# shellcheck source=building/proved.sh
. "$root/building/proved.sh"

# The program of ./replay.
build_replay() {
    program=$root/target/proved/replay
    proved "$program" prove_replay replay
}

# The lookups of addresses alone, for a boot loader.
build_lookups() {
    library=$root/target/proved/libgeometry.a
    proved "$library" prove_lookups geometry_c
}

# Every function of the header.
build_library() {
    library=$root/target/library/libk5l2931cam.a
    proved "$library" prove_library emulator_c geometry_c
}

prove_replay() {
    built=$root/crates/replay/out/replay
    (cd "$root/crates/replay" && rt run)
}

prove_lookups() {
    built=$root/crates/geometry_c/out/libgeometry_c.a
    (cd "$root/crates/geometry_c" && rt lib)
}

# The crates of C functions, and their objects in one archive.
prove_library() {
    built=$root/target/library/joined.a
    prove_lookups && (cd "$root/crates/emulator_c" && rt lib) && join_archives
}

# The objects of both archives in one; their private names are local to each.
join_archives() (
    archiver=$(kit_program llvm-ar) || archiver=$(command -v ar) ||
        { echo "there is no llvm-ar in the kit, and no ar on the PATH"; exit 1; }
    rm -rf "$root/target/joined"
    mkdir -p "$root/target/joined" && cd "$root/target/joined" || exit
    "$archiver" x "$root/crates/geometry_c/out/libgeometry_c.a" &&
        "$archiver" x "$root/crates/emulator_c/out/libemulator_c.a" && "$archiver" rcsD "$built" ./*.o
)
