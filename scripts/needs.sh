# Sourced by ./test, ./run and the checks: what the project needs on a fresh machine, from Debian's packages where it is missing.
# The Rattle kit (the command rt) is no Debian package: without it nothing here can be proved or run.

die() {
    printf 'error: %s\n' "$*" >&2
    exit 1
}

# need COMMAND PACKAGE: installs PACKAGE if COMMAND is not there.
need() {
    command -v "$1" > /dev/null 2>&1 && return
    if [ -z "${apt_updated:-}" ]; then
        apt-get update -qq || die "apt-get update failed, and $1 is missing"
        apt_updated=1
    fi
    DEBIAN_FRONTEND=noninteractive apt-get install -y -qq "$2" > /dev/null || die "$2 could not be installed"
    command -v "$1" > /dev/null 2>&1 || die "$2 is installed and $1 is still missing"
}

command -v rt > /dev/null 2>&1 || die "the Rattle kit is not installed: rt is missing"
[ "$(uname -m)" = x86_64 ] || die 'the kit proves and compiles on x86-64, and for it alone'
need cmp diffutils

# The kit's folder, which holds the page that rt doc names; its compiler and linker.
kit=$(dirname "$(rt doc)")
toolchain=$kit/toolchain

# The crates whose exports are the library for C: each is a static library by itself, and one archive or one call of the linker brings them together.
exports=(face_c slot_face_c)

# What ./run and the checks run, as prove (scripts/prove.sh) leaves it.
replay=crates/replay/out/replay
sizes=crates/sizes/out/sizes
library_of() {
    # NAME_c's archive has the name that C programs know, libNAME.a
    printf 'target/staticlib/lib%s.a' "${1%_c}"
}

# built FILE..: ends where one is missing.
built() {
    local file
    for file; do
        [ -s "$file" ] || die "$file is not built: scripts/build"
    done
}
