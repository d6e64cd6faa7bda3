# To be sourced by the run.sh of a Rust program that is linked with an archive:
#
#     . "$(dirname "$0")/../archive.sh"
#     run_with NAME 'ARCHIVE [SEED [RUNS]]' "$@"
#
# or, where more is to be done than to build and to run it:
#
#     use_archive NAME ARCHIVE
#     cd "$(dirname "$0")"
#     run_program ARGUMENTS
#
# ARCHIVE is the x86-64 archive, a file named libNAME.a (tools/archive NAME).
#
# On Arm the program is built for x86-64 and run by qemu-x86_64. That needs
# gcc-x86-64-linux-gnu, qemu-user, and Rust's own library for
# x86_64-unknown-linux-gnu: libstd-rust-dev:amd64 where cargo is Debian's
# (dpkg --add-architecture amd64), or `rustup target add`; and libc6:amd64
# to run with.

# Tells the build where libNAME.a is.
use_archive() {
    if [ "$(basename "$2")" != "lib$1.a" ] || [ ! -f "$2" ]; then
        echo "$0: no file named lib$1.a: $2" >&2
        exit 2
    fi
    ARCHIVE_NAME=$1
    ARCHIVE_DIR=$(cd "$(dirname "$2")" && pwd)
    # A changed archive is linked anew, whatever its date.
    ARCHIVE_SUM=$(cksum < "$2")
    export ARCHIVE_NAME ARCHIVE_DIR ARCHIVE_SUM
}

# After use_archive: tells the build where the archive of what only tests ask is,
# a file named libprobe.a beside the other.
use_probe() {
    if [ ! -f "$ARCHIVE_DIR/libprobe.a" ]; then
        echo "$0: no file named libprobe.a: $ARCHIVE_DIR" >&2
        exit 2
    fi
    ARCHIVE_SUM="$ARCHIVE_SUM $(cksum < "$ARCHIVE_DIR/libprobe.a")"
}

# Builds the package of the current folder, and runs its program.
run_program() {
    case $(uname -m) in
    x86_64)
        cargo run --quiet --release --locked --offline -- "$@"
        ;;
    aarch64)
        : "${CARGO_TARGET_X86_64_UNKNOWN_LINUX_GNU_LINKER:=x86_64-linux-gnu-gcc}"
        # Where Debian's own libc6:amd64 is installed, its loader must not be
        # passed by: the cross compiler's, with that package's library, aborts.
        runner="qemu-x86_64 -L /usr/x86_64-linux-gnu"
        [ -e /lib64/ld-linux-x86-64.so.2 ] && runner=qemu-x86_64
        : "${CARGO_TARGET_X86_64_UNKNOWN_LINUX_GNU_RUNNER:=$runner}"
        export CARGO_TARGET_X86_64_UNKNOWN_LINUX_GNU_LINKER
        export CARGO_TARGET_X86_64_UNKNOWN_LINUX_GNU_RUNNER
        cargo run --quiet --release --locked --offline --target x86_64-unknown-linux-gnu -- "$@"
        ;;
    *)
        echo "$0: neither x86_64 nor aarch64" >&2
        exit 2
        ;;
    esac
}

# Of a script whose arguments are USAGE, the first of them libNAME.a: builds the
# package of its folder, and runs its program on the others.
run_with() {
    name=$1 usage=$2
    shift 2
    if [ $# -lt 1 ] || [ $# -gt "$(echo "$usage" | wc -w)" ]; then
        echo "usage: $0 $usage" >&2
        exit 2
    fi
    use_archive "$name" "$1"
    shift
    cd "$(dirname "$0")"
    run_program "$@"
}
