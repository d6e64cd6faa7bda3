#!/bin/sh
# Checks that the images and the listing in programs/ are what their sources
# give, and that the demonstration prints the stored copy from its first
# section on, but for the time that it took.
#
#     tests/demo/run.sh [--store]
#
# --store: what it prints now becomes the stored copy.
# Needs the Debian package gcc-mipsel-linux-gnu, and what ./demo needs.
set -eu

cd "$(dirname "$0")/../.."
scratch=$(mktemp -d)
trap 'rm -rf "$scratch"' EXIT

fail() {
    echo "tests/demo/run.sh: $*" >&2
    exit 1
}

# same FILE..: made anew, they are as stored.
same() {
    for file in "$@"; do
        cmp "$scratch/$file" "programs/$file" || fail "programs/$file is not what its source gives: see programs/build.sh"
    done
}

programs/build.sh "$scratch"
same boot.rom kernel.rom
# Another compiler may choose other instructions; the listing's first line names the one that was used.
if [ "$(head -n 1 "$scratch/import.lst")" = "$(head -n 1 programs/import.lst)" ]; then
    same import.bin import.lst
    echo "programs: the images and the listing are what their sources give"
else
    echo "programs: the ROMs are what their sources give; import.bin was made by another compiler than this machine's"
fi

./demo > "$scratch/demo.txt" || {
    tail -n 20 "$scratch/demo.txt" >&2
    fail "./demo failed"
}
sed -n '/^== 1/,$ { /^It took/d; p }' "$scratch/demo.txt" > "$scratch/story.txt"
if [ "${1:-}" = --store ]; then
    cp "$scratch/story.txt" tests/demo/expected.txt
fi
diff tests/demo/expected.txt "$scratch/story.txt" || fail "./demo prints something else than tests/demo/expected.txt"
awk 'length($0) > 80 { print; wide = 1 } END { exit wide }' "$scratch/demo.txt" >&2 || fail "./demo prints lines of over 80 columns"
echo "demo: $(wc -l < tests/demo/expected.txt) lines as stored"
