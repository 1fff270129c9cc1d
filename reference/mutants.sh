#!/bin/sh
# Shows that the differential run can fail: each mistake of mutants/*.edit and of the directories in mutants/ is made in a stand-in library
# over a copy of the second implementation, and the run must find a difference.
#
# usage: reference/mutants.sh [NAME ..]
#
# An edit file says what the mistake is, then 'file:', and 'old:' and 'new:' each with text up to the next such word; the old text
# is in the file exactly once. First the stand-in without a mistake must pass. Exit status 1 where a mistake is not found.
set -eu
here=$(cd "$(dirname "$0")" && pwd)
for tool in cargo cc python3; do
    command -v "$tool" >/dev/null || { echo "$tool is not on the PATH; it is needed to try the mistakes" >&2; exit 2; }
done
room=$(mktemp -d)
trap 'rm -rf "$room"' EXIT
target=${CARGO_TARGET_DIR:-$here/target}
# Quick to build; the runs are short.
export CARGO_PROFILE_RELEASE_OPT_LEVEL=1
options="--histories 2000 --damaged 2000 --long 0 --far 1 --seed 1 --uncounted"

# Links the run against an archive and makes it.
run() {
    STOCKLOG_LIB=$1 CARGO_TARGET_DIR=$target/mutants cargo build --quiet --release --offline --manifest-path "$here/differ/Cargo.toml" --bin differ
    # shellcheck disable=SC2086
    TMPDIR=$room "$target/mutants/release/differ" $options
}

CARGO_TARGET_DIR=$target/mutants "$here/standin.sh" "$room/plain.a"
run "$room/plain.a" >"$room/said" 2>&1 || { cat "$room/said"; echo "the stand-in without a mistake does not pass" >&2; exit 1; }
echo "no mistake: $(tail -n 1 "$room/said")"

missed=0
tried=0
for edit in "$here"/mutants/*.edit "$here"/mutants/*/*.edit; do
    name=$(basename "$edit" .edit)
    case " $* " in
    "  " | *" $name "*) ;;
    *) continue ;;
    esac
    tried=$((tried + 1))
    rm -rf "$room/copy"
    mkdir "$room/copy"
    cp -r "$here/Cargo.toml" "$here/Cargo.lock" "$here/src" "$here/standin" "$here/differ" "$room/copy"
    python3 "$here/mutants/apply.py" "$edit" "$room/copy"
    CARGO_TARGET_DIR=$target/mutated "$here/standin.sh" "$room/copy" "$room/wrong.a"
    status=0
    run "$room/wrong.a" >"$room/said" 2>&1 || status=$?
    if [ "$status" -eq 1 ] && grep -q '^DIFFERENCE' "$room/said"; then
        echo "$name: found, $(grep '^DIFFERENCE' "$room/said" | cut -d ' ' -f 3-)"
    elif [ "$status" -gt 128 ]; then
        echo "$name: found, the run was ended by signal $((status - 128))"
    else
        echo "$name: NOT FOUND (exit status $status)"
        missed=$((missed + 1))
    fi
done
if [ "$missed" -ne 0 ] || [ "$tried" -eq 0 ]; then
    echo "$missed of $tried mistakes not found" >&2
    exit 1
fi
echo "all $tried mistakes found"
