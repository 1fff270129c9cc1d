#!/bin/sh
# Makes a static archive with the exported names of the proved library over the second implementation.
#
# usage: reference/standin.sh [SOURCES] ARCHIVE
#
# SOURCES is a copy of this directory, for a stand-in with a mistake in it; without it, this directory. Of the archive's symbols
# only the calls are global, so that it can be linked beside the second implementation itself.
set -eu
here=$(cd "$(dirname "$0")" && pwd)
case $# in
1) sources=$here archive=$1 ;;
2) sources=$1 archive=$2 ;;
*) echo "usage: $0 [SOURCES] ARCHIVE" >&2; exit 2 ;;
esac
for tool in cargo ld objcopy ar; do
    command -v "$tool" >/dev/null || { echo "$tool is not on the PATH; it is needed to make the stand-in archive" >&2; exit 2; }
done
calls="check owed entry header items stream_next stream_list append_update append_commit append_decision append_checkpoint
open_fresh open_checkpoint play read_cell audit price"
cargo build --quiet --release --offline --manifest-path "$sources/standin/Cargo.toml"
made=${CARGO_TARGET_DIR:-$sources/target}/release/libstandin.a
wanted=
kept=
for call in $calls; do
    wanted="$wanted -u stocklog_$call"
    kept="$kept --keep-global-symbol=stocklog_$call"
done
mkdir -p "$(dirname "$archive")"
rm -f "$archive" "$archive.o"
# shellcheck disable=SC2086
ld -r --strip-debug --force-group-allocation -o "$archive.o" $wanted "$made"
# The standard library's objects hold compiler bitcode, which some versions of ar cannot read.
# shellcheck disable=SC2086
objcopy --remove-section=.llvmbc --remove-section=.llvmcmd $kept "$archive.o"
ar rcs "$archive" "$archive.o"
rm -f "$archive.o"
