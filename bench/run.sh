#!/bin/sh
# Times a journal of COUNT commands, read and written by this repository and by Google's protobuf, and compares the bytes:
#
#     bench/run.sh [COUNT]
#
# It needs protobuf-compiler, libprotobuf-dev and a C++ compiler:
#
#     apt-get install protobuf-compiler libprotobuf-dev g++
#
# The first call proves bench_machine and every crate below it, which takes long. Ends with 1 where the bytes differ.
set -e
cd "$(dirname "$0")"
count=${1:-1000000}
crate=../crates/bench_machine
built=$(mktemp -d)
trap 'rm -rf "$built"' EXIT

protoc --cpp_out="$built" records.proto
c++ -std=c++17 -O2 -I. -I"$built" protobuf_times.cc "$built"/records.pb.cc -o "$built"/protobuf_times \
    $(pkg-config --cflags --libs protobuf 2>/dev/null || echo -lprotobuf)
# Builds the program, and runs it with no word: each of its parts does a little then.
(cd "$crate" && rt run) >&2

uptime || true
"$crate"/out/bench_machine protocol "$count" > "$built"/ours
"$built"/protobuf_times "$count" > "$built"/theirs
uptime || true

# Of each line the name and the frame that was written; of the last line what was written of the whole journal.
written() {
    awk '$1 == "journal" { print $1, $3, $5, $(NF - 1), $NF; next } { print $1, $7, $NF }' "$1"
}

awk -f table.awk ours="$built"/ours "$built"/ours "$built"/theirs

written "$built"/ours > "$built"/our_bytes
written "$built"/theirs > "$built"/their_bytes
if cmp -s "$built"/our_bytes "$built"/their_bytes && ! grep -q OTHER "$built"/our_bytes; then
    echo "both wrote the same bytes, and those that they read"
else
    echo "the bytes DIFFER"
    diff "$built"/our_bytes "$built"/their_bytes || true
    exit 1
fi
