#!/bin/sh
# Times COUNT invocations of race and COUNT of ask, from invoke to end, in memory and in a file in FOLDER, a journal that grows to 10,000
# entries, the state of objects, effects in memory and in files, and the call that lists which invocations are due: by this repository, and
# by the same statements in the same transactions over the stock SQLite library:
#
#     bench/run_schedule.sh [COUNT [FOLDER]]
#
# It needs libsqlite3-dev and a C compiler:
#
#     apt-get install libsqlite3-dev gcc
#
# The first call proves bench and every crate below it, which takes long.
set -e
cd "$(dirname "$0")"
count=${1:-100}
crate=../crates/bench
built=$(mktemp -d)
files=$(mktemp -d -p "${2:-.}")
trap 'rm -rf "$built" "$files"' EXIT

# The statements of both are the same.
./statements.sh
cc -std=c11 -D_POSIX_C_SOURCE=199309L -O2 schedule_times.c -o "$built"/schedule_times -lsqlite3
# Builds the program, and runs it with no word: each of its parts does a little then.
(cd "$crate" && rt run) >&2

uptime || true
"$crate"/out/bench schedule "$count" "$files"/ours.db > "$built"/ours
"$built"/schedule_times "$count" "$files"/theirs.db > "$built"/theirs
uptime || true

awk -f schedule_table.awk ours="$built"/ours "$built"/ours "$built"/theirs
