#!/bin/sh
# Whether the store has each statement of store_statements.h.
set -e
cd "$(dirname "$0")"
grep -o '"[A-Z]* [^"]* [^"]*"' store_statements.h | grep -v '"PRAGMA ' | while read -r text; do
    if ! grep -qF "$text" ../crates/store_tables/src/*.rt; then
        echo "store_tables has no such statement: $text" >&2
        exit 1
    fi
done
