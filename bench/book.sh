#!/usr/bin/env bash
# How long a million candidates in seven books take: to make the books, and to write them as one text to a file.
set -eu
. "$(dirname "$0")/common.bash"
make_folder
book=$(build book_bench)
"$book" 142858 >"$folder/text"
tail -n 1 "$folder/text"
