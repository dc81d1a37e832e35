#!/usr/bin/env bash
# Has a program write the document of two books into a file, and stock sqlite3 (Debian package
# sqlite3) read it: its tables have to be those of edition 2 with the four labels and the document's
# eight rows, and the file has to be sound.
#
#   tools/trials/read_file.sh [FOLDER]       FOLDER as for bench/store/run.sh
set -eu
top=$(cd "$(dirname "$0")/../.." && pwd)
work=${1:-$(mktemp -d)}
program=$("$top/bench/store/build.sh" "$work")
rm -f "$work"/library.db*
"$program" library 0 "$work/library.db"
cat > "$work/expected" <<'ROWS'
ok
2
0|
1|lib
2|book
3|id
b|0|7|0|0|0|
b|1|6|1|1|1|
b|2|2|2|1|2|
b|3|0|3|2|3|1
b|4|0|3|3|0|A
b|5|2|2|1|2|
b|6|0|3|2|3|2
b|7|0|3|3|0|B
ROWS
sqlite3 "$work/library.db" > "$work/rows" <<'SQL'
PRAGMA integrity_check;
SELECT * FROM layout;
SELECT * FROM label ORDER BY id;
SELECT * FROM node2 ORDER BY address, pre;
SQL
diff "$work/expected" "$work/rows"
sqlite3 "$work/library.db" .schema
echo "sqlite3 sees the rows"
