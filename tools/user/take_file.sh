#!/usr/bin/env bash
# A way back to a file that another program has written to, so that the server refuses it: copies
# its documents into a new file. Needs stock sqlite3 (Debian package sqlite3).
#
#   tools/user/take_file.sh OLD NEW
#
# OLD, with its log OLD-wal where there is one, is only read; no server may hold it. NEW must not be
# there yet. The rows go over as they are, in the tables of OLD's edition, and the server judges
# them as it opens NEW: where they are not those of documents, it still refuses. NEW has pages of
# 1,024 bytes, as new files of the server have, and no sums.
set -eu
if [ $# != 2 ] || [ ! -f "$1" ] || [ -e "$2" ]; then
    echo "usage: tools/user/take_file.sh OLD NEW, where OLD is a file and NEW is not there" >&2
    exit 2
fi
old=$1
new=$(realpath -m -- "$2")
room=$(mktemp -d)
trap 'rm -rf "$room"' EXIT
cp -- "$old" "$room/old.db"
if [ -f "$old-wal" ]; then
    cp -- "$old-wal" "$room/old.db-wal"
fi
cd "$room"
edition=$(sqlite3 -bail old.db 'SELECT edition FROM layout')
if [ "$edition" = 1 ]; then
    sqlite3 -bail new.db <<'SQL'
PRAGMA page_size = 1024;
ATTACH 'old.db' AS old;
BEGIN;
CREATE TABLE layout (edition INTEGER NOT NULL) STRICT;
CREATE TABLE node (address TEXT NOT NULL, pre INTEGER NOT NULL, size INTEGER NOT NULL, level INTEGER NOT NULL, kind INTEGER NOT NULL, name TEXT NOT NULL, value TEXT NOT NULL, PRIMARY KEY (address, pre)) STRICT;
INSERT INTO layout (edition) SELECT edition FROM old.layout;
INSERT INTO node (address, pre, size, level, kind, name, value)
    SELECT address, pre, size, level, kind, name, value FROM old.node ORDER BY address, pre;
COMMIT;
DETACH old;
SQL
    table=node
else
    sqlite3 -bail new.db <<'SQL'
PRAGMA page_size = 1024;
ATTACH 'old.db' AS old;
BEGIN;
CREATE TABLE layout (edition INTEGER NOT NULL) STRICT;
CREATE TABLE label (id INTEGER PRIMARY KEY, name TEXT NOT NULL UNIQUE) STRICT;
CREATE TABLE node2 (address TEXT NOT NULL, pre INTEGER NOT NULL, size INTEGER NOT NULL, level INTEGER NOT NULL, kind INTEGER NOT NULL, label INTEGER NOT NULL, value TEXT NOT NULL, PRIMARY KEY (address, pre)) STRICT;
INSERT INTO layout (edition) SELECT edition FROM old.layout;
INSERT INTO label (id, name) SELECT id, name FROM old.label ORDER BY id;
INSERT INTO node2 (address, pre, size, level, kind, label, value)
    SELECT address, pre, size, level, kind, label, value FROM old.node2 ORDER BY address, pre;
COMMIT;
DETACH old;
SQL
    table=node2
fi
cp -- new.db "$new"
echo "$(sqlite3 new.db "SELECT count(*) FROM $table WHERE pre = 0") documents taken over"
