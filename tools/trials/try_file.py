"""Starts the server on files, ends it, and starts it again: the documents are there; and on files
that it must refuse.

    tools/run try_file

Each line says what was tried, and `ok` or what was found in place of it. The status is 0 where all
is well.
"""
import os
import pathlib
import random
import resource
import shutil
import sqlite3
import subprocess
import sys
import tempfile

from tools.common import command_line
from tools.common.harness import LIBRARY, Server, built, store
from tools.common.repository import TOP

REFUSED = (1, "xq_server: cannot open the store\n")
# The library under `b`, as the last program of edition 1 (501483a) stored it in a new file.
EDITION_ONE = TOP / "tools" / "rows" / "edition1.db"
# Bytes that no file of a server may pass: its log is made, and has room for some stores.
FULL = 300_000
wrong: list[str] = []


def check(what: str, found: object, wanted: object) -> None:
    """Prints whether the one is the other."""
    verdict = "ok" if found == wanted else f"found {found!r}, wanted {wanted!r}"
    print(f"{what:<52} {verdict}", flush=True)
    if found != wanted:
        wrong.append(what)


def restarts(program: pathlib.Path, path: pathlib.Path) -> None:
    """Documents are there after an end of input, after another, and after a drop."""
    first = Server([program, "--file", path])
    check("an absent file holds nothing", first.ask(b"L"), (0, b"()"))
    check("a document is stored", first.ask(b"S", store(b"b", LIBRARY)), (0, b"stored"))
    check("the input ends", first.end(), (0, ""))
    second = Server([program, "--file", path])
    check("after a start it is there", second.ask(b"Q", b'doc("b")'), (0, LIBRARY))
    check("another is stored", second.ask(b"S", store(b"a", b"document {}")), (0, b"stored"))
    check("it is replaced", second.ask(b"S", store(b"a", b'doc("b")')), (0, b"replaced"))
    check("the first is dropped", second.ask(b"D", b"b"), (0, b"dropped"))
    check("the input ends again", second.end(), (0, ""))
    third = Server([program, "--file", path])
    check("after a start one is there", third.ask(b"L"), (0, b'"a"'))
    check("it is the copy", third.ask(b"Q", b'doc("a")'), (0, LIBRARY))
    check("another server finds the file held", Server([program, "--file", path]).end(), REFUSED)
    check("which changes nothing for the first", third.ask(b"L"), (0, b'"a"'))
    check("the input ends a third time", third.end(), (0, ""))


def reads_with_sqlite(path: pathlib.Path) -> None:
    """The tables are as documented, to other readers of such files."""
    rows = sqlite3.connect(f"file:{path}?mode=ro", uri=True).execute(
        "SELECT pre, size, level, kind, name, value FROM node2 INNER JOIN label ON label = id "
        "WHERE address = 'a' ORDER BY pre"
    ).fetchall()
    check("sqlite3 reads its rows", (len(rows), rows[:2]),
          (8, [(0, 7, 0, 0, "", ""), (1, 6, 1, 1, "lib", "")]))


def refuses(what: str, program: pathlib.Path, path: pathlib.Path, user: str | None = None) -> None:
    """The file is refused, its bytes stay, and nothing is left beside it that wasn't there."""
    def content() -> bytes | None:
        return path.read_bytes() if path.is_file() else None

    def beside() -> list[str] | None:
        folder = path if path.is_dir() else path.parent
        return sorted(os.listdir(folder)) if folder.is_dir() else None
    before, files = content(), beside()
    check(what, Server([program, "--file", path], user=user).end(), REFUSED)
    check("  its bytes stay", content() == before, True)
    check("  nothing is left beside it", beside(), files)


def written_by_sqlite(path: pathlib.Path, *statements: str) -> pathlib.Path:
    """A file that sqlite3 made."""
    file = sqlite3.connect(path)
    for statement in statements:
        file.execute(statement)
    file.commit()
    file.close()
    return path


def damaged(path: pathlib.Path, copy: pathlib.Path) -> pathlib.Path:
    """A copy in which one byte of a stored name is another."""
    data = bytearray(path.read_bytes())
    at = data.rindex(b"book")
    data[at] = ord("c")
    copy.write_bytes(data)
    return copy


LAYOUT = "CREATE TABLE layout (edition INTEGER NOT NULL) STRICT"
NODE = ("CREATE TABLE node (address TEXT NOT NULL, pre INTEGER NOT NULL, size INTEGER NOT NULL, "
        "level INTEGER NOT NULL, kind INTEGER NOT NULL, name TEXT NOT NULL, "
        "value TEXT NOT NULL, PRIMARY KEY (address, pre)) STRICT")
TURNED_NODE = ("CREATE TABLE node (value TEXT NOT NULL, name TEXT NOT NULL, "
               "kind INTEGER NOT NULL, level INTEGER NOT NULL, size INTEGER NOT NULL, "
               "pre INTEGER NOT NULL, address TEXT NOT NULL, PRIMARY KEY (address, pre)) STRICT")
ONE = "INSERT INTO layout VALUES (1)"
LABEL = "CREATE TABLE label (id INTEGER PRIMARY KEY, name TEXT NOT NULL UNIQUE) STRICT"
NODE2 = NODE.replace("TABLE node", "TABLE node2").replace("name TEXT", "label INTEGER")
TWO = "INSERT INTO layout VALUES (2)"
ZERO = "INSERT INTO label VALUES (0, '')"
BOOKS = ("INSERT INTO node VALUES ('b', 0, 7, 0, 0, '', ''), ('b', 1, 6, 1, 1, 'lib', ''), "
         "('b', 2, 2, 2, 1, 'book', ''), ('b', 3, 0, 3, 2, 'id', '1'), ('b', 4, 0, 3, 3, '', 'A'), "
         "('b', 5, 2, 2, 1, 'book', ''), ('b', 6, 0, 3, 2, 'id', '2'), ('b', 7, 0, 3, 3, '', 'B')")


def bad_files(program: pathlib.Path, folder: pathlib.Path, path: pathlib.Path) -> None:
    """Files that are no store."""
    text = folder / "text"
    text.write_text("This is a text, and no database of any kind.\n" * 200)
    refuses("a file of text", program, text)
    for byte in (b"S", b"x"):
        one = folder / "one"
        one.write_bytes(byte)
        refuses("a file of one byte", program, one)
    refuses("a directory", program, folder)
    refuses("a path in no directory", program, folder / "absent" / "x.db")
    refuses("a store with a changed byte", program, damaged(path, folder / "damaged.db"))
    refuses("edition 9", program, written_by_sqlite(
        folder / "nine.db", LAYOUT, NODE, "INSERT INTO layout VALUES (9)"))
    refuses("the table of editions alone", program, written_by_sqlite(
        folder / "alone.db", LAYOUT, ONE))
    refuses("the table of nodes alone", program, written_by_sqlite(folder / "nodes.db", NODE))
    refuses("columns in another order", program, written_by_sqlite(
        folder / "columns.db", LAYOUT, TURNED_NODE, ONE))
    refuses("a table that no store has", program, written_by_sqlite(
        folder / "other.db", "CREATE TABLE other (a INTEGER) STRICT"))
    refuses("an index that no store has", program, written_by_sqlite(
        folder / "index.db", LAYOUT, NODE, ONE, "CREATE INDEX by_name ON node (name)"))
    refuses("a text that stands at the root", program, written_by_sqlite(
        folder / "text.db", LAYOUT, NODE, ONE,
        "INSERT INTO node VALUES ('b', 0, 0, 0, 3, '', 'A')"))
    refuses("a row without a label", program, written_by_sqlite(
        folder / "label.db", LAYOUT, LABEL, NODE2, TWO, ZERO,
        "INSERT INTO node2 VALUES ('b', 0, 0, 0, 0, 1, '')"))
    refuses("tables of edition 2 with edition 1", program, written_by_sqlite(
        folder / "one.db", LAYOUT, LABEL, NODE2, ZERO, ONE))
    refuses("an address with a blank", program, written_by_sqlite(
        folder / "address.db", LAYOUT, NODE, ONE,
        "INSERT INTO node VALUES ('b b', 0, 0, 0, 0, '', '')"))


def other_orders(program: pathlib.Path, folder: pathlib.Path) -> None:
    """Tables that sqlite3 made are served, in either order."""
    orders = ((LAYOUT, NODE, ONE), (NODE, LAYOUT, ONE))
    for number, made in enumerate(orders):
        path = written_by_sqlite(folder / f"order{number}.db", *made)
        server = Server([program, "--file", path])
        check("tables in another order: stored",
              server.ask(b"S", store(b"b", LIBRARY)), (0, b"stored"))
        check("  replaced", server.ask(b"S", store(b"b", LIBRARY)), (0, b"replaced"))
        check("  read", server.ask(b"Q", b'doc("b")'), (0, LIBRARY))
        check("  the input ends", server.end(), (0, ""))
        check("  read after a start",
              Server([program, "--file", path]).ask(b"Q", b'doc("b")'), (0, LIBRARY))


def rows_of(path: pathlib.Path, query: str) -> list[tuple[int | str, ...]]:
    """What a query gives of a file that no server has."""
    base = sqlite3.connect(f"file:{path}?mode=ro", uri=True)
    rows = base.execute(query).fetchall()
    base.close()
    return rows


def carried_over(program: pathlib.Path, folder: pathlib.Path) -> None:
    """Of a file of edition 1 the documents are carried over: of one that a server of that edition
    wrote, and of those that sqlite3 makes, whichever table was made first."""
    paths = [shutil.copy(EDITION_ONE, folder / "edition1.db"),
             written_by_sqlite(folder / "layout_first.db", LAYOUT, NODE, ONE, BOOKS),
             written_by_sqlite(folder / "node_first.db", NODE, BOOKS, LAYOUT, ONE)]
    for path in paths:
        check(f"{path.name} has edition 1", rows_of(path, "SELECT edition FROM layout"), [(1,)])
        server = Server([program, "--file", path])
        check("  its document is read", server.ask(b"Q", b'doc("b")'), (0, LIBRARY))
        check("  another is stored", server.ask(b"S", store(b"c", LIBRARY)), (0, b"stored"))
        check("  the input ends", server.end(), (0, ""))
        check("  sqlite3 finds the file sound", rows_of(path, "PRAGMA integrity_check"), [("ok",)])
        check("  its edition is 2", rows_of(path, "SELECT edition FROM layout"), [(2,)])
        check("  each name has one label", rows_of(path, "SELECT id, name FROM label ORDER BY id"),
              [(0, ""), (1, "lib"), (2, "book"), (3, "id")])
        check("  no row is left in the old table", rows_of(path, "SELECT * FROM node"), [])
        again = Server([program, "--file", path])
        check("  it is read after a start", again.ask(b"Q", b'doc("b")'), (0, LIBRARY))
        check("  and what was stored", again.ask(b"Q", b'doc("c")'), (0, LIBRARY))
        check("  the input ends", again.end(), (0, ""))


# The rows of the document under `b`.
ROWS = ("SELECT pre, size, level, kind, name, value FROM node2 INNER JOIN label ON label = id "
        "WHERE address = 'b' ORDER BY pre")


def element(chance: random.Random) -> str:
    """An element, which may have an attribute and a text."""
    parts = chance.choice(("", 'attribute id {"%d"}')), chance.choice(("", 'text {"%d"}'))
    content = ", ".join(part % chance.randrange(3) for part in parts if part)
    return f"element {chance.choice('abc')} {{{content}}}"


def edit(chance: random.Random, elements: list[str]) -> None:
    """Changes one element, puts one in, takes one out, moves one, or changes them all."""
    at = chance.randrange(len(elements) + 1)
    what = chance.randrange(5)
    if what == 0:
        elements[at:at + 1] = [element(chance)]
    elif what == 1:
        elements.insert(at, element(chance))
    elif what == 2:
        elements[at:at + 1] = []
    elif what == 3 and elements:
        elements.insert(at, elements.pop())
    elif what == 4:
        elements[:] = [element(chance) for _ in range(10)]


def edited(program: pathlib.Path, folder: pathlib.Path) -> None:
    """Documents that are put one over the other leave the rows that the last leaves in a new file,
    also where the server was started in between, and another document filled what the opening
    keeps, so that none of their rows are kept."""
    full = b'document {text {string-join(for $n in 1 to 10484 return "%s", "")}}' % (b"x" * 100)
    for seed in range(6):
        chance = random.Random(seed)
        path, fresh = folder / f"edited{seed}.db", folder / f"fresh{seed}.db"
        elements = [element(chance) for _ in range(600 if seed == 0 else 20)]
        words = [program, "--file", path, "--kept", "1"]
        server = Server(words)
        server.ask(b"S", store(b"a", full))
        for _ in range(12):
            text = f"document {{{', '.join(elements)}}}".encode()
            server.ask(b"S", store(b"b", text))
            if chance.randrange(3) == 0:
                server.end()
                server = Server(words)
                server.ask(b"Q", chance.choice((b"()", b'name(doc("b")/*[1])')))
            edit(chance, elements)
        server.end()
        other = Server([program, "--file", fresh])
        check("edits leave what the last document leaves: stored",
              other.ask(b"S", store(b"b", text)), (0, b"stored"))
        other.end()
        check("  the rows", rows_of(path, ROWS) == rows_of(fresh, ROWS), True)
        check("  sqlite3 finds the file sound", rows_of(path, "PRAGMA integrity_check"), [("ok",)])


def names_of_files(program: pathlib.Path, folder: pathlib.Path) -> None:
    """PATH is taken as it stands; the engine can't open two kinds of names, and makes no file for
    them."""
    for name in (":memory:", "file:x"):
        before = sorted(os.listdir(folder))
        check("--file " + name, Server([program, "--file", name], cwd=folder).end(), REFUSED)
        check("  no file is made", sorted(os.listdir(folder)), before)
        check("  with a folder it is a name",
              Server([program, "--file", "./" + name], cwd=folder).ask(b"L"), (0, b"()"))


def taken_over(program: pathlib.Path, old: pathlib.Path, new: pathlib.Path, wanted: bytes) -> None:
    """take_file.sh copies a file, and the copy is served with this document under `b`."""
    script = str(TOP / "tools" / "user" / "take_file.sh")
    taken = subprocess.run([script, old, new], capture_output=True)
    check("take_file.sh copies it",
          (taken.returncode, taken.stdout), (0, b"1 documents taken over\n"))
    check("  the copy is served",
          Server([program, "--file", new]).ask(b"Q", b'doc("b")'), (0, wanted))


def taken_back(program: pathlib.Path, folder: pathlib.Path) -> None:
    """What sqlite3 wrote into a file of the server is refused, and take_file.sh copies its
    documents into a new one; it does so of edition 1 as well."""
    path = folder / "written.db"
    server = Server([program, "--file", path])
    check("a document is stored", server.ask(b"S", store(b"b", LIBRARY)), (0, b"stored"))
    check("the input ends", server.end(), (0, ""))
    written_by_sqlite(path, "UPDATE node2 SET value = 'C' WHERE pre = 4")
    refuses("a file that sqlite3 wrote to", program, path)
    taken_over(program, path, folder / "taken.db", LIBRARY.replace(b'text {"A"}', b'text {"C"}'))
    taken_over(program, EDITION_ONE, folder / "taken1.db", LIBRARY)


def full_disk(program: pathlib.Path, folder: pathlib.Path) -> None:
    """Where the log can't grow, a store is refused, the documents are as before, and the server
    goes on."""
    path = folder / "full.db"
    server = Server([program, "--file", path], restore_signals=False, preexec_fn=lambda:
                    resource.setrlimit(resource.RLIMIT_FSIZE, (FULL, FULL)))
    count = 0
    while server.ask(b"S", store(b"b%d" % count, LIBRARY)) == (0, b"stored"):
        count += 1
    check("a file that can't grow takes some documents", count > 1, True)
    check("  the next is not done", server.ask(b"S", store(b"c", LIBRARY)), (2, b"store"))
    check("  no drop is either", server.ask(b"D", b"b0"), (2, b"store"))
    counted = (0, b"%d" % count)
    check("  the others are there", server.ask(b"Q", b"count(collection())"), counted)
    check("  the input ends", server.end(), (0, ""))
    again = Server([program, "--file", path])
    check("  with room they are there", again.ask(b"Q", b"count(collection())"), counted)
    check("  and it takes more", again.ask(b"S", store(b"c", LIBRARY)), (0, b"stored"))
    again.end()


def read_by_others(program: pathlib.Path, folder: pathlib.Path) -> None:
    """Stock sqlite3 finds the file locked while a server has it; of one that was killed it reads
    the log too, and leaves both so that the next server opens them."""
    path = folder / "killed.db"
    read = ("sqlite3", "-readonly", str(path), "SELECT count(*) FROM node2")
    server = Server([program, "--file", path])
    check("a document is stored", server.ask(b"S", store(b"b", LIBRARY)), (0, b"stored"))
    beside = subprocess.run(read, capture_output=True, text=True)
    check("sqlite3 finds it locked", "database is locked" in beside.stderr, True)
    server.kill()
    for words in (read, read[:1] + read[2:]):
        after = subprocess.run(words, capture_output=True, text=True)
        check("  after a kill it reads it", after.stdout, "8\n")
        again = Server([program, "--file", path])
        check("  and a server opens it", again.ask(b"Q", b'doc("b")'), (0, LIBRARY))
        again.kill()


def unwritable(program: pathlib.Path, folder: pathlib.Path, path: pathlib.Path) -> None:
    """A file that its server may read and not write, which takes a user other than root."""
    if os.geteuid() != 0:
        path.chmod(0o444)
        refuses("a file that may only be read", program, path)
        return
    copy = pathlib.Path(shutil.copy(program, folder))
    copy.chmod(0o755)
    folder.chmod(0o755)
    path.chmod(0o444)
    refuses("a file that may only be read", copy, path, user="nobody")


def main() -> int:
    """Tries files, one kind after another; status 1 where something is wrong."""
    command_line.parser(__doc__).parse_args()
    program = built()
    with tempfile.TemporaryDirectory() as name:
        folder = pathlib.Path(name)
        path = folder / "x.db"
        restarts(program, path)
        reads_with_sqlite(path)
        (folder / "empty.db").touch()
        check("an empty file holds nothing",
              Server([program, "--file", folder / "empty.db"]).ask(b"L"), (0, b"()"))
        bad_files(program, folder, path)
        carried_over(program, folder)
        other_orders(program, folder)
        edited(program, folder)
        names_of_files(program, folder)
        full_disk(program, folder)
        if shutil.which("sqlite3"):
            read_by_others(program, folder)
            taken_back(program, folder)
        else:
            print("sqlite3 is not here: it is not tried as a reader, and take_file.sh neither")
        unwritable(program, folder, path)
    help_text = subprocess.run([program, "--help"], stdin=subprocess.DEVNULL, capture_output=True)
    check("--help names the option",
          (help_text.returncode, b"--file <PATH>" in help_text.stdout), (0, True))
    bad = subprocess.run([program, "--file"], stdin=subprocess.DEVNULL, capture_output=True)
    check("--file alone", (bad.returncode, bad.stderr), (2, b"xq_server: bad command line\n"))
    print(f"wrong: {len(wrong)}")
    return 1 if wrong else 0


if __name__ == "__main__":
    sys.exit(main())
