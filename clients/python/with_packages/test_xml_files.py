"""Every XML file of this machine, in and out through a server, compared with libxml2.

`xmllint --c14n` gives the canonical form of the file before and after; both must be the same, byte
for byte. What one of the two refuses must be refused for a reason that is listed here.
XQS_XML_FILES is a folder to search instead of all, XQS_XML_MOST the most files to try.
"""

import os
import random
import re
import shutil
import subprocess
import unicodedata
import unittest
from collections import Counter
from collections.abc import Iterator
from pathlib import Path

from tests.support import ServerTest
from xqs.fetch import document_events
from xqs.stores import chunks_of, store_xml
from xqs.xml_in import XmlChoices, XmlFault
from xqs.xml_names import Names
from xqs.xml_out import write_document

TOP = Path(os.environ.get("XQS_XML_FILES", "/"))
MOST = int(os.environ.get("XQS_XML_MOST", "4000"))
"""How many files are tried; if there are more, some of them at random."""
ENDINGS = frozenset(
    ".dae .docbook .gpx .kml .mml .omf .page .policy .rdf .rng .svg .ui .xhtml .xml .xsd .xsl .xslt"
    .split())
LEFT_OUT = ("/proc", "/sys", "/dev", "/run", "/tmp", "/work", "/root")
"""Folders whose files are not from Debian packages."""
READ_BY_THEM = re.compile(rb"""(<!DOCTYPE[^>\[]*["'])(?:/|file:)[^"']*""")
"""The place of a document type that libxml2 would read, and that is not read here."""
CHOICES = XmlChoices(names=Names.FLAT, entities=True)
OURS = {
    "names": ("which flat names keep", "can't keep it apart", "not a prefix, a colon and a name"),
    "entities outside": ("which is not read", "undefined entity"),
    "limits": ("which is the server's limit",),
}
"""Why a file that libxml2 accepts may be refused: reasons, and the words in the messages."""
THEIRS = {
    "namespaces, which are not judged here": ("namespace", "Relative namespace"),
    "a declaration that a byte order mark belies": ("Document labelled",),
    "bytes that browsers read": ("input conversion failed",),
}
"""Why libxml2 may refuse a file that is accepted here."""
SHIFT_JIS = re.compile(rb"""encoding=["'](?:shift_jis|x-sjis)["']""", re.IGNORECASE)
AS_BROWSERS = str.maketrans({"\N{YEN SIGN}": "\\", "\N{OVERLINE}": "~"})
"""How two bytes of Shift_JIS are read here, which libxml2 reads differently."""


def files() -> list[Path]:
    """The files with these endings, except links."""
    found = sorted(_below(TOP))
    return found if len(found) <= MOST else sorted(random.Random(11).sample(found, MOST))


def _below(top: Path) -> Iterator[Path]:
    for folder, folders, names in os.walk(top):
        folders[:] = [it for it in folders if os.path.join(folder, it) not in LEFT_OUT]
        paths = (Path(folder, it) for it in names if Path(it).suffix in ENDINGS)
        yield from (it for it in paths if it.is_file() and not it.is_symlink())


def encoded(name: str, text: str) -> bytes:
    """A text of XML in an encoding that it declares."""
    return f"<?xml version='1.0' encoding='{name}'?><a b='{text}'>{text}</a>".encode(name)


AWKWARD = (
    b"<!--1--><?p q?><!DOCTYPE a [<!-- x --><?p q?><!ELEMENT a ANY><!--y-->]><!--2--><a/><?r?>",
    b"<!DOCTYPE a [<!ENTITY % p '<!-- x --><?p q?><!ATTLIST a b CDATA \"1\">'>%p;]><a/>",
    b"<!DOCTYPE a [<!ATTLIST a b NMTOKENS ' x  y ' c CDATA ' 1 \n2 ' d ID #IMPLIED>]><a d=' e '/>",
    b"<!DOCTYPE a [<!ENTITY e '<b c=\"&f;\">&f;</b>'><!ENTITY f '1&#38;2<'>]><a/>",
    b"<!DOCTYPE a [<!ENTITY e '<b c=\"&f;\">&f;</b>'><!ENTITY f '1&#38;#60;2'>]><a>&e;&e;</a>",
    b"<!DOCTYPE a SYSTEM 'nothing.dtd' [<!ATTLIST a b CDATA '1'>]><a c='2'/>",
    b"<a b='\t\n\r\n&#9;&#10;&#13; &lt;&gt;&quot;'>\t\n\r\n&#13;\r ]]&gt; &quot;</a>",
    b"<a><![CDATA[<&]]>x<![CDATA[]]><![CDATA[]]]]><![CDATA[>]]></a>",
    b"<a>\xc2\x85\xe2\x80\xa8\xef\xbb\xbf\xf0\x9f\x98\x80&#x1F600;</a>",
    b"<a><!-- - x -->\n<!----><?p   q  ?><?r?><b></b><c/></a>\n<!-- z -->\n\n",
    b"<p:a xmlns:p='urn:u' xmlns='urn:v' p:b='1' b='2'><c xmlns=''><p:d xmlns:p='urn:w'/></c>"
    b"</p:a>",
    b"<a xml:space='preserve' xml:lang='en' xmlns:xml='http://www.w3.org/XML/1998/namespace'> </a>",
    b"\xef\xbb\xbf<a>\xc3\xa9</a>", "<a>\u00e9\u65e5</a>".encode("utf-16"),
    "<?xml version='1.0'?><a>\u00e9</a>".encode("utf-16-le"), b"\r\n<a/>\r\n", b"<a>x\r</a>",
    encoded("UTF-16", "\u00e9\U0001f600"), encoded("ISO-8859-1", "\u00e9"),
    encoded("windows-1251", "\u0416"), encoded("KOI8-R", "\u0416"), encoded("GB2312", "\u4e2d"),
    encoded("Shift_JIS", "\u65e5\u672c"), encoded("EUC-JP", "\u65e5\u672c"),
    encoded("ISO-2022-JP", "\u65e5\u672c"), encoded("EUC-KR", "\ud55c"),
    encoded("GBK", "\u9555"), encoded("GB18030", "\U0001f600"), encoded("Big5", "\u4e2d"),
    encoded("ISO-8859-15", "\u20ac"), encoded("IBM037", "\u00e9"),
    b"<?xml version='1.0' encoding='x-none'?><a/>", b"<?xml version='1.0' encoding='UTF-16'?><a/>",
    b"<?xml version='1.0' encoding='EUC-JP'?><a>\xff\xff</a>", b"<a>\xff</a>", b"<a>&u;</a>",
    b"<!DOCTYPE a SYSTEM 'nothing.dtd'><a b='&u;'/>", b"<a b='1' b='2'/>", b"<a>&#0;</a>",
    b"<a><b></a></b>", b"<a/><b/>", b"x<a/>", b"<a>--><!-- -- --></a>", b"<a b=1/>", b"",
)
"""Texts that readers of XML stumble over; the last ones are refused."""
REFUSED = 14


def reason(text: str, reasons: dict[str, tuple[str, ...]]) -> str:
    """The reason in a message; empty if there is none of them."""
    return next((name for name, marks in reasons.items() if any(it in text for it in marks)), "")


def likeness(data: bytes, back: bytes | None, theirs: bytes) -> str:
    """Why a canonical form is as good as theirs; empty if it is not."""
    if back == theirs or back is None:
        return "the same" if back is not None else ""
    one, other = back.decode(), theirs.decode()
    if unicodedata.normalize("NFC", one) == unicodedata.normalize("NFC", other):
        return "the same, with letters and points apart"
    if SHIFT_JIS.search(data[:200]) and one == other.translate(AS_BROWSERS):
        return "the same, by browsers' Shift_JIS"
    return ""


@unittest.skipUnless(shutil.which("xmllint"), "it wants xmllint, of Debian's libxml2-utils")
class Files(ServerTest):
    def setUp(self) -> None:
        super().setUp()
        self.counts: Counter[str] = Counter()
        self.faults: list[str] = []

    def test_each_file_has_its_canonical_form_again(self) -> None:
        for file in files():
            self.counts[self.outcome(str(file), file.read_bytes())] += 1
        print(f"below {TOP}: " + ", ".join(f"{it}: {n}" for it, n in self.counts.most_common()))
        self.assertEqual(self.faults, [])
        self.assertGreater(self.counts["the same"], 0)

    def test_awkward_texts_have_their_canonical_form_again(self) -> None:
        outcomes = [self.outcome(repr(text), text) for text in AWKWARD]
        self.assertEqual(self.faults, [])
        refused = {"refused by both", "refused: entities outside"}
        self.assertEqual({it for it in outcomes[:-REFUSED]}, {"the same"})
        self.assertLessEqual({it for it in outcomes[-REFUSED:]}, refused)

    def outcome(self, file: str, data: bytes) -> str:
        """The outcome of a text; an impossible one fails the test."""
        here = self.folder / "file.xml"
        here.write_bytes(READ_BY_THEM.sub(rb"\1nothing.dtd", data, 1))
        theirs, said = canonical(here)
        refusal = self.round_trip(here)
        if refusal is None and theirs is not None:
            back, _ = canonical(here)
            return likeness(data, back, theirs) or self.fault(file, "is another one")
        if refusal is None:
            return f"taken: {reason(said, THEIRS) or self.fault(file, said[:300])}"
        if theirs is None:
            return "refused by both"
        return f"refused: {reason(refusal, OURS) or self.fault(file, refusal)}"

    def fault(self, file: str, why: str) -> str:
        """Notes an impossible outcome."""
        self.faults.append(f"{file}: {why}")
        return "WRONG"

    def round_trip(self, here: Path) -> str | None:
        """Stores the file and writes it again from the server. Returns why it is refused, or
        None."""
        try:
            with open(here, "rb") as data:
                store_xml(self.server, "x", chunks_of(data), here.name, CHOICES)
        except XmlFault as error:
            self.assertRegex(str(error), r"\Afile\.xml:[0-9]+:[0-9]+: ")
            return str(error)
        with open(here, "w", encoding="utf-8", newline="") as out:
            write_document(document_events(self.server, "x"), out.write, "flat")
        return None


def canonical(file: Path) -> tuple[bytes | None, str]:
    """The canonical form that libxml2 gives a file, or None, and its messages."""
    done = subprocess.run(
        ["xmllint", "--c14n", "--nonet", file.name], cwd=file.parent, capture_output=True,
        env={**os.environ, "XML_CATALOG_FILES": "/nonexistent"}, timeout=120)
    said = done.stderr.decode(errors="replace")
    return (None if done.returncode else done.stdout), said


if __name__ == "__main__":
    unittest.main()
