"""`xqs web` over the server of XQS_SERVER: paths, forms, statuses, access, limits, ends."""

import os
import signal
import socket
import subprocess
import sys
import threading
import time
import unittest
import urllib.parse
from pathlib import Path

from tests.serving import PATIENCE, SOURCES, RunningMux
from tests.support import FolderTest, server_command
from webs import (
    BOMB,
    BOOK,
    ENDLESS,
    TOKEN,
    XQUERY,
    Answer,
    RunningWeb,
    WebTest,
    asked,
    read_all,
)


def stores(web: RunningWeb) -> list[str]:
    """The figures of stores and drops."""
    lines = web.ask("GET", "/metrics").body.splitlines()
    return [it for it in lines if 'kind="store"' in it or 'kind="drop"' in it]


class Folders(WebTest):
    """Queries over the documents of a folder."""

    def setUp(self) -> None:
        super().setUp()
        for address in ("p/1", "p/b/2", "q"):
            self.web.put(address, f"<d>{address}</d>")

    def test_a_query_asks_for_a_folder(self) -> None:
        every = 'string-join({}//d/string(), " ")'
        self.check(self.web.ask("GET", asked(every.format('collection("p")'))), 200, "p/1 p/b/2")
        inside = asked(every.format("collection()"), **{"in": "p/b"})
        self.check(self.web.ask("GET", inside), 200, "p/b/2")
        got = self.web.ask("POST", "/rest?in=q", every.format("collection()"), Content_Type=XQUERY)
        self.check(got, 200, "q")
        got = self.web.ask("GET", "/rest/q?query=" + urllib.parse.quote(
            'string(.), count(collection("p"))'), Accept=XQUERY)
        self.check(got, 200, '"q", 2')

    def test_what_is_wrong_with_it_has_its_place(self) -> None:
        got = self.web.ask("GET", asked("1, collection($x)"))
        self.check_refused(got, 400, "xqs:FOLDER")
        self.assertEqual(got.headers["Xqs-Place"], "1:4")
        got = self.web.ask("GET", asked('collection("p"), conut(1)'))
        self.check_refused(got, 400, "XPST0017")
        self.assertEqual(got.headers["Xqs-Place"], "1:18")
        self.check_refused(self.web.ask("GET", "/rest/q?in=p"), 400, "xqs:REQUEST")
        self.check_refused(self.web.ask("GET", asked("1", **{"in": "p"})), 400, "xqs:FOLDER")


class Documents(WebTest):
    """Documents in and out."""

    def test_a_document_goes_in_and_comes_out(self) -> None:
        self.check(self.web.put("a/b.xml", BOOK), 201, "stored\n")
        self.check(self.web.put("a/b.xml", BOOK), 200, "replaced\n")
        got = self.web.ask("GET", "/rest/a/b.xml")
        self.check(got, 200, BOOK)
        self.assertEqual(got.headers["Content-Type"], "application/xml; charset=utf-8")
        self.assertRegex(got.headers["Server-Timing"], r"^server;dur=\d+\.\d{3}$")
        self.check(self.web.ask("HEAD", "/rest/a/b.xml"), 200)
        self.check(self.web.delete("a/b.xml"), 200, "dropped\n")
        self.check_refused(self.web.delete("a/b.xml"), 404, "prof:ABSENT")
        self.check_refused(self.web.ask("GET", "/rest/a/b.xml"), 404, "FODC0002")

    def test_constructors_go_in_and_come_out(self) -> None:
        text = 'document {element a {attribute b {"1"}, text {"é"}}}'
        self.check(self.web.put("c", text, XQUERY), 201)
        got = self.web.ask("GET", "/rest/c", Accept=XQUERY)
        self.check(got, 200, text)
        self.assertEqual(got.headers["Content-Type"], "application/xquery; charset=utf-8")
        self.check(self.web.put("d", 'document {doc("c")/a/@b/string()}', XQUERY), 201)
        self.check(self.web.ask("GET", "/rest/d"), 200, "1")
        self.check_refused(self.web.put("e", "1", XQUERY), 400, "prof:NOTDOC")
        self.check_refused(self.web.put("e", b"\xff", XQUERY), 400, "prof:UTF8")

    def test_the_list_in_its_forms(self) -> None:
        self.check(self.web.ask("GET", "/rest", Accept=XQUERY), 200, "()")
        for address in ("b", "a"):
            self.web.put(address, BOOK)
        self.check(self.web.ask("GET", "/rest"), 200,
                   '<rest:database xmlns:rest="http://basex.org/rest" resources="2">'
                   '<rest:resource type="xml">a</rest:resource>'
                   '<rest:resource type="xml">b</rest:resource></rest:database>')
        self.check(self.web.ask("GET", "/rest", Accept="application/json"), 200, '["a", "b"]')
        self.check(self.web.ask("GET", "/rest", Accept=XQUERY), 200, '"a", "b"')
        self.check_refused(self.web.ask("GET", "/rest", Accept="image/png"), 406, "xqs:ACCEPT")

    def test_names_with_a_colon(self) -> None:
        text = '<p:a xmlns:p="urn:p"><b p:c="1"/></p:a>'
        refused = self.web.put("n", text)
        self.check_refused(refused, 400, "xqs:REQUEST")
        self.assertRegex(refused.body, r"n:1:\d+: ")
        self.check(self.web.put("n?names=flat", text), 201)
        self.check(self.web.ask("GET", "/rest/n?names=flat"), 200, text)
        self.check(self.web.ask("GET", "/rest/n"), 200,
                   '<p__a xmlns__p="urn:p"><b p__c="1"/></p__a>')
        self.check(self.web.put("n?names=local", text), 200)
        self.check(self.web.ask("GET", "/rest/n"), 200, '<a><b c="1"/></a>')
        self.check_refused(self.web.put("n?names=x", text), 400, "xqs:REQUEST")

    def test_a_document_larger_than_a_frame(self) -> None:
        text = "<a>" + "".join(f'<b n="{n}">{"text " * 200}</b>' for n in range(2_400)) + "</a>"
        self.assertGreater(len(text), 2_400_000)
        self.check(self.web.put("large", text), 201)
        self.check(self.web.ask("GET", "/rest/large"), 200, text)
        self.check(self.web.ask("GET", "/rest", Accept=XQUERY), 200, '"large"')
        constructors = self.web.ask("GET", "/rest/large", Accept=XQUERY).body
        self.check(self.web.put("again", constructors, XQUERY), 201)
        self.check(self.web.ask("GET", asked('count(doc("again")//b)')), 200, "2400")

    def test_a_document_larger_than_a_reply(self) -> None:
        value = "&amp;" + "a long text " * 90_000
        text = "<a>" + "".join(f'<b n="{n}">{value}</b>' for n in range(16)) + "</a>"
        constructors = ", ".join(f'element b {{attribute n {{"{n}"}}, text {{"{value}"}}}}'
                                 for n in range(16))
        self.check(self.web.put("huge", text), 201)
        got = self.web.ask("GET", "/rest/huge")
        self.assertEqual((got.status, len(got.body), got.body == text), (200, len(text), True))
        got = self.web.ask("GET", "/rest/huge", Accept=XQUERY)
        self.assertTrue(got.body == f"document {{element a {{{constructors}}}}}")
        self.check(self.web.ask("HEAD", "/rest/huge"), 200)
        self.check(self.web.ask("GET", "/rest", Accept=XQUERY), 200, '"huge"')
        self.check_refused(self.web.ask("GET", asked('doc("huge")')), 413, "prof:REPLY")

    def test_a_read_of_any_length_stores_nothing(self) -> None:
        value = "a long text " * 90_000
        text = "<a>" + "".join(f'<b n="{n}">{value}</b>' for n in range(16)) + "</a>"
        with RunningMux() as mux:
            with RunningWeb(place=mux.place) as web:
                self.check(web.put("huge", text), 201)
                before = stores(web)
                self.assertTrue(web.ask("GET", "/rest/huge").body == text)
                self.assertEqual(stores(web), before)
            self.assertNotIn("refused prof:REPLY", mux.said())

    def test_xml_that_is_refused(self) -> None:
        for text in ("<a>", "", "no XML", "<a/><b/>", BOMB):
            self.check_refused(self.web.put("x", text), 400, "xqs:REQUEST")
        self.check_refused(self.web.put("x", "{}", "application/json"), 415, "xqs:TYPE")
        self.check(self.web.ask("GET", "/rest", Accept=XQUERY), 200, "()")

    def test_addresses_that_are_none(self) -> None:
        for address in ("a%20b", "%C3%A9", "a" * 201):
            self.check_refused(self.web.put(address, BOOK), 400, "prof:ADDRESS")
            self.check_refused(self.web.ask("GET", f"/rest/{address}"), 400, "prof:ADDRESS")
            self.check_refused(self.web.delete(address), 400, "prof:ADDRESS")


class Queries(WebTest):
    """Queries of URLs and of bodies."""

    def test_items_come_in_lines_or_wrapped(self) -> None:
        query = '1, "a<b", element e {attribute x {"1"}}'
        self.check(self.web.ask("GET", asked(query)), 200, '1\na<b\n<e x="1"/>')
        self.check(self.web.ask("GET", asked(query, wrap="yes")), 200,
                   '<rest:results xmlns:rest="http://basex.org/rest">'
                   '<rest:result type="xs:integer">1</rest:result>'
                   '<rest:result type="xs:string">a&lt;b</rest:result>'
                   '<rest:result type="element()"><e x="1"/></rest:result></rest:results>')
        got = self.web.ask("GET", asked(query), Accept="text/xml;q=0.5, application/xquery")
        self.check(got, 200, '1, "a<b", element e {attribute x {"1"}}')

    def test_values_of_variables_are_never_read_as_queries(self) -> None:
        hostile = '") , doc("b")//* (: "'
        self.check(self.web.ask("GET", asked("$x", **{"$x": hostile}), Accept=XQUERY), 200,
                   '"' + hostile.replace('"', '""') + '"')
        self.check_refused(self.web.ask("GET", asked("1", **{"$1": "x"})), 400, "xqs:REQUEST")
        self.check_refused(self.web.ask("GET", asked("$x", **{"$x": "\x01"})), 400, "xqs:REQUEST")
        self.check_refused(self.web.ask("GET", asked("1", method="xml")), 400, "xqs:REQUEST")

    def test_a_query_of_a_document(self) -> None:
        self.web.put("b", BOOK)
        path = "/rest/b?" + urllib.parse.urlencode({"query": "//t/string() (: c :)"})
        self.check(self.web.ask("GET", path), 200, "A & B")
        posted = self.web.ask("POST", "/rest/b", "/book/@id", Content_Type=XQUERY)
        self.check(posted, 200, 'id="1"')

    def test_queries_of_bodies(self) -> None:
        body = ('<query xmlns="http://basex.org/rest"><text><![CDATA[$x, 1 < 2]]></text>'
                '<variable name="x" value="v"/><parameter name="wrap" value="no"/></query>')
        self.check(self.web.ask("POST", "/rest", body, Content_Type="application/xml"), 200,
                   "v\ntrue")
        plain = body.replace(' xmlns="http://basex.org/rest"', "")
        self.check(self.web.ask("POST", "/rest", plain, Content_Type="text/xml"), 200, "v\ntrue")
        self.check(self.web.ask("POST", "/rest", "1 + 1", Content_Type=XQUERY), 200, "2")
        for wrong, status, code in (("<run/>", 400, "xqs:REQUEST"), ("<query>", 400, "xqs:XML"),
                                    (BOMB, 400, "xqs:XML"), ("<query/>", 400, "xqs:REQUEST"),
                                    ("<query><context/></query>", 400, "xqs:REQUEST")):
            got = self.web.ask("POST", "/rest", wrong, Content_Type="application/xml")
            self.check_refused(got, status, code)
        got = self.web.ask("POST", "/rest", "query=1", Content_Type="text/plain")
        self.check_refused(got, 415, "xqs:TYPE")

    def test_refusals_have_their_statuses(self) -> None:
        for query, status, code in (
                ("1 +", 400, "XPST0003"), ("$x", 400, "XPST0008"), ("1 div 0", 400, "FOAR0001"),
                ('doc("zz")', 404, "FODC0002"), ('doc("a b")', 400, "FODC0005"),
                ("1 to 1000001", 400, "prof:RANGE"),
                ("for $x in 1 to 1000000 return \"abcdefghijklmnop\"", 413, "prof:REPLY")):
            self.check_refused(self.web.ask("GET", asked(query)), status, code)
        long = "1" + " " * 1_048_827
        self.check_refused(self.web.ask("POST", "/rest", long, Content_Type=XQUERY),
                           413, "prof:LONG")
        longer = "1" + " " * 1_100_000
        self.check_refused(self.web.ask("POST", "/rest", longer, Content_Type=XQUERY),
                           413, "xqs:LARGE")
        self.check(self.web.ask("GET", asked("1" + " " * 60_000)), 200, "1")
        self.assertEqual(self.web.ask("GET", asked("1" + " " * 70_000)).status, 400)
        self.check_refused(self.web.ask("GET", "/nothing"), 404, "xqs:HTTP")
        got = self.web.ask("PATCH", "/rest/a")
        self.check_refused(got, 405, "xqs:HTTP")
        self.assertIn("GET", got.headers["Allow"])

    def test_the_place_of_a_fault_where_the_text_tells_it(self) -> None:
        got = self.web.ask("GET", asked('let $a := 1\nreturn cout($a)', **{"$v": "x"}))
        self.check_refused(got, 400, "XPST0017")
        self.assertEqual(got.headers["Xqs-Place"], "2:8")
        self.assertIn("\nline 2, column 8: ", got.body)
        self.assertNotIn("Xqs-Place", self.web.ask("GET", asked("1 div 0")).headers)

    def test_forty_requests_at_once(self) -> None:
        results: list[str] = []

        def work(number: int) -> None:
            results.append(self.web.ask("GET", asked(f"{number} * {number}")).body)

        threads = [threading.Thread(target=work, args=(number,)) for number in range(40)]
        for thread in threads:
            thread.start()
        for thread in threads:
            thread.join(PATIENCE)
        self.assertEqual(sorted(map(int, results)), [number ** 2 for number in range(40)])


class Guard(WebTest):
    """Access."""

    def test_a_host_that_is_not_this_one_gets_nothing(self) -> None:
        port = self.web.host.rpartition(":")[2]
        for host in (f"localhost:{port}", "LOCALHOST", "[::1]:9", "127.0.0.1"):
            self.check(self.web.ask("GET", "/rest", Host=host), 200)
        for host in (f"evil.example:{port}", "127.0.0.1.evil.example", "localhost.", "x@localhost"):
            self.check_refused(self.web.ask("GET", "/rest", Host=host), 403, "xqs:HOST")
            self.check_refused(self.web.ask("GET", "/", Host=host), 403, "xqs:HOST")

    def test_an_origin_of_elsewhere_gets_nothing(self) -> None:
        own = f"http://{self.web.host}"
        self.check(self.web.put("a", BOOK, Origin=own), 201)
        for origin in ("http://evil.example", "null", "http://127.0.0.1:1", f"{own}.evil.example",
                       "file://", ""):
            self.check_refused(self.web.put("b", BOOK, Origin=origin), 403, "xqs:ORIGIN")
            self.check_refused(self.web.ask("GET", "/rest", Origin=origin), 403, "xqs:ORIGIN")
        self.check(self.web.ask("GET", "/rest", Accept=XQUERY), 200, '"a"')

    def test_a_page_of_elsewhere_that_may_ask_wants_the_token(self) -> None:
        origin, bearer = "https://app.example", f"Bearer {TOKEN}"
        with RunningWeb("--origin", origin) as web:
            self.check(web.put("a", BOOK, Origin=origin), 201)
            got = web.ask("GET", asked("count(collection())"), Origin=origin,
                          Sec_Fetch_Site="cross-site", Authorization=bearer)
            self.check(got, 200, "1")
            self.assertEqual(got.headers["Access-Control-Allow-Origin"], origin)
            self.assertIn("ETag", got.headers["Access-Control-Expose-Headers"])
            self.assertIn("Origin", got.headers["Vary"])
            for given in ("", "Bearer wrong", web.basic("xqs")):
                for method, path in (("GET", "/rest"), ("PUT", "/rest/b"), ("GET", "/")):
                    got = web.ask(method, path, BOOK, Origin=origin, Authorization=given)
                    self.check_refused(got, 401, "xqs:TOKEN")
            for other in ("https://app.example.evil", "http://app.example", "null"):
                got = web.ask("GET", "/rest", Origin=other, Authorization=bearer)
                self.check_refused(got, 403, "xqs:ORIGIN")
                self.assertNotIn("Access-Control-Allow-Origin", got.headers)

    def test_a_browser_asks_first_what_such_a_page_may_ask(self) -> None:
        origin = "https://app.example"
        first = {"Access_Control_Request_Method": "PUT", "Sec_Fetch_Site": "cross-site"}
        with RunningWeb("--origin", origin) as web:
            got = web.ask("OPTIONS", "/rest/a", Origin=origin, **first)
            self.check(got, 204)
            self.assertIn("PUT", got.headers["Access-Control-Allow-Methods"])
            self.assertIn("Authorization", got.headers["Access-Control-Allow-Headers"])
            got = web.ask("OPTIONS", "/rest/a", Origin="https://other.example", **first)
            self.check_refused(got, 403, "xqs:ORIGIN")

    def test_what_browsers_say_of_a_request(self) -> None:
        for site, status in (("same-origin", 200), ("none", 200), ("same-site", 403),
                             ("cross-site", 403)):
            self.check(self.web.ask("GET", "/rest", Sec_Fetch_Site=site), status)
        self.check(self.web.ask("GET", "/", Sec_Fetch_Site="cross-site",
                                Sec_Fetch_Mode="navigate"), 200)
        self.check(self.web.ask("GET", "/", Sec_Fetch_Site="cross-site",
                                Sec_Fetch_Mode="no-cors"), 403)

    def test_changes_want_the_token(self) -> None:
        for given in ("", "Bearer", "Bearer wrong", TOKEN, f"Basic {TOKEN}", f"Bearer {TOKEN}x"):
            for method in ("PUT", "DELETE"):
                got = self.web.ask(method, "/rest/a", BOOK, Authorization=given)
                self.check_refused(got, 401, "xqs:TOKEN")
                self.assertEqual(got.headers["WWW-Authenticate"], 'Bearer realm="xqs"')
        self.check_refused(self.web.ask("PUT", "/rest/a", BOOK), 401, "xqs:TOKEN")
        self.check(self.web.ask("PUT", "/rest/a", BOOK, Authorization=f"bearer {TOKEN}"), 201)

    def test_without_a_token_file_nothing_changes(self) -> None:
        with RunningWeb(has_token=False) as web:
            self.check_refused(web.put("a", BOOK), 403, "xqs:READONLY")
            self.check_refused(web.delete("a"), 403, "xqs:READONLY")
            self.check(web.ask("GET", "/rest", Accept=XQUERY), 200, "()")

    def test_each_answer_says_that_it_is_no_page(self) -> None:
        for path in ("/rest", "/rest/none", "/nothing", asked("1")):
            headers = self.web.ask("GET", path).headers
            self.assertIn("sandbox", headers["Content-Security-Policy"])
            self.assertEqual(headers["X-Content-Type-Options"], "nosniff")
            self.assertEqual(headers["Cross-Origin-Resource-Policy"], "same-origin")
        policy = self.web.ask("GET", "/").headers["Content-Security-Policy"]
        self.assertNotIn("unsafe", policy)
        self.assertIn("default-src 'none'", policy)


class Limits(WebTest):
    """Sizes and times."""

    words = ("--body", "100000", "--wait", "0.5", "--seconds", "3", "--names", "flat")

    def test_a_body_has_a_limit(self) -> None:
        text = f"<a>{'x' * 100_000}</a>"
        self.check_refused(self.web.put("a", text), 413, "xqs:LARGE")
        self.check_refused(self.web.put("a", iter([text.encode()])), 413, "xqs:LARGE")
        self.check(self.web.put("a", f"<a>{'x' * 90_000}</a>"), 201)

    def test_a_body_that_does_not_come_is_not_waited_for(self) -> None:
        host, _, port = self.web.host.rpartition(":")
        for method in ("PUT", "POST"):
            with socket.create_connection((host, int(port)), timeout=PATIENCE) as connection:
                connection.sendall(
                    f"{method} /rest/a HTTP/1.1\r\nHost: {self.web.host}\r\n"
                    f"Authorization: Bearer {TOKEN}\r\nContent-Length: 100\r\n\r\n<a>".encode())
                self.assertIn(b"408", connection.recv(100).split(b"\r\n")[0])
        self.check(self.web.ask("GET", "/rest", Accept=XQUERY), 200, "()")

    def test_an_answer_that_is_not_read_is_not_waited_for(self) -> None:
        host, _, port = self.web.host.rpartition(":")
        path = asked("string-join(for $x in 1 to 900000 return 'abcdefghij')")
        with socket.create_connection((host, int(port)), timeout=PATIENCE) as connection:
            connection.sendall(f"GET {path} HTTP/1.1\r\nHost: {self.web.host}\r\n\r\n".encode())
            connection.recv(1, socket.MSG_PEEK)
            time.sleep(3)
            self.assertLess(len(read_all(connection)), 9_000_000)
        got = self.web.ask("GET", path)
        self.assertEqual((got.status, len(got.body)), (200, 9_000_000))

    def test_a_slow_query_is_ended(self) -> None:
        self.check_refused(self.web.ask("GET", asked(ENDLESS)), 504, "xqs:SECONDS")
        self.check(self.web.ask("GET", asked("1")), 200, "1")
        slow = self.web.put("a", f"document {{{ENDLESS}}}", XQUERY)
        self.check_refused(slow, 502, "xqs:CLOSED")
        self.assertIn("look before you send it again", slow.body)

    def test_a_query_ends_with_its_client(self) -> None:
        with RunningWeb("--seconds", "0") as web:
            for method, path, body in (
                    ("GET", asked(ENDLESS), b""), ("POST", "/rest", ENDLESS.encode())):
                host, _, port = web.host.rpartition(":")
                head = (f"{method} {path} HTTP/1.1\r\nHost: {web.host}\r\n"
                        f"Content-Type: {XQUERY}\r\nContent-Length: {len(body)}\r\n\r\n")
                with socket.create_connection((host, int(port))) as connection:
                    connection.sendall(head.encode() + body)
                    time.sleep(1)
                begin = time.monotonic()
                self.check(web.ask("GET", asked("1")), 200, "1")
                self.assertLess(time.monotonic() - begin, 10)

    def test_memory_is_bounded_by_default(self) -> None:
        with RunningWeb() as web:
            limits = Path(f"/proc/{web.server_id()}/limits").read_text()
        self.assertNotRegex(limits, r"Max address space +unlimited")

    def test_names_are_flat_where_that_is_the_choice(self) -> None:
        text = '<p:a xmlns:p="urn:p"/>'
        self.check(self.web.put("n", text), 201)
        self.check(self.web.ask("GET", "/rest/n"), 200, text)


class Words(FolderTest):
    """Words of the command line that are refused, and names of the server."""

    def ended(self, *words: str) -> subprocess.CompletedProcess[str]:
        """Runs the command, which should end by itself."""
        command = [sys.executable, "-m", "xqs", "web", *words, "--", *server_command()]
        return subprocess.run(command, cwd=SOURCES, capture_output=True, text=True,
                              stdin=subprocess.DEVNULL, timeout=PATIENCE, check=False)

    def test_other_hosts_are_not_listened_at(self) -> None:
        for place in ("0.0.0.0:0", "example.org:80", "x"):
            ended = self.ended("--listen", place)
            self.assertEqual((place, ended.returncode), (place, 1), ended.stderr)
            self.assertNotIn("Traceback", ended.stderr)

    def test_a_token_that_others_can_read_is_refused(self) -> None:
        path = self.folder / "token"
        path.write_text("long-enough-to-be-one")
        path.chmod(0o644)
        ended = self.ended("--listen", "0", "--token-file", str(path))
        self.assertEqual(ended.returncode, 1)
        self.assertIn("others may read it", ended.stderr)

    def test_a_server_that_does_not_start_is_told(self) -> None:
        command = [sys.executable, "-m", "xqs", "web", "--listen", "0", "--", *server_command(),
                   "--file", "/nowhere/x.db"]
        ended = subprocess.run(command, cwd=SOURCES, capture_output=True, text=True,
                               timeout=PATIENCE, check=False)
        self.assertEqual(ended.returncode, 1)
        self.assertIn("cannot open the store", ended.stderr)

    def test_another_name_of_the_server(self) -> None:
        with RunningWeb("--host", "Archive.example") as web:
            for origin in ("http://archive.example", "https://archive.example"):
                got = web.ask("GET", "/rest", Host="archive.example", Origin=origin)
                self.assertEqual(got.status, 200)
            self.assertEqual(web.ask("GET", "/rest", Host="b.archive.example").status, 403)


class Ends(WebTest):
    """Servers that end, and the end of everything."""

    def test_a_killed_server_is_replaced(self) -> None:
        self.web.put("a", BOOK)
        os.kill(self.web.server_id(), signal.SIGKILL)
        self.check(self.web.ask("GET", "/rest/a"), 200, BOOK)
        answers: list[Answer] = []
        thread = threading.Thread(
            target=lambda: answers.append(self.web.ask("GET", asked(ENDLESS))))
        thread.start()
        time.sleep(0.8)
        os.kill(self.web.server_id(), signal.SIGKILL)
        thread.join(PATIENCE)
        self.check_refused(answers[0], 503, "store")
        self.assertEqual(answers[0].headers["Retry-After"], "1")

    def test_several_servers_and_their_figures(self) -> None:
        with RunningWeb(servers=3) as web:
            for number in (2, 3):
                web.wait_for(f"server {number} holds the documents")
            self.assertEqual(web.put("a", BOOK).status, 201)
            for _ in range(6):
                self.check(web.ask("GET", "/rest/a"), 200, BOOK)
            figures = web.ask("GET", "/metrics")
            self.assertEqual(figures.headers["Content-Type"].partition(";")[0], "text/plain")
            self.assertIn('xqs_server_ready{server="3",holds="memory"} 1\n', figures.body)
            self.assertIn("server 1: ready, documents in file", web.ask("GET", "/status").body)
            self.assertEqual(web.ask("GET", "/metrics", Host="evil.example").status, 403)
            web.ask("GET", asked("cuont(1)"))
            web.wait_for("refused XPST0017")

    def test_a_file_that_is_served_is_asked_there(self) -> None:
        path = self.folder / "x.db"

        def xqs(*words: str) -> int:
            return subprocess.run([sys.executable, "-m", "xqs", *words], cwd=SOURCES, timeout=60,
                                  stderr=subprocess.DEVNULL, check=False).returncode

        self.assertEqual(xqs("serve", "--servers", "1", str(path), "--", *server_command()), 0)
        self.addCleanup(xqs, "stop", str(path))
        with RunningWeb("--file", str(path), place="/bin/false") as web:
            self.check(web.put("a", BOOK), 201)
            self.check(web.ask("GET", "/rest/a"), 200, BOOK)

    def test_it_stands_before_a_multiplexer(self) -> None:
        with RunningMux() as mux, RunningWeb(place=mux.place) as web:
            self.assertIn("xqs_clients ", web.ask("GET", "/metrics").body)
            self.check(web.put("a", BOOK), 201)
            self.check(web.ask("GET", "/rest/a"), 200, BOOK)
            self.assertEqual(mux.terminate(), 0)
            self.check_refused(web.ask("GET", "/rest/a"), 503, "xqs:SERVER")
            self.check_refused(web.delete("a"), 503, "xqs:SERVER")
            self.assertEqual(web.terminate(), 0)

    def test_read_only_holds_for_the_token_too(self) -> None:
        with RunningWeb("--read-only") as web:
            self.check_refused(web.put("a", BOOK), 403, "xqs:READONLY")
            self.check_refused(web.delete("a"), 403, "xqs:READONLY")

    def test_a_second_signal_ends_at_once(self) -> None:
        with RunningWeb() as web:
            answers: list[Answer] = []
            thread = threading.Thread(target=lambda: answers.append(web.ask("GET", asked(ENDLESS))))
            thread.start()
            time.sleep(0.5)
            web.process.terminate()
            time.sleep(0.3)
            self.assertIsNone(web.process.poll())
            self.assertEqual(web.terminate(), 0)
            thread.join(PATIENCE)
            self.check_refused(answers[0], 503, "xqs:CLOSED")

    def test_sigterm_ends_it_after_the_answers(self) -> None:
        with RunningWeb() as web:
            answers: list[Answer] = []
            query = asked("count((1 to 1000000)[. mod 2 = 0])")
            thread = threading.Thread(target=lambda: answers.append(web.ask("GET", query)))
            thread.start()
            time.sleep(0.2)
            self.assertEqual(web.terminate(), 0)
            thread.join(PATIENCE)
            self.check(answers[0], 200, "500000")


del FolderTest, WebTest

if __name__ == "__main__":
    unittest.main()
