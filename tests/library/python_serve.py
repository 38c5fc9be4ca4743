#!/usr/bin/env python3
"""Tests whom the server of tools/view answers and whom not, how it begins and ends, and the page that it saves as one file.

    python_serve.py [TEST]...

The library is found as the package finds it."""

import base64
import contextlib
import gzip
import http.client
import json
import os
import re
import resource
import signal
import socket
import struct
import subprocess
import sys
import tempfile
import threading
import time
import unittest
import urllib.parse

# Nothing is written beside the sources.
sys.dont_write_bytecode = True

HERE = os.path.dirname(os.path.realpath(__file__))
PYTHON = os.path.realpath(os.path.join(HERE, "..", "..", "python"))
TOOL = os.path.realpath(os.path.join(HERE, "..", "..", "tools", "view"))
EXAMPLES = os.path.realpath(os.path.join(HERE, "..", "..", "examples"))
PAGE = os.path.join(PYTHON, "histdesk", "view", "page")
TRACE = os.path.join(EXAMPLES, "recipes.trace")
sys.path[:0] = [PYTHON, HERE, os.path.join(HERE, "..", "model")]

import copies
import plain_waits
import recordings
from python_runner import main

FILTER = {"recording": 0, "event": "sched_waking", "text": "pid > 100", "strikes": []}
WAIT = {"recording": 0, "cpu": 0, "line": 24, "strikes": []}
# How many seconds anything may take at most.
LIMIT = 60
# How many events a desk holds.
DESK = 1048576


def environment():
    """Return the environment that the tool needs, in which no browser opens."""
    return {name: value for name, value in os.environ.items() if name not in ("BROWSER", "DISPLAY", "WAYLAND_DISPLAY")}


def tool(*words, **named):
    """Run the tool to its end."""
    words = [sys.executable, TOOL, *words]
    return subprocess.run(words, capture_output=True, check=False, timeout=LIMIT, env=environment(), **named)


class Running:
    """The tool, while it runs, and its address."""

    def __init__(self, *words, **named):
        self.process = subprocess.Popen(
            [sys.executable, TOOL, *words], stdout=subprocess.PIPE, stderr=subprocess.PIPE, **{"env": environment(), **named}
        )
        self.address = self.process.stdout.readline().decode().strip()
        found = re.fullmatch(r"http://(127\.0\.0\.1:([0-9]+))/([A-Za-z0-9_-]{22})/", self.address)
        if not found:
            raise AssertionError(f"{self.address!r}: {self.end()}")
        self.host, self.port, self.token = found[1], int(found[2]), found[3]

    def end(self, number=signal.SIGINT):
        """End the tool by a signal; return its status, and what it printed since."""
        self.process.send_signal(number)
        out, err = self.process.communicate(timeout=LIMIT)
        return self.process.returncode, out, err

    def ask(self, method, path, body=None, **headers):
        """The status, the headers and the body of an answer. Headers have `_` for `-`; None leaves one out."""
        connection = http.client.HTTPConnection("127.0.0.1", self.port, timeout=LIMIT)
        with contextlib.closing(connection):
            connection.putrequest(method, path, skip_host=True, skip_accept_encoding=True)
            content = body if body is None or isinstance(body, bytes) else json.dumps(body).encode()
            known = {"Host": self.host, "Content_Length": None if content is None else str(len(content)), **headers}
            for name, values in known.items():
                for value in [] if values is None else values if isinstance(values, list) else [values]:
                    connection.putheader(name.replace("_", "-"), value)
            connection.endheaders()
            if content is not None:
                connection.send(content)
            answer = connection.getresponse()
            return answer.status, answer.headers, answer.read()

    def get(self, path, **headers):
        return self.ask("GET", f"/{self.token}/{path}", **headers)

    def post(self, path, body, **headers):
        return self.ask("POST", f"/{self.token}/{path}", body, **headers)

    def error(self, *asked, **headers):
        """The status and the words of a refusal."""
        status, _, body = self.ask(*asked, **headers)
        return status, json.loads(body)["error"]

    def raw(self, content):
        """All that is sent back for some bytes."""
        with socket.create_connection(("127.0.0.1", self.port), timeout=LIMIT) as connection:
            connection.sendall(content)
            connection.shutdown(socket.SHUT_WR)
            return b"".join(iter(lambda: connection.recv(65536), b""))


class Asked(unittest.TestCase):
    """One server, which all of these ask."""

    @classmethod
    def setUpClass(cls):
        cls.running = Running(TRACE, "--no-browser")

    @classmethod
    def tearDownClass(cls):
        status, out, err = cls.running.end()
        # The tool prints nothing about requests, and Ctrl-C ends it without a word.
        assert (status, out, err) == (-signal.SIGINT, b"", b""), (status, out, err)


class Who(Asked):
    """Who is answered."""

    def test_token(self):
        token = self.running.token
        for path in (
            "/",
            "",
            f"/{token[:-1]}/",
            f"/{token}x/",
            f"/x/{token}/",
            f"/{token.swapcase()}/about",
            "/about",
        ):
            for method in ("GET", "POST", "PUT"):
                told = self.running.error(method, path or "*", b"{}" if method == "POST" else None)
                self.assertEqual(told, (404, "there is nothing here"), path)
        # Nobody is told more for knowing the host, or less for not knowing it.
        self.assertEqual(self.running.error("GET", "/", Host="evil.example")[0], 404)
        other = Running(TRACE, "--no-browser")
        self.assertNotEqual(other.token, token)
        self.assertEqual(other.error("GET", f"/{token}/about"), (404, "there is nothing here"))
        other.end()

    def test_absolute(self):
        self.assertEqual(self.running.error("GET", f"http://{self.running.host}/{self.running.token}/about")[0], 404)

    def test_hosts(self):
        port, path = self.running.port, f"/{self.running.token}/about"
        for host in (f"127.0.0.1:{port}", f"localhost:{port}"):
            self.assertEqual(self.running.get("about", Host=host)[0], 200)
        wrong = (
            "evil.example",
            f"evil.example:{port}",
            "127.0.0.1",
            "localhost",
            f"127.0.0.1:{port + 1}",
            "",
            f"0.0.0.0:{port}",
        )
        for host in (*wrong, f"127.0.0.1:{port}.evil.example", None, [f"127.0.0.1:{port}", "evil.example"]):
            self.assertEqual(
                self.running.error("GET", path, Host=host), (403, "asked by another name, or from another page"), host
            )
            body = json.dumps(FILTER).encode()
            self.assertEqual(self.running.error("POST", f"/{self.running.token}/filter", body, Host=host)[0], 403)

    def test_origins(self):
        port = self.running.port
        for origin in (f"http://127.0.0.1:{port}", f"http://localhost:{port}"):
            self.assertEqual(self.running.post("filter", FILTER, Origin=origin)[0], 200)
        wrong = (
            "null",
            "",
            f"https://127.0.0.1:{port}",
            "http://127.0.0.1",
            f"http://127.0.0.1:{port}/",
            "http://evil.example",
        )
        for origin in (*wrong, [f"http://127.0.0.1:{port}", "http://evil.example"]):
            for ask in (
                lambda: self.running.post("filter", FILTER, Origin=origin),
                lambda: self.running.get("", Origin=origin),
            ):
                status, _, body = ask()
                self.assertEqual((status, json.loads(body)), (403, {"error": "asked by another name, or from another page"}))

    def test_only_here(self):
        """It listens only on this machine."""
        for family, address in ((socket.AF_INET, "127.0.0.2"), (socket.AF_INET6, "::1")):
            with self.assertRaises(OSError), socket.socket(family) as other:
                other.settimeout(5)
                other.connect((address, self.running.port))

    def test_methods(self):
        for method in ("PUT", "DELETE", "OPTIONS", "PATCH", "TRACE", "get"):
            self.assertEqual(
                self.running.error(method, f"/{self.running.token}/about"), (405, "only GET and POST are answered")
            )
        status, headers, body = self.running.ask("HEAD", f"/{self.running.token}/about")
        self.assertEqual((status, body), (405, b""))


class What(Asked):
    """What is answered."""

    def test_files(self):
        for name in os.listdir(PAGE):
            status, headers, body = self.running.get(name)
            with open(os.path.join(PAGE, name), "rb") as file:
                self.assertEqual((status, body), (200, file.read()))
            kind = {".html": "text/html", ".css": "text/css", ".js": "text/javascript"}[os.path.splitext(name)[1]]
            self.assertEqual(headers["Content-Type"], f"{kind}; charset=utf-8")
        self.assertEqual(self.running.get("")[2], self.running.get("page.html")[2])
        for path in (
            "no.js",
            "../_serve.py",
            "..%2f_serve.py",
            "../page/page.html",
            "page.html/",
            "page",
            "/page.html",
            "%00.js",
            "?x",
        ):
            self.assertIn(self.running.get(path)[0], (200,) if path == "?x" else (404,), path)

    def test_headers(self):
        answers = [self.running.get(path) for path in ("", "about", "waits.bin?recording=0", "none")]
        answers += [self.running.post("filter", FILTER), self.running.ask("GET", "/"), self.running.post("filter", b"")]
        for _, headers, body in answers:
            self.assertEqual(headers["Cache-Control"], "no-store")
            self.assertTrue(headers["Content-Security-Policy"].startswith("default-src 'self'"))
            self.assertEqual((headers["X-Content-Type-Options"], headers["Referrer-Policy"]), ("nosniff", "no-referrer"))
            self.assertEqual(headers["Cross-Origin-Resource-Policy"], "same-origin")
            self.assertEqual(headers["Content-Length"], str(len(body)))
            self.assertIsNone(headers["Access-Control-Allow-Origin"])

    def test_answers(self):
        about = json.loads(self.running.get("about")[2])
        self.assertEqual([one["waits"] for one in about["recordings"]], [111])
        self.assertEqual((about["command"], about["recordings"][0]["path"]), (f"tools/view {TRACE}", TRACE))
        status, headers, body = self.running.get("waits.bin?recording=0")
        self.assertEqual((status, headers["Content-Type"]), (200, "application/octet-stream"))
        # 111 rows, each column filled up to eight bytes.
        self.assertEqual(len(body), 8 * 111 + 6 * (4 * 111 + 4) + 2 * (2 * 111 + 2) + 2 * (111 + 1))
        # The values are those of examples/recipes.trace.
        asks = {
            "filter": (FILTER, {"count": 59}),
            "trigger": ({**FILTER, "text": "hist:keys=pid"}, {"totals": {"hits": 68, "entries": 14, "dropped": 0}}),
            "wait": (WAIT, {"task": "wrk", "pid": 24653, "begin": 1404968458, "end": 1404968766}),
            "strike": ({"strikes": [{"event": "sched_waking", "text": "common_pid == 24659"}]}, {"struck": [6]}),
            "script": (
                {"recording": 0, "event": "sched_waking", "filter": "pid > 1", "trigger": "hist:keys=pid", "strikes": []},
                {"command": f"./histdesk view.script {TRACE}"},
            ),
        }
        for path, (asked, wanted) in asks.items():
            status, headers, body = self.running.post(path, asked)
            answer = json.loads(body.decode("ascii"))
            self.assertEqual((status, headers["Content-Type"]), (200, "application/json"))
            self.assertEqual({name: answer.get(name) for name in wanted}, wanted)
        self.assertEqual(json.loads(self.running.post("strike", {"strikes": []})[2])["rows"], [])
        answer = json.loads(self.running.post("wait", {**WAIT, "from": 1404968400, "until": 1404968800})[2])
        self.assertEqual((answer["from"], answer["until"]), (1404968400, 1404968800))

    def test_strikes_are_those_of_the_question(self):
        """Whoever asks is answered without the events that the question names, whatever others have asked for. The figures are
        those of examples/recipes.trace, as histwatch prints them for recipe 11 of docs/GUIDE.md, and counts of its lines."""
        by_irq = [{"event": "sched_waking", "text": "common_pid == 24659"}]
        to_task = [{"event": "sched_switch", "text": "next_pid == 24650"}]
        hits = {"sched_waking": {0: 68, 1: 62, 2: 68}, "sched_switch": {0: 116, 1: 116, 2: 103}}
        for _ in range(2):
            for at, strikes in enumerate(([], by_irq, to_task)):
                self.running.post("strike", {"strikes": strikes})
                for other, carried in enumerate(([], by_irq, to_task)):
                    for event, counts in hits.items():
                        key = "next_pid" if event == "sched_switch" else "pid"
                        asked = {"recording": 0, "event": event, "text": f"hist:keys={key}", "strikes": carried}
                        answer = json.loads(self.running.post("trigger", asked)[2])
                        self.assertEqual(answer["totals"]["hits"], counts[other], (at, other, event))
                    answer = json.loads(self.running.post("filter", {**FILTER, "strikes": carried})[2])
                    self.assertEqual((answer["count"], "new" in answer), (59, bool(carried)))

    def test_refused(self):
        """What the desk refuses is answered."""
        answers = [
            ("filter", {**FILTER, "text": "pid >> 1"}, "the filter can't be read: unexpected token", 5),
            ("filter", {**FILTER, "event": "none"}, "there is no such command or event", None),
            ("wait", {**WAIT, "line": 10**9}, None, None),
            ("wait", {**WAIT, "cpu": 2**40}, None, None),
        ]
        for path, asked, words, at in answers:
            status, _, body = self.running.post(path, asked)
            answer = json.loads(body)
            self.assertEqual((status, answer["at"], answer["refused"]), (200, at, words or answer["refused"]))
        status, _, body = self.running.post("strike", {"strikes": [{"event": "sched_waking", "text": "pid >"}]})
        self.assertEqual((status, json.loads(body)["strike"]), (200, 0))

    def test_malformed(self):
        """Questions of another form are refused with a reason, and the page sees no traceback."""
        deep = b"[" * 60000
        bodies = [
            (b"", "the body isn't JSON"),
            (b"{", "the body isn't JSON"),
            (b"\xff\xfe", "the body isn't JSON"),
            (deep, "the body isn't JSON"),
            (b"[]", "the body is no object"),
            (b"null", "the body is no object"),
            (b"{}", "recording is missing, or of another type"),
            ({**FILTER, "recording": True}, "recording is missing, or of another type"),
            ({**FILTER, "recording": 0.0}, "recording is missing, or of another type"),
            ({**FILTER, "recording": "0"}, "recording is missing, or of another type"),
            ({**FILTER, "text": None}, "text is missing, or of another type"),
            ({**FILTER, "event": ["sched_waking"]}, "event is missing, or of another type"),
            ({**FILTER, "more": 1}, "there is no more"),
            ({**FILTER, "recording": 1}, "there is no recording 1"),
            ({**FILTER, "recording": -1}, "there is no recording -1"),
            ({**FILTER, "recording": 10**30}, f"there is no recording {10**30}"),
        ]
        for body, words in bodies:
            self.assertEqual(self.running.error("POST", f"/{self.running.token}/filter", *[body]), (400, words), body)
        lone = json.dumps({**FILTER, "text": "\ud800"}).encode()
        self.assertEqual(self.running.error("POST", f"/{self.running.token}/filter", lone)[0], 400)
        questions = {
            "strike": {},
            "filter": FILTER,
            "trigger": {**FILTER, "text": "hist:keys=pid"},
            "wait": WAIT,
            "script": {"recording": 0, "event": "sched_waking", "filter": "", "trigger": ""},
        }
        for name, asked in questions.items():
            ask = lambda strikes: self.running.error("POST", f"/{self.running.token}/{name}", {**asked, "strikes": strikes})
            for strikes in (
                [1],
                [{}],
                [{"event": "sched_waking"}],
                [{"event": 1, "text": ""}],
                [{"event": "a", "text": "", "x": ""}],
            ):
                self.assertEqual(ask(strikes), (400, "a strike is an event and a text"))
            self.assertEqual(ask([{"event": "other", "text": ""}])[0], 400)
            self.assertEqual(ask(None), (400, "strikes is missing, or of another type"))
        window = {**WAIT, "from": 5, "until": 5}
        self.assertEqual(self.running.error("POST", f"/{self.running.token}/wait", window), (400, "until must be after from"))
        for query in ("", "?", "?recording=x", "?recording", "?recording=0&more=1", "?recording=7", "?recording=" + "1" * 5000):
            self.assertEqual(self.running.get(f"waits.bin{query}")[0], 400, query)
        self.assertEqual(self.running.get("about?x=1")[0], 400)
        self.assertEqual(self.running.post("about", {})[0], 404)
        self.assertEqual(self.running.get("filter")[0], 404)

    def test_bodies(self):
        path = f"/{self.running.token}/filter"
        for headers, told in (
            ({"Content_Length": None}, (411, "a body has to say its length")),
            ({"Content_Length": None, "Transfer_Encoding": "chunked"}, (411, "a body has to say its length")),
            ({"Content_Length": "2", "Transfer_Encoding": "chunked"}, (411, "a body has to say its length")),
            ({"Content_Length": "two"}, (400, "the length of the body is no number")),
            ({"Content_Length": "-1"}, (400, "the length of the body is no number")),
            ({"Content_Length": "\u00b2".encode("latin-1")}, (400, "the length of the body is no number")),
            ({"Content_Length": "65537"}, (413, "a body has at most 65536 bytes")),
            ({"Content_Length": "9" * 40}, (413, "a body has at most 65536 bytes")),
        ):
            self.assertEqual(self.running.error("POST", path, **headers), told)
        # This body is exactly as long as it may be.
        body = json.dumps(FILTER).encode()
        self.assertEqual(self.running.post("filter", body + b" " * (65536 - len(body)))[0], 200)

    def test_no_http(self):
        first = f"GET /{self.running.token}/about".encode()
        host = f"Host: {self.running.host}\r\n".encode()
        for content, status in (
            (b"GARBAGE\r\n\r\n", b"400"),
            (b"\x16\x03\x01\x02\x00\x01\r\n\r\n", b"400"),
            (first + b" HTTP/x.y\r\n\r\n", b"400"),
            (first + b" HTTP/3.0\r\n\r\n", b"505"),
            (b"GET /" + b"a" * 70000 + b" HTTP/1.1\r\n\r\n", b"414"),
            (first + b" HTTP/1.1\r\n" + b"".join(b"X-%d: 1\r\n" % at for at in range(200)) + b"\r\n", b"431"),
            (first + b" HTTP/1.1\r\n\r\n", b"403"),
            (first + b" HTTP/1.0\r\n" + host + b"\r\n", b"200"),
        ):
            answer = self.running.raw(content)
            self.assertEqual(answer.split()[1:2], [status], content[:40])
            self.assertNotIn(b"Traceback", answer)
            self.assertIn(b"application/json", answer)
        for content in (b"", b"\r\n", b"GET"):
            self.assertNotIn(b"Traceback", self.running.raw(content))

    def test_closed(self):
        """Whoever has gone before the answer came disturbs nobody."""
        body = json.dumps({**FILTER, "text": "pid > 5"}).encode()
        head = f"POST /{self.running.token}/filter HTTP/1.1\r\nHost: {self.running.host}\r\nContent-Length: {len(body)}\r\n\r\n"
        for content in (head.encode() + body, head.encode() + body[:-3], head.encode()[:30], b"GET / HTTP/1.1\r\n"):
            for _ in range(20):
                with socket.create_connection(("127.0.0.1", self.running.port)) as connection:
                    # The connection is closed by a reset.
                    connection.setsockopt(socket.SOL_SOCKET, socket.SO_LINGER, b"\1\0\0\0\0\0\0\0")
                    connection.sendall(content)
        # A connection that says nothing holds nobody up.
        with socket.create_connection(("127.0.0.1", self.running.port)):
            self.assertEqual(self.running.post("filter", FILTER)[0], 200)

    def test_body_of_get(self):
        """A body that nobody asked for isn't taken for the next request."""
        inner = f"GET /{self.running.token}/about HTTP/1.1\r\nHost: {self.running.host}\r\n\r\n".encode()
        outer = inner[:-2] + f"Content-Length: {len(inner)}\r\n\r\n".encode()
        self.assertEqual(self.running.raw(outer + inner).count(b"HTTP/1.1 "), 1)

    def test_kept(self):
        """Several requests by one connection, also one after the other without waiting."""
        path = f"/{self.running.token}/"
        connection = http.client.HTTPConnection("127.0.0.1", self.running.port, timeout=LIMIT)
        with contextlib.closing(connection):
            for _ in range(5):
                connection.request("POST", path + "filter", json.dumps(FILTER))
                first = connection.sock
                self.assertEqual(json.loads(connection.getresponse().read())["count"], 59)
                self.assertIs(connection.sock, first)
                connection.request("GET", path + "none")
                self.assertEqual(connection.getresponse().read(), b'{"error":"there is nothing here"}')
        one = f"GET {path}about HTTP/1.1\r\nHost: {self.running.host}\r\n\r\n".encode()
        self.assertEqual(self.running.raw(3 * one).count(b"HTTP/1.1 200 "), 3)

    def test_at_once(self):
        """Answers to many questions at once are those to each one."""
        wanted = {
            text: self.running.post("filter", {**FILTER, "text": text})[2] for text in ("pid > 5", "pid < 60", "pid & 1", "")
        }
        wrong = []

        def ask(text):
            for _ in range(15):
                if self.running.post("filter", {**FILTER, "text": text})[2] != wanted[text]:
                    wrong.append(text)

        threads = [threading.Thread(target=ask, args=[text]) for text in wanted for _ in range(2)]
        for thread in threads:
            thread.start()
        for thread in threads:
            thread.join(LIMIT)
        self.assertEqual(wrong, [])


class Ends(unittest.TestCase):
    """How it begins and ends."""

    def test_ctrl_c(self):
        for pause in (0, 0.3):
            running = Running(TRACE, "--no-browser")
            time.sleep(pause)
            self.assertEqual(running.end(), (-signal.SIGINT, b"", b""))

    def test_ctrl_c_meanwhile(self):
        """Ctrl-C ends it while a connection is open that sends nothing."""
        running = Running(TRACE, "--no-browser")
        with socket.create_connection(("127.0.0.1", running.port)):
            running.post("filter", FILTER)
            self.assertEqual(running.end(), (-signal.SIGINT, b"", b""))

    def test_port(self):
        with socket.create_server(("127.0.0.1", 0)) as other:
            port = other.getsockname()[1]
            ended = tool(TRACE, "--no-browser", "--port", str(port))
        self.assertEqual((ended.returncode, ended.stdout), (2, b""))
        self.assertEqual(
            ended.stderr.decode(), f"view: port {port}: Address already in use; without --port it is one that is free\n"
        )
        running = Running(TRACE, "--no-browser", "--port", str(port))
        self.assertEqual(running.port, port)
        running.end()
        # The same port can be used again at once.
        running = Running(TRACE, "--no-browser", "--port", str(port))
        running.end()

    def test_words(self):
        for words, told in (
            (["--port", "x", TRACE], "view: argument --port: x is not a port such as 8000; --help says more\n"),
            (["--port", "65536", TRACE], "view: argument --port: 65536 is not a port such as 8000; --help says more\n"),
            (["none.trace"], "view: none.trace: No such file or directory\n"),
            ([os.path.join(EXAMPLES, "torn.trace")], None),
            ([TRACE, "none.trace"], "view: none.trace: No such file or directory\n"),
            ([TRACE, TRACE, TRACE], None),
            ([], None),
            (["--cpu", "0", TRACE], None),
        ):
            ended = tool(*words, "--no-browser")
            self.assertEqual((ended.returncode, ended.stdout), (2, b""))
            self.assertTrue(ended.stderr.startswith(b"view: "), ended.stderr)
            self.assertNotIn(b"Traceback", ended.stderr)
            if told is not None:
                self.assertEqual(ended.stderr.decode(), told)

    def test_options(self):
        """Options that choose events; two recordings; standard input."""
        other = os.path.join(EXAMPLES, "..", "examples", "recipes.trace")
        running = Running("--from", "1404.968", TRACE, other, "--no-browser")
        recordings_told = json.loads(running.get("about")[2])["recordings"]
        self.assertEqual([one["path"] for one in recordings_told], [TRACE, other])
        self.assertGreaterEqual(recordings_told[0]["first"], 1404968000)
        self.assertEqual(running.end(), (-signal.SIGINT, b"", b""))
        with open(TRACE, "rb") as file:
            running = Running("-", "--no-browser", stdin=file)
        about = json.loads(running.get("about")[2])
        self.assertEqual((about["recordings"][0]["path"], about["recordings"][0]["waits"]), ("-", 111))
        running.end()
        running = Running("--lenient", os.path.join(EXAMPLES, "torn.trace"), "--no-browser")
        self.assertIn("can't be read and is left out", json.loads(running.get("about")[2])["recordings"][0]["remarks"][0])
        self.assertIn(b"can't be read and is left out", running.end()[2])

    def browser(self, then=""):
        """Return an environment with a browser, a script that writes down what it is asked to open and goes on with a command,
        and the file that it writes."""
        folder = tempfile.TemporaryDirectory()
        self.addCleanup(folder.cleanup)
        path, told = os.path.join(folder.name, "browser"), os.path.join(folder.name, "told")
        with open(path, "w", encoding="utf-8") as file:
            file.write(f'#!/bin/sh\necho "$@" >>{told}\n{then}\n')
        os.chmod(path, 0o755)
        # The files that lead to an address are made here.
        return {**environment(), "BROWSER": path, "XDG_RUNTIME_DIR": folder.name, "HOME": folder.name}, told

    def asked(self, told):
        """Wait until a browser has been started, and return what it is asked to open."""
        for _ in range(10 * LIMIT):
            if os.path.exists(told) and os.path.getsize(told):
                with open(told, encoding="utf-8") as file:
                    return file.read()
            time.sleep(0.1)
        raise AssertionError("no browser was opened")

    def opened(self, told):
        """Return the file that a browser has been asked to open."""
        content = self.asked(told)
        found = urllib.parse.urlparse(content.strip())
        self.assertEqual((found.scheme, found.netloc, content.count("\n")), ("file", "", 1), content)
        return urllib.parse.unquote(found.path)

    def test_browser(self):
        """A browser is opened if there is a desktop, or if one is named; and --no-browser opens none."""
        env, told = self.browser()
        running = Running(TRACE, env=env)
        with open(self.opened(told), encoding="utf-8") as file:
            page = file.read()
        self.assertEqual(re.findall('url=([^"]*)"', page), [running.address])
        self.assertEqual(set(re.findall("http:[^\"'<>]*", page)), {running.address})
        running.end()
        os.unlink(told)
        for words, env in ((["--no-browser"], env), ([], environment())):
            running = Running(TRACE, *words, env=env)
            running.get("about")
            running.end()
            self.assertFalse(os.path.exists(told))

    def test_address_is_secret(self):
        """No other user sees the address: it stands in no command line, and in a file that only this user can read. However the
        tool ends, the file is gone."""
        for number in (signal.SIGINT, signal.SIGTERM, signal.SIGHUP):
            # The browser stays, and stops there.
            env, told = self.browser("exec >/dev/null 2>&1; kill -STOP $$")
            running = Running(TRACE, env=env)
            asked, lines = self.asked(told), command_lines()
            browsers = [pid for pid, line in lines.items() if line.endswith(f"\0{asked.strip()}\0".encode())]
            self.assertEqual(len(browsers), 1)
            self.addCleanup(os.kill, browsers[0], signal.SIGKILL)
            self.assertEqual([line for line in lines.values() if running.token.encode() in line], [])
            path = self.opened(told)
            for place, mode in ((path, 0o600), (os.path.dirname(path), 0o700)):
                self.assertEqual((os.stat(place).st_mode & 0o777, os.stat(place).st_uid), (mode, os.getuid()))
            self.assertEqual(running.end(number), (-number, b"", b""))
            self.assertFalse(os.path.exists(os.path.dirname(path)))

    def test_folders_of_the_file(self):
        """Without a folder for the time of the login, the file is in that for temporary files; if there are snaps, it is in the
        home folder. If none can be written, no browser is opened, and the page is served all the same."""
        env, told = self.browser()
        folder = os.path.dirname(told)
        del env["XDG_RUNTIME_DIR"]
        for changes, wanted in (
            ({"TMPDIR": "a"}, "a"),
            ({"TMPDIR": "a", "XDG_RUNTIME_DIR": "none"}, "a"),
            ({"TMPDIR": "a", "XDG_RUNTIME_DIR": "b"}, "b"),
            ({"TMPDIR": "a", "XDG_RUNTIME_DIR": "b", "HOME": "c"}, "c"),
        ):
            places = {name: os.path.join(folder, place) for name, place in changes.items()}
            for place in ("a", "b", os.path.join("c", "snap")):
                os.makedirs(os.path.join(folder, place), exist_ok=True)
            running = Running(TRACE, env={**env, **places})
            self.assertEqual(os.path.dirname(os.path.dirname(self.opened(told))), os.path.join(folder, wanted))
            running.end()
            self.assertEqual(os.listdir(os.path.join(folder, "a")) + os.listdir(os.path.join(folder, "b")), [])
            os.unlink(told)
        limit = lambda: resource.setrlimit(resource.RLIMIT_FSIZE, (0, 0))
        running = Running(TRACE, env={**env, "XDG_RUNTIME_DIR": os.path.join(folder, "b")}, preexec_fn=limit)
        self.assertEqual(running.get("about")[0], 200)
        status, out, err = running.end()
        self.assertEqual((status, out), (-signal.SIGINT, b""))
        self.assertRegex(err.decode(), r"\Aview: no browser is opened, since .*: File too large\n\Z")
        self.assertEqual((os.path.exists(told), os.listdir(os.path.join(folder, "b"))), (False, []))


def command_lines():
    """Return the command lines of all processes, by their numbers."""
    found = {}
    for name in filter(str.isdigit, os.listdir("/proc")):
        with contextlib.suppress(OSError), open(f"/proc/{name}/cmdline", "rb") as file:
            found[int(name)] = file.read()
    return found


def saved_data(page):
    """The data in a saved page."""
    return json.loads(re.search('<script type="application/json" id="saved">([^<]*)</script>', page)[1])


class Saved(unittest.TestCase):
    """The page as one file."""

    def setUp(self):
        self.folder = tempfile.TemporaryDirectory()
        self.addCleanup(self.folder.cleanup)
        self.path = os.path.join(self.folder.name, "my page.html")

    def content(self):
        with open(self.path, encoding="utf-8") as file:
            return file.read()

    def test_saved(self):
        before = os.path.join(EXAMPLES, "recipes-before.trace")
        ended = tool(TRACE, before, "--save", self.path)
        self.assertEqual((ended.returncode, ended.stdout, ended.stderr), (0, b"", b""))
        page = self.content()
        # Nothing else is needed.
        self.assertEqual(re.findall(r'<(?:script|link|img)[^>]*(?:src|href)=(?!"data:)[^>]*>', page), [])
        modules = json.loads(re.search('<script type="importmap">([^<]*)</script>', page)[1])["imports"]
        for name in os.listdir(PAGE):
            with open(os.path.join(PAGE, name), encoding="utf-8") as file:
                text = file.read()
            if name.endswith(".css"):
                self.assertIn(text, page)
            elif name.endswith(".js"):
                wanted = re.sub(r' from "\./', ' from "', text)
                self.assertEqual(urllib.parse.unquote(modules[name].partition(",")[2]), wanted)
        data = saved_data(page)
        running = Running(TRACE, before, "--no-browser")
        for name in ("about", "differences"):
            self.assertEqual(data[name], json.loads(running.get(name)[2]))
        for at, waits in enumerate(data["waits"]):
            self.assertEqual(gzip.decompress(base64.b64decode(waits)), running.get(f"waits.bin?recording={at}")[2])
        for at, packed in enumerate(data["scenes"]):
            scenes = json.loads(gzip.decompress(base64.b64decode(packed)))
            self.assertEqual(len(scenes), data["about"]["recordings"][at]["waits"])
            for place in list(scenes)[:5]:
                cpu, line = map(int, place.split(":"))
                asked = {"recording": at, "cpu": cpu, "line": line, "strikes": []}
                self.assertEqual(scenes[place], json.loads(running.post("wait", asked)[2]))
        self.assertEqual((data["packed"], sorted(data["script"])), (True, ["command", "of", "script"]))
        running.end()

    def test_same(self):
        """The same arguments write the same bytes, over what was there, and the file has the mode of other files."""
        old = os.umask(0o022)
        try:
            tool(TRACE, "--save", self.path)
            first = self.content()
            self.assertEqual(os.stat(self.path).st_mode & 0o777, 0o644)
            tool(TRACE, "--save", self.path)
        finally:
            os.umask(old)
        self.assertEqual(self.content(), first)
        self.assertEqual(os.listdir(self.folder.name), ["my page.html"])

    def test_odd_names(self):
        """Names can't end the script, or the page."""
        trace = os.path.join(self.folder.name, "</script><b>.trace".replace("/", "\u2215"))
        lines = [
            recordings.waking(0, 1000, 7, name="</script>", target=1),
            recordings.switch(1, 1009, "<idle>-0", "</script>-7", state="R"),
            recordings.waking(0, 1020, 8, name="bad\udcff", target=1),
            recordings.switch(1, 1029, "</script>-7", "bad\udcff-8", state="S"),
        ]
        with open(trace, "wb") as file:
            file.write(recordings.text_of(lines))
        ended = tool(trace, "--save", self.path)
        self.assertEqual((ended.returncode, ended.stderr), (0, b""))
        data = saved_data(self.content())
        self.assertLessEqual({"</script>", "bad\udcff"}, set(data["about"]["recordings"][0]["tasks"]))

    def test_no_room(self):
        """If the page can't be written, one line says so, and nothing is left of it."""
        limit = lambda: resource.setrlimit(resource.RLIMIT_FSIZE, (10000, 10000))
        with open(self.path, "w", encoding="utf-8") as file:
            file.write("before")
        ended = tool(TRACE, "--save", self.path, preexec_fn=limit)
        self.assertEqual(
            (ended.returncode, ended.stdout, ended.stderr.decode()), (2, b"", f"view: {self.path}: File too large\n")
        )
        self.assertEqual((self.content(), os.listdir(self.folder.name)), ("before", ["my page.html"]))
        ended = tool(TRACE, "--save", "/dev/full")
        self.assertEqual((ended.returncode, ended.stderr), (2, b"view: /dev/full: No space left on device\n"))
        none = os.path.join(self.folder.name, "none", "page.html")
        ended = tool(TRACE, "--save", none)
        self.assertEqual((ended.returncode, ended.stderr.decode()), (2, f"view: {none}: No such file or directory\n"))
        ended = tool(TRACE, "--save", self.folder.name)
        self.assertEqual((ended.returncode, ended.stderr.decode()), (2, f"view: {self.folder.name}: Is a directory\n"))

    def test_pipe(self):
        ended = tool(TRACE, "--save", "/dev/stdout")
        self.assertEqual((ended.returncode, ended.stderr), (0, b""))
        tool(TRACE, "--save", self.path)
        self.assertEqual(ended.stdout.decode(), self.content())


class Long(unittest.TestCase):
    """A recording of more events than a desk holds, by the server and as a saved page."""

    @classmethod
    def setUpClass(cls):
        cls.folder = tempfile.TemporaryDirectory()
        cls.addClassCleanup(cls.folder.cleanup)
        made = copies.Copies(recordings.simulated(6, 400).text)
        count = DESK // len(made.lines) + 20
        cls.trace, cls.page = (os.path.join(cls.folder.name, name) for name in ("long.trace", "long.html"))
        with open(cls.trace, "wb") as file:
            file.write(made.text(count))
        cls.waits, cls.left = (
            made.waits(lambda text, patterns=patterns: plain_waits.waits_of(text, plain_waits.like(patterns)), count)
            for patterns in ([], [re.compile(rb"sched_waking: .* pid=10[0-9] ")])
        )

    def lengths(self, content):
        """The microseconds of waits in the binary form."""
        count = len(self.waits)
        return struct.unpack_from(f"<{count}I", content, 8 * count)

    def test_server(self):
        running = Running(self.trace, "--no-browser")
        about = json.loads(running.get("about")[2])["recordings"][0]
        self.assertGreater(about["events"], DESK)
        self.assertEqual(about["waits"], len(self.waits))
        content = running.get("waits.bin?recording=0")[2]
        self.assertTrue(self.lengths(content) == tuple(wait.micros for wait in self.waits))
        answer = json.loads(running.post("strike", {"strikes": [{"event": "sched_waking", "text": "pid < 110"}]})[2])
        taken = len(base64.b64decode(answer["changed"]["taken"])) // 4
        self.assertEqual(len(self.waits) - taken + answer["changed"]["count"], len(self.left))
        self.assertIn(
            f"{len({wait.end for wait in self.waits} - {wait.end for wait in self.left})} waits are gone", answer["report"][1]
        )
        last = self.waits[-1]
        asked = {"recording": 0, "cpu": last.end.cpu, "line": last.end.line, "strikes": []}
        told = json.loads(running.post("wait", asked)[2])
        self.assertEqual((told["begin"], told["end"], told["pid"]), (last.begin.stamp, last.end.stamp, last.pid))
        self.assertEqual(running.end(), (-signal.SIGINT, b"", b""))

    def test_saved(self):
        ended = tool(self.trace, "--save", self.page)
        self.assertEqual((ended.returncode, ended.stdout, ended.stderr), (0, b"", b""))
        with open(self.page, encoding="utf-8") as file:
            data = saved_data(file.read())
        self.assertEqual(data["about"]["recordings"][0]["waits"], len(self.waits))
        content = gzip.decompress(base64.b64decode(data["waits"][0]))
        self.assertTrue(self.lengths(content) == tuple(wait.micros for wait in self.waits))
        scenes = json.loads(gzip.decompress(base64.b64decode(data["scenes"][0])))
        worst = sorted(self.waits, key=lambda wait: (-wait.micros, wait.end))[:200]
        told = {f"{wait.end.cpu}:{wait.end.line}": (wait.begin.stamp, wait.end.stamp, wait.pid) for wait in worst}
        self.assertEqual({place: (one["begin"], one["end"], one["pid"]) for place, one in scenes.items()}, told)
        self.assertTrue(all(len(one["cpus"]) == 4 and "lost" not in one["text"] for one in scenes.values()))


if __name__ == "__main__":
    sys.exit(main())
