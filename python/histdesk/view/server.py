"""A server for one person: pages and answers of this package, to a browser on the same machine."""

from __future__ import annotations

import contextlib
import hmac
import http.server
import json
import os
import queue
import secrets
import socket
import threading
from pathlib import Path
from typing import Any, Callable, Iterator, NamedTuple, Union
from urllib.parse import parse_qsl

from ..script.made import AskedTrigger
from .model import View
from .timeline import Window

Json = Union[None, bool, int, float, str, list[Any], dict[str, Any]]
# Arguments by name, each with its types.
Arguments = dict[str, tuple[type[Any], ...]]

HOST = "127.0.0.1"
# The most bytes that a request's body may have.
ROOM = 1 << 16
# For how many seconds a connection may say nothing.
PATIENCE = 300
# After how many seconds without a question there is time for other things.
PAUSE = 0.5
PAGES = Path(__file__).resolve().parent / "page"
KINDS = {".html": "text/html", ".css": "text/css", ".js": "text/javascript"}
BINARY, JSON = "application/octet-stream", "application/json"
# What every answer says: nobody keeps it, frames it, or takes it for something else.
HEADERS = {
    "Cache-Control": "no-store",
    "Content-Security-Policy": "default-src 'self'; img-src 'self' data:; frame-ancestors 'none'",
    "Cross-Origin-Resource-Policy": "same-origin",
    "Referrer-Policy": "no-referrer",
    "X-Content-Type-Options": "nosniff",
}


class Bad(Exception):
    """A request that isn't answered: its HTTP status, and why."""

    def __init__(self, status: int, why: str) -> None:
        super().__init__(why)
        self.status = status


class Response(NamedTuple):
    """The type of an answer's content, and its bytes."""

    kind: str
    content: bytes


class Ask(NamedTuple):
    """A question that may be asked.

    Attributes
    ----------
    answer
        What answers it.
    takes
        The arguments that this takes, by name, each with its types; an argument that may be None may be left out.
    """

    answer: Callable[..., Union[Json, bytes]]
    takes: Arguments


class Job:
    """A question that waits for the thread which answers all of them."""

    def __init__(self, ask: Callable[[], Json | bytes]) -> None:
        self._ask = ask
        self._done = threading.Event()
        self._answer: Json | bytes = None
        self._error: BaseException | None = None

    def run(self) -> None:
        """Answer it."""
        try:
            self._answer = self._ask()
        except Exception as error:
            self._error = error
        finally:
            self._done.set()

    def answer(self) -> Json | bytes:
        """Wait for the answer and return it, or raise what the question raised."""
        self._done.wait()
        if self._error is not None:
            raise self._error
        return self._answer


class Server(http.server.ThreadingHTTPServer):
    """Listens, with a thread for each connection. The thread that runs `answer_all` answers questions, one at a time."""

    daemon_threads = True

    def __init__(self, port: int, gets: dict[str, Ask], posts: dict[str, Ask]) -> None:
        """Take a port.

        Parameters
        ----------
        port
            The port; 0 is any free one.
        gets, posts
            The questions of GET and POST requests, by the last part of their paths.

        Raises
        ------
        OSError
            If the port is taken.
        """
        super().__init__((HOST, port), Handler)
        self.gets, self.posts = gets, posts
        self.token = secrets.token_urlsafe(16)
        self.jobs: queue.SimpleQueue[Job] = queue.SimpleQueue()
        self.hosts = [f"{host}:{self.server_port}" for host in (HOST, "localhost")]

    @property
    def address(self) -> str:
        """The address that a browser opens."""
        return f"http://{self.hosts[0]}/{self.token}/"

    def listen(self) -> None:
        """Begin to listen. Questions wait until they are answered."""
        threading.Thread(target=self.serve_forever, daemon=True).start()

    def answer_all(self, chores: Iterator[object] = iter(())) -> None:
        """Answer questions until it is interrupted.

        Parameters
        ----------
        chores
            What is done step by step while nothing is asked, from some time after the first answer on. If a step fails, no
            further one is done: whoever asks for what it does gets the error.
        """
        self.jobs.get().run()
        pause: float | None = PAUSE
        while True:
            try:
                job = self.jobs.get(timeout=pause)
            except queue.Empty:
                pause = 0 if does_next(chores) else None
                continue
            job.run()
            pause = pause if pause is None else PAUSE

    def ask(self, ask: Callable[[], Json | bytes]) -> Json | bytes:
        """Return the answer of the thread that answers."""
        job = Job(ask)
        self.jobs.put(job)
        return job.answer()

    def handle_error(self, request: Any, client_address: Any) -> None:
        """Say nothing: a connection that breaks is nobody's fault."""


class Handler(http.server.BaseHTTPRequestHandler):
    """Answers the requests of one connection."""

    server: Server
    protocol_version = "HTTP/1.1"
    server_version, sys_version = "histdesk", ""
    timeout = PATIENCE
    # A request that can't be read is answered like others.
    default_request_version = "HTTP/1.1"
    # An answer isn't held back until the one before it has been acknowledged.
    disable_nagle_algorithm = True

    def handle(self) -> None:
        """Answer the requests, and end quietly if the other side is gone."""
        with contextlib.suppress(ConnectionError, socket.timeout):
            super().handle()

    def do_GET(self) -> None:
        """Send a file of the page, or answer a question without a body."""
        if self.headers.get("Content-Length") or self.headers.get("Transfer-Encoding"):
            # It would be taken for the next request.
            self.close_connection = True
        self.reply(self.get)

    def do_POST(self) -> None:
        """Answer a question."""
        self.reply(self.post)

    def __getattr__(self, name: str) -> Any:
        if name.startswith("do_"):
            return self.do_other
        raise AttributeError(name)

    def do_other(self) -> None:
        """Refuse any other method."""
        self.reply(self.refuse)

    def refuse(self, _: str) -> Response:
        """Raise `Bad`: nothing is asked that way."""
        self.close_connection = True
        raise Bad(405, "only GET and POST are answered")

    # ---- who may ask

    def reply(self, answer: Callable[[str], Response]) -> None:
        """Send the answer to a path without the token, or why there is none."""
        try:
            status, content = 200, answer(self.path_after_token())
        except Bad as bad:
            status, content = bad.status, json_response({"error": str(bad)})
        except Exception as error:
            status, content = 500, json_response({"error": f"{type(error).__name__}: {error}"})
        self.send(status, content)

    def path_after_token(self) -> str:
        """Return the path after the token. Refuse whoever doesn't know that, or asks from another page."""
        token, slash, path = self.path[1:].partition("/")
        if not self.path.startswith("/") or not same(token, self.server.token):
            self.close_connection = True
            raise Bad(404, "there is nothing here")
        hosts: list[str] = self.headers.get_all("Host", [])
        origins: list[str] = self.headers.get_all("Origin", [])
        own = [f"http://{host}" for host in self.server.hosts]
        if len(hosts) != 1 or hosts[0] not in self.server.hosts or any(origin not in own for origin in origins):
            self.close_connection = True
            raise Bad(403, "asked by another name, or from another page")
        return slash + path

    # ---- what is asked

    def get(self, path: str) -> Response:
        """Return a file of the page, or the answer to a question whose arguments stand in the path."""
        name, _, query = path[1:].partition("?")
        ask = self.server.gets.get(name)
        if ask is None:
            # Without the slash a browser would look for its files elsewhere.
            return page_file(name or "page.html" if path else "")
        try:
            arguments = {key: int(value) for key, value in parse_qsl(query, strict_parsing=bool(query), max_num_fields=9)}
        except ValueError:
            raise Bad(400, "the words after ? can't be read") from None
        return self.answer(ask, arguments)

    def post(self, path: str) -> Response:
        """Return the answer to a question in JSON."""
        content = self.body()
        ask = self.server.posts.get(path[1:])
        if ask is None:
            raise Bad(404, "there is nothing here")
        try:
            arguments = json.loads(content)
        except (ValueError, RecursionError):
            raise Bad(400, "the body isn't JSON") from None
        if not isinstance(arguments, dict):
            raise Bad(400, "the body is no object")
        return self.answer(ask, arguments)

    def body(self) -> bytes:
        """Return the body of a request."""
        length = self.headers.get("Content-Length", "")
        self.close_connection = True
        if self.headers.get("Transfer-Encoding") or not length:
            raise Bad(411, "a body has to say its length")
        if not (length.isascii() and length.isdigit()):
            raise Bad(400, "the length of the body is no number")
        if len(length) > 9 or int(length) > ROOM:
            raise Bad(413, f"a body has at most {ROOM} bytes")
        content = self.rfile.read(int(length))
        if len(content) < int(length):
            raise ConnectionResetError
        self.close_connection = False
        return content

    def answer(self, ask: Ask, arguments: dict[str, Any]) -> Response:
        """Check what is asked, and return the answer."""
        for name, kinds in ask.takes.items():
            if type(arguments.get(name)) not in kinds:
                raise Bad(400, f"{name} is missing, or of another type")
        for name in arguments:
            if name not in ask.takes:
                raise Bad(400, f"there is no {name}")
        try:
            content = self.server.ask(lambda: ask.answer(**arguments))
        except ValueError as error:
            raise Bad(400, str(error)) from None
        return Response(BINARY, content) if isinstance(content, bytes) else json_response(content)

    # ---- what is sent

    def send(self, status: int, answer: Response) -> None:
        """Send an answer with an HTTP status."""
        self.send_response(status)
        for name, value in HEADERS.items():
            self.send_header(name, value)
        self.send_header("Content-Type", answer.kind)
        self.send_header("Content-Length", str(len(answer.content)))
        if self.close_connection:
            self.send_header("Connection", "close")
        self.end_headers()
        if self.command != "HEAD":
            self.wfile.write(answer.content)

    def send_error(self, code: int, message: str | None = None, explain: str | None = None) -> None:
        """Answer a request that can't be read, with the library's message."""
        self.close_connection = True
        self.send(code, json_response({"error": message or "the request can't be read"}))

    def log_message(self, format: str, *args: Any) -> None:
        """Say nothing of single requests."""


def server_of(view: View, port: int) -> Server:
    """Return the server of a view, on a port; 0 is any free one.

    Raises
    ------
    OSError
        If the port is taken.
    """
    optional = int, type(None)
    strikes: Arguments = {"strikes": (list,)}
    text: Arguments = {"recording": (int,), "event": (str,), "text": (str,), **strikes}
    place: Arguments = {"recording": (int,), "cpu": (int,), "line": (int,), "from": optional, "until": optional, **strikes}

    def wait(recording: int, cpu: int, line: int, strikes: list[Any], **window: int | None) -> Json:
        return view.wait(recording, (cpu, line), Window(window.get("from"), window.get("until")), strikes_of(strikes))

    def filter(recording: int, event: str, text: str, strikes: list[Any]) -> Json:
        return view.filter(recording, event, text, strikes_of(strikes))

    def trigger(recording: int, event: str, text: str, strikes: list[Any]) -> Json:
        return view.trigger(recording, event, text, strikes_of(strikes))

    def script(recording: int, event: str, filter: str, trigger: str, strikes: list[Any]) -> Json:
        return view.script(recording, AskedTrigger(event, filter, trigger), strikes_of(strikes))

    def overview(recording: int, width: int, **window: int) -> Json:
        return view.overview(recording, window["from"], window["until"], width)

    gets = {
        "about": Ask(view.about, {}),
        "differences": Ask(view.differences, {}),
        "overview": Ask(overview, {"recording": (int,), "from": (int,), "until": (int,), "width": (int,)}),
        "waits.bin": Ask(view.waits, {"recording": (int,)}),
    }
    posts = {
        "filter": Ask(filter, text),
        "script": Ask(script, {"recording": (int,), "event": (str,), "filter": (str,), "trigger": (str,), **strikes}),
        "strike": Ask(lambda strikes: view.strike(strikes_of(strikes)), strikes),
        "trigger": Ask(trigger, text),
        "wait": Ask(wait, place),
    }
    return Server(port, gets, posts)


def does_next(chores: Iterator[object]) -> bool:
    """Do the next step of some chores, and return whether there may be another one."""
    try:
        next(chores)
    except Exception:
        return False
    return True


def strikes_of(given: list[Any]) -> list[tuple[str, str]]:
    """Return the events and filters of what was sent. Raises `Bad` if it is something else."""
    for one in given:
        if type(one) is not dict or set(one) != {"event", "text"} or {str} != {type(value) for value in one.values()}:
            raise Bad(400, "a strike is an event and a text")
    return [(one["event"], one["text"]) for one in given]


def same(given: str, secret: str) -> bool:
    """Return whether two texts are the same, in a time that doesn't depend on how much of them is the same."""
    return hmac.compare_digest(given.encode("utf-8", "surrogateescape"), secret.encode())


def json_response(value: Json) -> Response:
    """Return a value as an answer."""
    return Response(JSON, json.dumps(value, separators=(",", ":")).encode())


def page_file(name: str) -> Response:
    """Return a file of the page. Raises `Bad` if there is none of that name."""
    kind = KINDS.get(os.path.splitext(name)[1])
    if kind is None or name not in os.listdir(PAGES):
        raise Bad(404, "there is nothing here")
    return Response(f"{kind}; charset=utf-8", (PAGES / name).read_bytes())
