"""view TRACE [TRACE]: a page to look at waits, also with some events not counted."""

from __future__ import annotations

import argparse
import contextlib
import os
import queue
import shlex
import signal
import sys
import threading
import webbrowser
from typing import TYPE_CHECKING, Iterator, NoReturn, Sequence

from .._invocation import program, tool
from . import arguments, process

if TYPE_CHECKING:
    from ..view.model import Side, View
    from ..view.server import Server

DESCRIPTION = """A page in a browser that shows how long tasks waited for a processor: a histogram, which follows
a filter as it is typed, the longest waits, what ran on all CPUs during one of them and during the
whole recording, and the waits that are left if some events are not counted. All else stays as it
was recorded then: no task runs sooner. Two recordings are drawn one over the other, and the page
says which waits differ. TRACE is the text of the kernel's trace file, compressed by gzip or not, or
a recording of perf or trace-cmd; - is standard input.

It prints the page's address, opens a browser if there is a desktop, and answers until Ctrl-C. It
listens only on this machine (127.0.0.1), and answers only requests for the complete address, which
contains a random word. The browser is started with a file that leads there, and that only you can
read, since all users of a machine see what a program is started with.

A recording may be of any length. If it has more events than a desk holds, a trigger's table and
the script cover only its first events, and say so.

With --save, the page is written as one file, which needs no server. Such a page has no filters,
triggers or strikes, and shows all CPUs with the time divided into at most 1,024 parts.

tools/waits --help says what a wait is. In a terminal, tools/why explains one, and tools/diff compares."""
# If none of these variables is set, there is no desktop.
DESKTOPS = ("BROWSER", "DISPLAY", "WAYLAND_DISPLAY")
# The signals that end the tool, unless whoever started it had them ignored.
ENDING = (signal.SIGINT, signal.SIGTERM, signal.SIGHUP)


class Termination(BaseException):
    """A signal that ends the tool.

    Attributes
    ----------
    signal
        The signal.
    """

    def __init__(self, number: int) -> None:
        super().__init__(number)
        self.signal = signal.Signals(number)


def parsed(argv: Sequence[str] | None) -> argparse.Namespace:
    """Return the arguments."""
    parser = arguments.parser("view", DESCRIPTION)
    parser.add_argument("trace", metavar="TRACE")
    parser.add_argument("other", metavar="TRACE", nargs="?", help="another recording, to draw over the first")
    parser.add_argument("--save", metavar="FILE", help="write the page to this file, and exit")
    parser.add_argument("--no-browser", action="store_true", help="don't open a browser")
    port_help = "listen on this port (default: any free one)"
    parser.add_argument("--port", metavar="N", type=arguments.port, default=0, help=port_help)
    arguments.add_choice(parser, cpus="not available: tasks are woken from any CPU")
    arguments.add_jobs(parser)
    options = parser.parse_intermixed_args(argv)
    if options.cpus is not None:
        parser.error("waits need the events of all CPUs, since tasks are woken from any; the page chooses CPUs")
    return options


def side_of(options: argparse.Namespace, path: str) -> Side:
    """Return a recording, and what the user has to know of it."""
    from ..view.model import Side
    from ..waiting.wait_answer import bad_lines_remark
    from ..waiting.waits import SPARE
    from . import traces

    if options.events is None:
        waits = traces.whole_waits(options, path, "view")
        if waits.source is not None:
            return Side(waits, filter(None, [bad_lines_remark(waits.bad_lines, waits.first_bad_line)]))
        if path == "-":
            raise process.Stop("standard input: its events aren't in the order of time; such a trace must be a file")
    # A desk holds what is chosen.
    recording = traces.recording(options, path, "view", spare=SPARE)
    return Side(recording, traces.bad_line_remarks(recording))


def begun_server(view: View, port: int) -> Server:
    """Return the server of a page. Raises `Stop` if the port is taken."""
    from ..view import server

    try:
        return server.server_of(view, port)
    except OSError as error:
        raise process.Stop(f"port {port}: {error.strerror}; without --port it is one that is free") from None


def work(argv: Sequence[str] | None) -> int:
    """Save the page, or answer a browser until Ctrl-C, and return the exit status."""
    options = parsed(argv)
    from ..show.tables import printable

    # A missing numpy is reported here, before anything takes long.
    from ..view.model import View

    paths = [path for path in (options.trace, options.other) if path is not None]
    command = " ".join([tool("view"), *(shlex.quote(printable(path)) for path in paths)])
    view = View([side_of(options, path) for path in paths], command, program())
    if options.save is not None:
        from ..view import saved_page

        saved_page.save(view, options.save)
        return process.SUCCESS
    server = begun_server(view, options.port)
    is_wanted = not options.no_browser and any(map(os.environ.get, DESKTOPS))
    try:
        catch_signals()
        server.listen()
        print(f"{server.address}  (Ctrl-C ends it)" if sys.stdout.isatty() else server.address, flush=True)
        with browser(server.address) if is_wanted else contextlib.nullcontext():
            answer_all(server, view)
    except Termination as termination:
        process.end_by(termination.signal)
    return process.SUCCESS


def catch_signals() -> None:
    """Have signals that end the tool raise `Termination`; further ones are ignored then."""
    defaults = signal.SIG_DFL, signal.default_int_handler
    numbers = [number for number in ENDING if signal.getsignal(number) in defaults]

    def end(number: int, _: object) -> NoReturn:
        for one in numbers:
            signal.signal(one, signal.SIG_IGN)
        raise Termination(number)

    for number in numbers:
        signal.signal(number, end)


@contextlib.contextmanager
def browser(address: str) -> Iterator[None]:
    """Open a browser at an address. The browser is started with a file that leads there, and that is removed at the end."""
    from ..view.redirect import redirect_to

    with contextlib.ExitStack() as stack:
        try:
            url = stack.enter_context(redirect_to(address))
        except OSError as error:
            process.say(
                "view", f"no browser is opened, since no file can be written that leads it to the page: {error.strerror}"
            )
        else:
            # With some browsers, the call returns only when they end.
            threading.Thread(target=webbrowser.open, args=[url], daemon=True).start()
        yield


def answer_all(server: Server, view: View) -> None:
    """Answer questions in another thread, so that a signal ends this one whatever is being answered.

    Raises
    ------
    Termination
        If a signal ends the tool.
    """
    failures: queue.SimpleQueue[Exception] = queue.SimpleQueue()

    def answer() -> None:
        try:
            server.answer_all(view.prepare())
        except Exception as error:
            failures.put(error)

    threading.Thread(target=answer, daemon=True).start()
    raise failures.get()


def main(argv: Sequence[str] | None = None) -> int:
    """Run the tool; see `process.run`."""
    return process.run("view", lambda: work(argv))
