"""Pages at an address of this machine alone: a click on the picture explains that pixel."""
from __future__ import annotations

import threading
from http import HTTPStatus
from http.server import BaseHTTPRequestHandler, ThreadingHTTPServer
from urllib.parse import parse_qs, urlsplit

from reyes.errors import Trouble
from reyes.why.account import Spot
from reyes.why.explaining import Explained
from reyes.why.markup import tag, text
from reyes.why.page import page

HOST = "127.0.0.1"


class Server(ThreadingHTTPServer):
    """A server of one frame's pixels; accounts are asked for one at a time. `first` is the pixel of the page without a pixel."""

    daemon_threads = True

    def __init__(self, explained: Explained, first: Spot, port: int) -> None:
        super().__init__((HOST, port), Handler)
        self.explained, self.first, self.one_at_a_time = explained, first, threading.Lock()

    @property
    def names(self) -> tuple[str, ...]:
        """What a browser may call this server: other names would let a page of elsewhere read it."""
        return tuple(f"{it}:{self.server_address[1]}" for it in (HOST, "localhost"))


class Handler(BaseHTTPRequestHandler):
    """Answers `/` and `/?x=X&y=Y`."""

    server: Server
    protocol_version = "HTTP/1.1"

    def do_GET(self) -> None:
        asked = urlsplit(self.path)
        if self.headers.get("Host") not in self.server.names:
            self._say(HTTPStatus.FORBIDDEN, "this server answers to its own name alone")
        elif asked.path != "/":
            self._say(HTTPStatus.NOT_FOUND, "there is one page here, /")
        else:
            self._explain(parse_qs(asked.query))

    def _explain(self, words: dict[str, list[str]]) -> None:
        x, y = (words.get(name, [str(at)])[0] for name, at in zip("xy", self.server.first))
        if not all(it.isascii() and it.isdecimal() and len(it) <= 4 for it in (x, y)):
            self._say(HTTPStatus.BAD_REQUEST, "x and y are the pixel's place, whole numbers")
            return
        explained = self.server.explained
        try:
            with self.server.one_at_a_time:
                account = explained.account(int(x), int(y))
            self._send(HTTPStatus.OK, page(account, explained.film, explained.things(account), asks=True))
        except Trouble as trouble:
            self._say(HTTPStatus.BAD_REQUEST, trouble.message)

    def _say(self, status: HTTPStatus, line: str) -> None:
        back = tag("a", "back", href="/")
        self._send(status, f"<!doctype html>\n{tag('html', tag('head', tag('title', 'reyes why')), tag('body', tag('p', text(line)), tag('p', back)))}\n")

    def _send(self, status: HTTPStatus, it: str) -> None:
        body = it.encode()
        self.send_response(status)
        self.send_header("Content-Type", "text/html; charset=utf-8")
        self.send_header("Content-Length", str(len(body)))
        self.end_headers()
        self.wfile.write(body)

    def log_message(self, format: str, *values: object) -> None:
        """Requests aren't told."""


def serve(explained: Explained, pixel: Spot | None, port: int) -> int:
    """Serves until it is broken off. Without a pixel the first page is that of the picture's middle. Raises Trouble where it can't."""
    film = explained.film
    first = pixel or (film.left + film.width // 2, film.top + film.height // 2)
    try:
        server = Server(explained, first, port)
    except OSError as fault:
        raise Trouble(f"port {port}: {fault.strerror or fault}") from fault
    with server:
        print(f"http://{HOST}:{server.server_address[1]}/", flush=True)
        try:
            server.serve_forever()
        except KeyboardInterrupt:
            return 0
    return 0
