"""The page's server: on 127.0.0.1 alone, for whoever knows its token, and for nobody else.

Each path begins with the token, which is new at each start. A request
without it, for another host's name or from another page's origin is refused
without a text. What is asked has a bound in bytes, and what it runs has bounds
of its own (r2u2tools.play.runs).
"""

import hmac
import json
import secrets
import subprocess
from http import HTTPStatus
from http.server import BaseHTTPRequestHandler, ThreadingHTTPServer
from typing import Any, Callable, Dict, Optional

from r2u2tools.common.cli import ToolError
from r2u2tools.play.page import page
from r2u2tools.play.runs import answered, costs, laid_out, reason

LARGEST = 3 << 20
SECONDS = 30
CALLS: Dict[str, Callable[[Dict[str, Any]], Dict[str, Any]]] = {
    "run": answered, "cost": costs, "why": reason, "format": laid_out,
}
HEADS = {
    "Cache-Control": "no-store",
    "Content-Security-Policy": "default-src 'none'; script-src 'nonce-{nonce}'; style-src 'nonce-{nonce}'; "
    "connect-src 'self'; base-uri 'none'; form-action 'none'; frame-ancestors 'none'",
    "Cross-Origin-Resource-Policy": "same-origin",
    "Referrer-Policy": "no-referrer",
    "X-Content-Type-Options": "nosniff",
}


class Play(ThreadingHTTPServer):
    """The server of one page. `first` is what the page shows before anything is typed."""

    daemon_threads = True
    allow_reuse_address = False

    def __init__(self, port: int, first: Dict[str, Any]):
        super().__init__(("127.0.0.1", port), Handler)
        self.token, self.nonce, self.first = secrets.token_urlsafe(24), secrets.token_urlsafe(16), first

    def url(self) -> str:
        return f"http://127.0.0.1:{self.server_port}/{self.token}/"

    def handle_error(self, request: Any, client_address: Any) -> None:
        """A page that goes away in the middle of a request isn't a fault."""


class Handler(BaseHTTPRequestHandler):
    server: Play
    protocol_version = "HTTP/1.1"
    server_version, sys_version = "r2u2-play", ""
    timeout = SECONDS

    def version_string(self) -> str:
        return self.server_version

    def log_message(self, format: str, *args: Any) -> None:
        """Nothing is printed of requests: their paths hold the token."""

    def send_error(self, code: int, message: Optional[str] = None, explain: Optional[str] = None) -> None:
        self.refuse(HTTPStatus(code))

    def refuse(self, status: HTTPStatus) -> None:
        """A status and nothing else."""
        self.close_connection = True
        self.send_response_only(status)
        self.send_header("Content-Length", "0")
        self.send_header("Connection", "close")
        self.end_headers()

    def asked(self) -> Optional[str]:
        """What follows the token, where the request is one of the page's own; None elsewhere."""
        own = {f"{host}:{self.server.server_port}" for host in ("127.0.0.1", "localhost")}
        origin = self.headers.get("Origin")
        if self.headers.get("Host") not in own or origin is not None and origin not in {f"http://{it}" for it in own}:
            return None
        token, slash, rest = self.path[1:].partition("/")
        same = hmac.compare_digest(token.encode("latin-1", "replace"), self.server.token.encode())
        return rest if same and slash else None

    def reply(self, body: str, kind: str) -> None:
        raw = body.encode()
        self.send_response_only(HTTPStatus.OK)
        self.send_header("Content-Type", f"{kind}; charset=utf-8")
        self.send_header("Content-Length", str(len(raw)))
        for name, value in HEADS.items():
            self.send_header(name, value.replace("{nonce}", self.server.nonce))
        self.end_headers()
        self.wfile.write(raw)

    def do_GET(self) -> None:
        if self.asked() == "":
            self.reply(page(self.server.first, self.server.nonce), "text/html")
        else:
            self.refuse(HTTPStatus.NOT_FOUND)

    def do_POST(self) -> None:
        call = CALLS.get(self.asked() or "")
        size = self.headers.get("Content-Length", "")
        if call is None:
            self.refuse(HTTPStatus.NOT_FOUND)
        elif not size.isdigit() or self.headers.get("Content-Type") != "application/json":
            self.refuse(HTTPStatus.BAD_REQUEST)
        elif int(size) > LARGEST:
            self.refuse(HTTPStatus.REQUEST_ENTITY_TOO_LARGE)
        else:
            self.serve(call, self.rfile.read(int(size)))

    def serve(self, call: Callable[[Dict[str, Any]], Dict[str, Any]], raw: bytes) -> None:
        """Sends what a call gives, or in one line why it gives nothing."""
        try:
            given = json.loads(raw)
            found = call(given if isinstance(given, dict) else {})
        except (ValueError, RecursionError):
            self.refuse(HTTPStatus.BAD_REQUEST)
            return
        except (ToolError, OSError, subprocess.SubprocessError) as fault:
            found = {"trouble": str(fault)}
        self.reply(json.dumps(found), "application/json")
