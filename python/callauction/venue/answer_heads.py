"""What the head of each answer has, also where a request is none and aiohttp answers by itself."""
import asyncio
from typing import Any

from aiohttp import web

from callauction.venue.gates import IDLE_SECONDS
from callauction.venue.logger import NOTICES

HEADERS = {
    "Content-Security-Policy": "default-src 'none'; script-src 'self'; style-src 'self'; "
    "img-src 'self' data:; connect-src 'self'; base-uri 'none'; form-action 'none'; "
    "frame-ancestors 'none'",
    "Referrer-Policy": "no-referrer",
    "X-Content-Type-Options": "nosniff",
    "Cache-Control": "no-store",
    "Server": "callboard",  # and not what serves it, in which version
}
TLS_HEADERS = {"Strict-Transport-Security": "max-age=31536000"}
"""Where it is reached by TLS: browsers take nothing else of this name for a year."""
NO_REQUEST = "this is no request by HTTP, or a line of its head is longer than 8190 bytes"
LINGER_SECONDS = 1.0
"""How long connections that end are waited for."""


def headers_of(transport: asyncio.BaseTransport | None) -> dict[str, str]:
    """What the answers to a connection have."""
    is_secure = transport is not None and transport.get_extra_info("sslcontext") is not None
    return HEADERS | (TLS_HEADERS if is_secure else {})


async def mark(request: web.Request, answer: web.StreamResponse) -> None:
    """Gives an answer what all have."""
    answer.headers.update(headers_of(request.transport))


class ConnectionHandler(web.RequestHandler):
    """aiohttp's protocol of a connection."""

    def __init__(self, server: web.Server) -> None:
        super().__init__(
            server,
            loop=asyncio.get_running_loop(),
            access_log=None,  # type: ignore[arg-type]
            auto_decompress=False,
            keepalive_timeout=IDLE_SECONDS,
            lingering_time=LINGER_SECONDS,
            logger=NOTICES,
        )

    def data_received(self, data: bytes) -> None:
        """Takes what comes. An address that yarl can't read isn't caught by aiohttp."""
        try:
            super().data_received(data)
        except ValueError:
            lines = ["HTTP/1.1 400 Bad Request", "Content-Length: 0", "Connection: close"]
            lines += [f"{name}: {value}" for name, value in headers_of(self.transport).items()]
            if self.transport is not None:
                self.transport.write("".join(f"{line}\r\n" for line in [*lines, ""]).encode())
            self.force_close()

    async def start(self) -> None:
        """Answers requests, unless the connection was lost before it began."""
        if self._task_handler is not None:
            await super().start()

    def log_exception(self, *args: Any, **kw: Any) -> None:
        """Says what failed, unless the connection was lost meanwhile: aiohttp stumbles over that.
        """
        if self.transport is not None:
            super().log_exception(*args, **kw)

    def handle_error(
        self,
        request: web.BaseRequest,
        status: int = 500,
        exc: BaseException | None = None,
        message: str | None = None,
    ) -> web.StreamResponse:
        """What answers a request that is none, which is no fault of the venue, or one that failed.
        """
        if status < 500 and request.writer.output_size == 0:
            NOTICES.info("what came is no request of HTTP, from %s", request.remote)
            answer: web.StreamResponse = web.Response(status=status, text=NO_REQUEST)
            answer.force_close()
        else:
            answer = super().handle_error(request, status, exc, message)
        answer.headers.update(headers_of(request.transport))
        return answer
