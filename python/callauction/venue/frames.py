"""WebSocket as RFC 6455 has it of a client: what isn't so ends the connection, as a fault of the
protocol (1002). aiohttp sees to reserved bits, to kinds that there aren't, and to signs of life and
closes that are long or in parts; it takes frames without a mask, and a message within another one.
"""
from callauction.venue import aiohttp_version

aiohttp_version.check_tried()  # before anything of it is taken

from aiohttp import FlowControlDataQueue, WSCloseCode, WSMessage, WSMsgType, web  # noqa: E402
from aiohttp.http_websocket import WebSocketError, WebSocketReader, WebSocketWriter  # noqa: E402

UNREAD_BYTES = 1 << 16
"""Bytes of messages that wait to be read, from twice of which on nothing more is read."""
Frame = tuple[bool, int | None, bytearray, bool | None]


def fault(text: str) -> WebSocketError:
    """What ends a connection."""
    return WebSocketError(WSCloseCode.PROTOCOL_ERROR, text)


class Reader(WebSocketReader):
    """Reads frames, whose messages it puts into a queue."""

    _is_begun = False

    def __init__(self, queue: "FlowControlDataQueue[WSMessage]", most: int) -> None:
        super().__init__(queue, most, compress=False)
        self._is_begun, self._is_within = True, False

    @property
    def _has_mask(self) -> bool:
        """Whether the frame that is read has a mask. Raises WebSocketError as it is learned that it
        has none.
        """
        return True

    @_has_mask.setter
    def _has_mask(self, value: bool) -> None:
        if self._is_begun and not value:
            raise fault("a frame without a mask")

    def parse_frame(self, buf: bytes) -> list[Frame]:
        """The frames that are whole by now. Raises WebSocketError."""
        found = super().parse_frame(buf)
        for is_last, kind, _, _ in found:
            if kind in (WSMsgType.CONTINUATION, WSMsgType.TEXT, WSMsgType.BINARY):
                if self._is_within != (kind == WSMsgType.CONTINUATION):
                    raise fault("a message within another, or the rest of none")
                self._is_within = not is_last
        return found


class Socket(web.WebSocketResponse):
    """A connection, whose frames are read so."""

    def _post_start(
        self, request: web.BaseRequest, protocol: str, writer: WebSocketWriter
    ) -> None:
        """As aiohttp begins it, but for the reader."""
        assert self._loop is not None
        self._ws_protocol, self._writer = protocol, writer
        self._reset_heartbeat()
        self._reader = FlowControlDataQueue(request.protocol, UNREAD_BYTES, loop=self._loop)
        request.protocol.set_parser(Reader(self._reader, self._max_msg_size))
        request.protocol.keep_alive(False)
