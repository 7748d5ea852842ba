"""Floods a venue with whole requests: `whole.py PORT CONNECTIONS COUNTED KIND [TOKEN]`.

Each connection asks again and again, more at once than it has been answered, and comes again where
it is ended. The file COUNTED has the number of the answers so far, 8 bytes that a test reads
meanwhile.
"""
import asyncio
import contextlib
import mmap
import pathlib
import sys

HEAD = b"Host: 127.0.0.1\r\n"
LOOK = b"GET /api/look/state HTTP/1.1\r\nAuthorization: Bearer %s\r\n" + HEAD + b"\r\n"
BODY = b'{"code":"WRONGS","name":"x"}'
KINDS = {
    "of nobody": b"GET /api/day HTTP/1.1\r\n" + HEAD + b"\r\n",
    "of a token": LOOK,
    "pages": b"GET /pages/member.js HTTP/1.1\r\n" + HEAD + b"\r\n",
    "wrong codes": b"POST /api/join HTTP/1.1\r\nContent-Type: application/json\r\n"
    + HEAD
    + b"Content-Length: %d\r\n\r\n" % len(BODY)
    + BODY,
    "junk": b"NONE\r\n\r\n",
}
AT_ONCE = 30
ANSWER = b"HTTP/1."


async def ask(port: int, text: bytes, counted: mmap.mmap) -> None:
    """Asks by one connection after the other."""
    while True:
        with contextlib.suppress(OSError):
            reader, writer = await asyncio.open_connection("127.0.0.1", port)
            asking = asyncio.create_task(say(writer, text))
            try:
                while block := await reader.read(1 << 16):
                    count = int.from_bytes(counted[:8], "little") + block.count(ANSWER)
                    counted[:8] = count.to_bytes(8, "little")
            finally:
                asking.cancel()
                writer.close()


async def say(writer: asyncio.StreamWriter, text: bytes) -> None:
    """Asks again and again."""
    with contextlib.suppress(ConnectionError):
        while True:
            writer.write(text * AT_ONCE)
            await writer.drain()


async def main(port: int, connections: int, path: str, kind: str, token: str = "") -> None:
    text = KINDS[kind].replace(b"%s", token.encode())
    pathlib.Path(path).write_bytes(bytes(8))
    with open(path, "r+b") as file, mmap.mmap(file.fileno(), 8) as counted:
        print("begun", flush=True)
        async with asyncio.TaskGroup() as tasks:
            for _ in range(connections):
                tasks.create_task(ask(port, text, counted))


if __name__ == "__main__":
    asyncio.run(main(int(sys.argv[1]), int(sys.argv[2]), *sys.argv[3:]))
