"""Stands before a server, with faults: `planted_server.py WORD=ADDRESS .. -- COMMAND [WORDS]`.

A store to the address of `want` is not passed on, and gets `memory`. One to that of `change` is
carried out and answered as if it had been another one. At one to that of `end` the server ends, and
at one to that of `hold` it hangs. One to that of `slow` takes a while.
"""

import struct
import subprocess
import sys
import time
from typing import IO


def read_message(stream: IO[bytes]) -> bytes | None:
    """The next message; None at the end."""
    head = stream.read(4)
    return stream.read(struct.unpack(">I", head)[0]) if len(head) == 4 else None


def write_message(stream: IO[bytes], message: bytes) -> None:
    """Writes a message."""
    stream.write(struct.pack(">I", len(message)) + message)
    stream.flush()


def address_of(message: bytes) -> bytes:
    """The address of a store; empty for another request."""
    return message[6 : 6 + message[5]] if message[4:5] == b"S" else b""


def main() -> int:
    """Passes frames on until they end. Returns the server's status."""
    at = sys.argv.index("--")
    plan = dict(word.split("=") for word in sys.argv[1:at])
    server = subprocess.Popen(sys.argv[at + 1 :], stdin=-1, stdout=-1)
    assert server.stdin is not None and server.stdout is not None
    while (message := read_message(sys.stdin.buffer)) is not None:
        address = address_of(message).decode()
        if address and address == plan.get("end"):
            server.kill()
            return 1
        if address and address == plan.get("hold"):
            time.sleep(1e6)
        if address and address == plan.get("slow"):
            time.sleep(0.01)
        if address and address == plan.get("want"):
            write_message(sys.stdout.buffer, message[:4] + b"\2memory")
            continue
        write_message(server.stdin, message)
        reply = read_message(server.stdout)
        if reply is None:
            break
        if address and address == plan.get("change"):
            reply = reply[:5] + b"planted"
        write_message(sys.stdout.buffer, reply)
    server.stdin.close()
    return server.wait()


if __name__ == "__main__":
    sys.exit(main())
