"""Stands in for another program, which answers one query differently: `other_program.py TEXT --
COMMAND [WORDS]`. A query that has the text is answered with `planted`; all else goes to the
command."""

import subprocess
import sys

from tests.planted_server import read_message, write_message


def main() -> int:
    """Passes frames on until they end. Returns the server's status."""
    text, command = sys.argv[1].encode(), sys.argv[3:]
    server = subprocess.Popen(command, stdin=-1, stdout=-1)
    assert server.stdin is not None and server.stdout is not None
    while (message := read_message(sys.stdin.buffer)) is not None:
        write_message(server.stdin, message)
        reply = read_message(server.stdout)
        if reply is None:
            break
        planted = message[4:5] == b"Q" and text in message
        write_message(sys.stdout.buffer, reply[:5] + b"planted" if planted else reply)
    server.stdin.close()
    return server.wait()


if __name__ == "__main__":
    sys.exit(main())
