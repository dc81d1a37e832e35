"""Runs a server that ends with the process that started it, however that ends. It runs as a program
of its own, without the rest of the package: `keeper.py PARENT BYTES COMMAND [WORDS]`.

The keeper waits for two ends. When the server ends, it ends with the same status. When the parent
ends, even by SIGKILL, it kills its process group: the server, and all that a script in the server's
place has started. If the keeper itself is killed, the kernel kills the server. The keeper watches
the parent process, not one of its threads, which may end earlier.
"""

import os
import resource
import select
import signal
import sys
import time
from collections.abc import Sequence

PR_SET_PDEATHSIG = 1
CANNOT_RUN = 126
"""The exit status if the command can't be run."""
SECONDS_BETWEEN_LOOKS = 0.1


def run_server(keeper: int, memory: int, words: Sequence[str]) -> int:
    """Becomes the server. Returns an exit status if that fails."""
    try:
        import ctypes

        ctypes.CDLL(None).prctl(PR_SET_PDEATHSIG, signal.SIGKILL)
    except (ImportError, OSError, AttributeError):
        pass  # The keeper still ends the server, unless the keeper itself is killed.
    if os.getppid() != keeper:
        return CANNOT_RUN
    for number in (signal.SIGPIPE, signal.SIGXFSZ):
        signal.signal(number, signal.SIG_DFL)
    try:
        if memory:
            # Only the soft limit, so that a script can lift it for what it builds.
            _, hard = resource.getrlimit(resource.RLIMIT_AS)
            resource.setrlimit(resource.RLIMIT_AS, (memory, hard))
        os.execvp(words[0], list(words))
    except (OSError, ValueError) as error:
        os.write(2, f"xqs: {words[0]} can't be run: {error}\n".encode())
    return CANNOT_RUN


def wait_for_either(parent: int, watched: int | None, server: int) -> int | None:
    """The wait status of the server once it has ended; None if the parent ends first."""
    poller = select.poll()
    if watched is not None:
        poller.register(os.pidfd_open(server), select.POLLIN)
        poller.register(watched, select.POLLIN)
    while True:
        ended, status = os.waitpid(server, os.WNOHANG)
        if ended:
            return status
        if os.getppid() != parent:
            return None
        if watched is None:
            time.sleep(SECONDS_BETWEEN_LOOKS)
        else:
            poller.poll()


def watch(process: int) -> int | None:
    """A file descriptor that becomes readable when the process ends; None if unsupported."""
    try:
        return os.pidfd_open(process)
    except (AttributeError, OSError):
        return None


def end_as(status: int) -> int:
    """Ends what the server started, and returns the exit status for this wait status. If a signal
    ended the server, ends by the same signal."""
    signal.signal(signal.SIGTERM, signal.SIG_IGN)
    os.killpg(0, signal.SIGTERM)
    code = os.waitstatus_to_exitcode(status)
    if code >= 0:
        return code
    resource.setrlimit(resource.RLIMIT_CORE, (0, 0))
    if -code != signal.SIGKILL:
        signal.signal(-code, signal.SIG_DFL)
    os.kill(os.getpid(), -code)
    return 128 - code


def main() -> int:
    """Runs the command until it or the parent ends."""
    parent, memory, words = int(sys.argv[1]), int(sys.argv[2]), sys.argv[3:]
    if signal.getsignal(signal.SIGINT) is signal.default_int_handler:
        signal.signal(signal.SIGINT, signal.SIG_DFL)
    if os.getpgrp() != os.getpid():
        os.setpgid(0, 0)
    watched = watch(parent)
    keeper = os.getpid()
    server = os.fork()
    if server == 0:
        os._exit(run_server(keeper, memory, words))
    nothing = os.open(os.devnull, os.O_RDWR)
    os.dup2(nothing, 0)
    os.dup2(nothing, 1)
    status = wait_for_either(parent, watched, server)
    if status is None:
        os.killpg(0, signal.SIGKILL)
    return end_as(status or 0)


if __name__ == "__main__":
    sys.exit(main())
