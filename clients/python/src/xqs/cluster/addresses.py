"""Where a log is: the addresses of its brokers, and its name."""

import ipaddress
import os
import urllib.parse
from dataclasses import dataclass

VARIABLE = "XQS_LOG"
_SCHEMES = ("amqp", "amqps")


@dataclass(frozen=True)
class LogAddress:
    """The log's name, and the URL of each broker, which may hold a password."""

    name: str
    brokers: tuple[str, ...]


def log_address(text: str) -> LogAddress:
    """The log of `amqp://[USER:PASSWORD@]HOST[:PORT]/NAME[?vhost=V],..`, with each broker.

    A broker after the first may be given by HOST[:PORT] alone; the rest is then that of the first.
    Raises ValueError for an invalid text.
    """
    first, *others = [it.strip() for it in text.split(",")]
    begin = _split(first)
    name = _name(begin)
    brokers = [_broker(begin)]
    for other in others:
        parts = _split(other) if "://" in other else _with_host(begin, other)
        if _name(parts) != name:
            raise ValueError(f"two logs are named: {name} and {_name(parts)}")
        brokers.append(_broker(parts))
    return LogAddress(name, tuple(brokers))


def given_log(text: str | None) -> LogAddress:
    """The log in an option, or in the environment, which is a better place for a password."""
    where = text or os.environ.get(VARIABLE)
    if not where:
        raise ValueError(f"no log is named: give --log, or set {VARIABLE}")
    return log_address(where)


def check_ways(address: LogAddress, is_plain_taken: bool) -> None:
    """Raises ValueError if a broker on another machine would be used without TLS: passwords and
    documents could be read on the way."""
    if is_plain_taken:
        return
    for broker in address.brokers:
        parts = urllib.parse.urlsplit(broker)
        if parts.scheme != "amqps" and not _is_here(parts.hostname or ""):
            raise ValueError(f"{shown(broker)} is another machine: use amqps://, or give --plain "
                             "if the network is yours alone")


def _is_here(host: str) -> bool:
    try:
        return ipaddress.ip_address(host).is_loopback
    except ValueError:
        return host == "localhost"


def shown(broker: str) -> str:
    """A broker's address without its account."""
    parts = urllib.parse.urlsplit(broker)
    host = f"[{parts.hostname}]" if ":" in (parts.hostname or "") else parts.hostname
    return f"{host}:{parts.port}" if parts.port else str(host)


def _split(text: str) -> urllib.parse.SplitResult:
    parts = urllib.parse.urlsplit(text)
    if parts.scheme not in _SCHEMES or not parts.hostname:
        raise ValueError(f"not the address of a log: {_censored(text)} (amqp://HOST/NAME)")
    try:
        parts.port  # noqa: B018 (reading it checks it)
    except ValueError as error:
        raise ValueError(f"not the address of a log: {_censored(text)} ({error})") from error
    return parts


def _censored(text: str) -> str:
    return text.rpartition("@")[2]


def _name(parts: urllib.parse.SplitResult) -> str:
    name = urllib.parse.unquote(parts.path.removeprefix("/"))
    if not 1 <= len(name.encode()) <= 200 or "/" in name:
        raise ValueError(f"the address of a log needs its name: amqp://{parts.hostname}/NAME")
    return name


def _with_host(first: urllib.parse.SplitResult, host: str) -> urllib.parse.SplitResult:
    account, at, _ = first.netloc.rpartition("@")
    return _split(first._replace(netloc=f"{account}{at}{host}").geturl())


def _broker(parts: urllib.parse.SplitResult) -> str:
    query = urllib.parse.parse_qs(parts.query)
    vhost = query.pop("vhost", ["/"])[0]
    # A silent broker is given up after three times its `timeout`, in seconds.
    query.setdefault("heartbeat", ["4"])
    query.setdefault("timeout", ["3"])
    path = "/" if vhost == "/" else "/" + urllib.parse.quote(vhost, safe="")
    words = urllib.parse.urlencode(query, doseq=True)
    return parts._replace(path=path, query=words, fragment="").geturl()
