"""Documents as files: the addresses that files get, and archives of documents."""

import json
import tempfile
import zipfile
from pathlib import Path
from typing import BinaryIO

from xqs.client import Client
from xqs.export import Exporter
from xqs.paths import address_of
from xqs.web_status import HttpRefusal

ZIP = "application/zip"
REFUSED = "refused.txt"
"""The file in an archive that names the documents that are not in it, with the reasons."""


def addresses_as_json(body: bytes) -> str:
    """The addresses of files, for `{"paths": [..], "prefix": ".."}`, as an array of objects with
    `path`, and `address` or the reason why it is `refused`. Raises HttpRefusal for another body."""
    try:
        asked = json.loads(body)
        paths, prefix = asked["paths"], asked["prefix"]
        found = [_address(str(path), str(prefix)) for path in paths]
    except (ValueError, KeyError, TypeError, RecursionError) as error:
        sentence = f"the body has paths and a prefix: {error}"
        raise HttpRefusal(400, "xqs:REQUEST", sentence) from error
    return json.dumps(found)


def _address(path: str, prefix: str) -> dict[str, str]:
    try:
        return {"path": path, "address": address_of(path, prefix)}
    except ValueError as error:
        return {"path": path, "refused": str(error)}


def write_archive(client: Client, prefix: str, names: str, file: BinaryIO) -> None:
    """Writes the documents below a prefix into an archive, as `xqs export` does.

    It leaves out documents that no file of XML can hold, and names them in a file of the archive.
    """
    with tempfile.TemporaryDirectory(prefix="xqs-web-") as folder:
        exporter = Exporter(client, Path(folder), "xml", names, False)
        refused = exporter.export_all(prefix)
        with zipfile.ZipFile(file, "w", zipfile.ZIP_DEFLATED) as archive:
            for path in sorted(Path(folder).rglob("*")):
                archive.write(path, path.relative_to(folder))
            if refused:
                lines = [f"{address}: {why}\n" for address, why in refused.items()]
                archive.writestr(REFUSED, "".join(lines))
