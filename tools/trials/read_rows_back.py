"""Sends the replies of the worked rows back as queries, over no documents: each gives itself.

    tools/run read_rows_back [--server COMMAND]     without it the program that ./serve built

Of the queries whose reply has status 0 and at most 1,048,576 bytes. Status 1 where one differs.
"""

import argparse
import shlex
import sys

from tools.common.harness import Server, built
from tools.rows.tables import worked

LONGEST_QUERY = 1_048_576


def main() -> int:
    """Prints the replies that differ, and the counts; status 1 also where there are no replies."""
    parser = argparse.ArgumentParser(description=__doc__.partition("\n")[0])
    parser.add_argument("--server", metavar="COMMAND")
    words = parser.parse_args()
    server = Server(shlex.split(words.server) if words.server else [str(built())])
    texts = [row.text for row in worked()
             if row.kind == b"Q" and row.status == 0 and len(row.text) <= LONGEST_QUERY]
    wrong = [text for text in texts if server.ask(b"Q", text) != (0, text)]
    server.end()
    for text in wrong:
        print(f"does not give itself: {text[:200]!r}")
    print(f"{len(texts) - len(wrong)} of {len(texts)} replies of the worked rows give themselves")
    return 1 if wrong or not texts else 0


if __name__ == "__main__":
    sys.exit(main())
