"""The command line of a script whose page says all that `--help` shows."""

from __future__ import annotations

import argparse


def parser(page: str | None) -> argparse.ArgumentParser:
    """A parser whose `--help` shows a module's page as it stands."""
    return argparse.ArgumentParser(
        description=page, formatter_class=argparse.RawDescriptionHelpFormatter)
