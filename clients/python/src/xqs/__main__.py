"""`python3 -m xqs` is the command `xqs`."""

import sys

from xqs.cli import main

sys.exit(main())
