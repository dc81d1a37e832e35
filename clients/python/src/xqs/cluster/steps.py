"""Steps in the work of a node at which tests end it, as a kill would; otherwise they do nothing.

`XQS_END_AT=STEP:COUNT` ends the process, without a word, when it passes that step for the count-th
time. Only tests set it.
"""

import os

NAMES = (
    "received", "decoded", "sent", "replied", "noted", "answered", "taken", "acknowledged",
    "published", "confirmed", "snapshot begun", "snapshot written", "snapshot named",
    "file ended", "file noted",
)
"""All steps: those of a message, of this node's writes, of a snapshot, of a file's end."""
VARIABLE = "XQS_END_AT"
STATUS = 86


class Plan:
    """When to end the process."""

    def __init__(self, text: str) -> None:
        self._step, _, count = text.partition(":")
        self._left = int(count or "1")

    def passed(self, step: str) -> None:
        """Ends the process if the plan says so."""
        if step == self._step:
            self._left -= 1
            if self._left == 0:
                os._exit(STATUS)


_PLAN = Plan(os.environ[VARIABLE]) if VARIABLE in os.environ else None


def passed(step: str) -> None:
    """Notes that the step was passed."""
    if _PLAN is not None:
        _PLAN.passed(step)
