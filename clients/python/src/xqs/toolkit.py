"""The lines of `xqs shell` by prompt_toolkit; only this module imports it."""

from collections.abc import Callable, Iterable, Iterator
from pathlib import Path

from prompt_toolkit import PromptSession
from prompt_toolkit.completion import CompleteEvent, Completer, Completion
from prompt_toolkit.document import Document
from prompt_toolkit.history import FileHistory
from prompt_toolkit.key_binding import KeyBindings, KeyPressEvent

from xqs.session import Session, completions
from xqs.shell_texts import is_whole


class Words(Completer):
    """Completes addresses and names."""

    def __init__(self, session: Session, word_before: Callable[[str], str]) -> None:
        self._session, self._word_before = session, word_before

    def get_completions(
        self, document: Document, complete_event: CompleteEvent
    ) -> Iterable[Completion]:
        """The completions of the word before the cursor."""
        before = document.text_before_cursor
        word = self._word_before(before)
        for found in completions(self._session, word, before):
            yield Completion(found, start_position=-len(word))


def keys() -> KeyBindings:
    """Enter runs a text if it is whole, else it begins another line."""
    bindings = KeyBindings()

    @bindings.add("enter")
    def _(event: KeyPressEvent) -> None:
        buffer = event.current_buffer
        if is_whole(buffer.text + "\n"):
            buffer.validate_and_handle()
        else:
            buffer.insert_text("\n")

    return bindings


def typed(
    session: Session, history: Path, word_before: Callable[[str], str], prompts: tuple[str, str]
) -> Iterator[str]:
    """The user's input, text by text, to the end. `prompts` are those of a first line and of
    further lines."""
    prompt: PromptSession[str] = PromptSession(
        history=FileHistory(str(history)),
        completer=Words(session, word_before),
        complete_while_typing=False,
        key_bindings=keys(),
        multiline=True,
        prompt_continuation=prompts[1],
    )
    while True:
        try:
            yield prompt.prompt(prompts[0])
        except KeyboardInterrupt:
            continue
        except EOFError:
            return
