"""What each command has to write for an input, and the status it has to end with, by the plain model."""

import answers
import sight
from answers import text_of
from reading import FaultAt

COMMANDS = {
    "replay": lambda data, _: answers.replay(data),
    "whatif": lambda data, _: answers.whatif(data),
    "script": lambda data, _: answers.script(data),
    "explain": sight.explain,
    "picture": sight.picture,
}


def answer(words, data):
    """The status and the output of a command, with its options and numbers, for an input."""
    try:
        return COMMANDS[words[0]](data, words[1:])
    except FaultAt as fault:
        return 1, text_of([f"fault line {fault.line} {fault.cause}"])
