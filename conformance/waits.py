"""Which cases wait, and for what."""
import pathlib

WAITING = pathlib.Path(__file__).resolve().parent / "waiting"


def waiting_list():
    """The cases that wait, each with the name of the capability that it waits for."""
    waits = {}
    for line in WAITING.read_text().splitlines():
        words = line.split("#")[0].split(None, 1)
        if words:
            waits[words[0]] = words[1].strip() if len(words) > 1 else ""
    return waits
