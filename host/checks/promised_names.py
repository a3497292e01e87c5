"""promised-names [FOLDER]: what docs/PROMISES.md names is there, as named.py says."""
from checks.named import named


def check(top):
    count, wrong = named(top, "PROMISES.md")
    return f"what docs/PROMISES.md names is there\tnames and paths {count}", wrong
