"""Tries a check on made-up folders. A test is a name, the files of a folder, and what the check must say of it ('' if all is well)."""
import contextlib
import pathlib
import tempfile
import traceback


@contextlib.contextmanager
def folder(files):
    with tempfile.TemporaryDirectory() as room:
        for name, text in files.items():
            path = pathlib.Path(room, name)
            path.parent.mkdir(parents=True, exist_ok=True)
            path.write_text(text)
        yield pathlib.Path(room)


def results(check, cases):
    """Each test's name, whether it held, and what the check said."""
    for name, files, wanted in cases:
        with folder(files) as top:
            try:
                said = "\n".join(check(top)[1])
                yield name, wanted in said if wanted else not said, said
            except Exception:
                yield name, False, traceback.format_exc()
