"""Which of the files that a student handed in is the source, and what an editor did to it."""
import codecs
import re
import zipfile
import zlib

ENDINGS = (".mixal", ".mix", ".txt")
MOST = 1_200_000  # a source of a million bytes is refused: more of it is not read
NO_TEXT = re.compile(rb"\0|\A(%PDF-|\{\\rtf)")


class NoSource(Exception):
    """Why there is no source in what was handed in."""


def chosen(files):
    """The one file that is the source."""
    for ending in ENDINGS:
        fitting = [name for name in files if name.lower().endswith(ending)]
        if len(fitting) > 1:
            raise NoSource(f"{len(fitting)} files end by {ending}: hand in one")
        if fitting:
            return fitting[0]
    if len(files) != 1:
        raise NoSource(f"{len(files)} files, and none ends by {', '.join(ENDINGS)}" if files else "no file")
    return next(iter(files))


def mended(data):
    """The text of a source as mixrev reads it, and what was mended."""
    notes = []
    for mark, coding in ((codecs.BOM_UTF16_LE, "utf-16-le"), (codecs.BOM_UTF16_BE, "utf-16-be")):
        if data.startswith(mark):
            data = data[2:].decode(coding, "replace").encode()
            notes.append("was UTF-16")
    if data.startswith(codecs.BOM_UTF8):
        data = data[3:]
        notes.append("had a byte order mark")
    if b"\r" in data:
        data = data.replace(b"\r\n", b"\n").replace(b"\r", b"\n")
        notes.append("had CR at line ends")
    return data, notes


def source_of(files):
    """Of files, each with how it is opened, the one that is the source: its name, its text, and what was mended."""
    name = chosen(files)
    try:
        with files[name]() as file:
            text, notes = mended(file.read(MOST))
    except (zipfile.BadZipFile, zlib.error, EOFError, RuntimeError, NotImplementedError, OSError) as error:
        raise NoSource(f"{name} can't be read: {error}") from None
    if NO_TEXT.search(text):
        raise NoSource(f"{name} is not a text: hand in the source")
    return name, text, notes
