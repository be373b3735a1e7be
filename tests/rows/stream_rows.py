"""Kinds of rows of what a run reads and writes, call by call, behind a library in front of the C library's."""
from tests.rows.faces import bytes_of, shown

CALLED, CHUNK = "CALLED_TO", 4096


def listing(program, fields, _):
    """The same by one byte a call, by five, and by all."""
    words = ["list", program.file("s", bytes_of(fields[0]))]
    whole, *others = (
        program.behind(CALLED, b"", words, write_most=size)[0][0] for size in (1 << 20, 1, 5)
    )
    return shown(whole) if others == [whole, whole] else "another"


def failed_listing(program, fields, _):
    words = ["list", program.file("s", bytes_of(fields[0]))]
    whole, _, _ = program.run(b"", words)
    bounds = dict(zip(("write_most", "write_fails"), fields[1:]))
    (output, errors, _), calls = program.behind(CALLED, b"", words, **bounds)
    failures = calls.count(["write", "-1"]) if errors == b"mixrev: T3 write failed\n" else 0
    return f"failures {failures}, bytes {len(output)}, a beginning: {str(whole.startswith(output)).lower()}"


def read(program, text, **bounds):
    """Each read of a source that is this text, with what it gave; the last ones are not made after one that failed."""
    (_, errors, _), calls = program.behind(CALLED, text, ["list", "-"], **bounds)
    gave = [int(it[1]) for it in calls if it[0] == "read"]
    return gave, errors == b"mixrev: T2 read failed: -\n"


def read_up_to(program, fields, _):
    """A text that fits is read to its end. A limit is that of a source: no more is read than one byte past it, whatever is there; here as many are over."""
    text, size, most = bytes_of(fields[0]), int(fields[1]), int(fields[2])
    gave, failed = read(program, text, read_most=size)
    over = read(program, b"*" * (1048577 + len(text[most:])), read_most=1 << 20)[0] if most < len(text) else [0]
    is_so = not failed and sum(gave) == len(text) and max(gave) <= size and sum(over) in (0, 1048577)
    return shown(text[:most]) + shown(text[most:]) if is_so else f"{gave} {over}"


def failed_read(program, fields, _):
    text = bytes_of(fields[0])
    gave, failed = read(program, text, read_most=fields[1], read_fails=fields[2])
    return f"failed, failures {gave.count(-1)}" if failed and len(gave) == int(fields[2]) else shown(text[:sum(gave)])


# Commands whose replies have so many bytes.
REPLIES = {3: ["set over off"], 10: ["show changes"], 11: ["show clock", "", "set over off"]}


def written(program, script, deck=b"", **bounds):
    """How many bytes each write of the replies took, what was written, and whether a write is reported to have failed."""
    script = "".join(f"{line}\n" for line in script).encode()
    bundle = b" END 0\n" + deck + b"%SCRIPT\n" + script
    (output, errors, _), calls = program.behind(CALLED, bundle, **bounds)
    return [int(it[1]) for it in calls if it[0] == "write"], output, errors == b"mixrev: T3 write failed\n"


def write(program, fields, _):
    """The replies have as many bytes as the texts: which of them stand written."""
    size, call, *texts = fields
    whole = "".join(texts)
    gave, output, failed = written(program, REPLIES[len(whole)], write_most=size, write_fails=call)
    is_so = all(it <= int(size) for it in gave) and failed == (-1 in gave)
    return ("failed, " if failed else "written, " * len(texts)) + f"[{whole[:len(output)]}], failures {gave.count(-1)}" if is_so else f"{gave}"


ERRNO = {"interrupted": 4, "would block": 11}


def each_call(program, fields, wanted):
    """Up to the first call that fails: after it the program makes no other. A read asks for one chunk at most."""
    size, (first, _) = int(fields[0]), map(int, fields[1].split("-"))
    gave, failed = read(program, b"*" * 20000, read_most=size, read_fails=first, fails_as=ERRNO["interrupted"])
    reads = [f"{'failed' if it < 0 else f'read {max(it, size) if it == CHUNK else it}'}/{at}/{gave[:at].count(-1)}" for at, it in enumerate(gave, 1)]
    took, _, broken = written(program, ["show cells 0 999"], write_most=size, write_fails=first, fails_as=ERRNO["interrupted"])
    writes = [f"{'failed' if it < 0 else f'written {it}'}/{at}/{took[:at].count(-1)}" for at, it in enumerate(took, 1)]
    seen = " ".join(f"{one} {other}" for one, other in zip(reads, writes))
    return wanted if failed and broken and len(gave) == len(took) == first and wanted.startswith(seen) else f"{seen}"


def device_read(program, fields, _):
    """A read that was interrupted, or would block, is one failure, and is not made again. How many bytes a read asks for is its chunk, or what is left
    up to the limit."""
    most, call = int(fields[0]), int(fields[1])
    gave, failed = read(program, b"*" * most, read_fails=call, fails_as=ERRNO[fields[2]])
    calls = len(gave) - (not call)  # without a failure one more finds the end
    asked = sum(min(CHUNK, most - CHUNK * at) for at in range(calls))
    return f"{'failed' if failed else sum(gave)}, calls {calls}, asked {asked}, failures {gave.count(-1)}"


def device_write(program, fields, _):
    """A reply of so many bytes or more is written by one call: of cells, or of all units where four tapes are full."""
    length, call = int(fields[0]), int(fields[1])
    tape = (b" ".join([b"+0102030405"] * 100) + b"\n") * 1000
    deck = b"%DEVICES\n" + b"".join(b"%%UNIT %d\n" % unit + tape for unit in range(4)) if length > 22 * 4000 else b""
    script = ["show all"] if deck else [f"show cells 0 {-(-length // 22) - 1}"]
    gave, output, failed = written(program, script, deck, write_fails=call, fails_as=ERRNO["interrupted"])
    is_so = failed and not output or gave == [len(output)] and len(output) >= length
    return f"{'failed' if failed else length}, calls {len(gave)}, asked {length}, failures {gave.count(-1)}" if is_so else f"{gave}"


KINDS = {"assembler listing": listing, "assembler failed listing": failed_listing, "stream read up to": read_up_to, "stream failed read": failed_read,
         "stream write": write, "stream each call": each_call, "stream device read": device_read, "stream device write": device_write}
