"""What jobs write of their batches: a line that begins a batch, its rows, and a line that ends it, with a checksum."""
import os
import zlib
from collections import namedtuple

# Where the rows of a batch stand: in which file, from which byte on; how many they are, and the seconds of their flights.
Place = namedtuple("Place", "path begin rows seconds")


def entry(batch, rows, seconds):
    """What a job writes of a batch."""
    text = "\n".join(rows)
    return "".join(line + "\n" for line in (f"batch {batch}", *rows, f"done {batch} {seconds:.3f} {zlib.crc32(text.encode()):08x}"))


def done_in(line):
    """Of a line that ends a batch its number, the seconds of its flights and the checksum of its rows; or None."""
    parts = line.split(b" ")
    if len(parts) != 4 or parts[0] != b"done":
        return None
    _, batch, seconds, check = parts
    digits, thousandths = seconds[:-4], seconds[-3:]
    is_right = batch.isdigit() and digits.isdigit() and seconds[-4:-3] == b"." and thousandths.isdigit()
    is_right = is_right and len(check) == 9 and check.endswith(b"\n") and not check[:8].strip(b"0123456789abcdef")
    return (int(batch), float(seconds), int(check[:8], 16)) if is_right else None


def places_in(path):
    """The batches that a file has to their end, by number; none where it isn't there. It may be cut off anywhere, and have some twice."""
    return {number: place for number, place, _ in entries_in(path)}


def entries_in(path, here=0):
    """The same one by one, from a byte on at which an entry begins: the number, the place, and the byte at which the entry ends."""
    if not os.path.exists(path):
        return
    with open(path, "rb") as file:
        file.seek(here)
        begin, rows, check = here, 0, 0
        for line in file:
            here += len(line)
            done = done_in(line)
            if done and done[2] == check:
                yield done[0], Place(path, begin, rows, done[1]), here
            if done or line.startswith(b"batch "):
                begin, rows, check = here, 0, 0
            else:
                check = zlib.crc32(line.rstrip(b"\n"), zlib.crc32(b"\n", check) if rows else 0)
                rows += 1


def append(path, text):
    """Appends an entry in one piece, so that what others append stands before or behind it."""
    file = os.open(path, os.O_WRONLY | os.O_APPEND | os.O_CREAT, 0o666)
    try:
        raw = text.encode()
        while raw:
            raw = raw[os.write(file, raw) :]
    finally:
        os.close(file)
