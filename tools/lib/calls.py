"""The library as Python calls it, and the calls that the tests make: the missions and cases, with the program's answers."""
import ctypes
import os
import subprocess
import sys

NO_MEMORY = 10
NO_ROOM = 100


def stop_without(top, tool, *files):
    """Ends a tool where one of the files isn't there that tools/build, tools/library and tools/web make."""
    for file in files:
        if not os.path.isfile(f"{top}/out/{file}"):
            maker = {"sift": "tools/build", "sift.wasm": "tools/web"}.get(file, "tools/library")
            print(f"{tool}: there is no out/{file}: {maker} makes it", file=sys.stderr)
            sys.exit(1)


class Library:
    """A shared library that has `sift_call`."""

    def __init__(self, path):
        self.call = ctypes.CDLL(path).sift_call
        bytes_and_length = [ctypes.c_char_p, ctypes.c_size_t]
        self.call.argtypes = [*bytes_and_length, *bytes_and_length, ctypes.c_void_p, ctypes.c_size_t, ctypes.POINTER(ctypes.c_size_t)]
        self.call.restype = ctypes.c_uint8

    def answer_in(self, words, given, size):
        """The status, the count and the room's bytes, of a room of so many bytes."""
        count, room = ctypes.c_size_t(), ctypes.create_string_buffer(max(size, 1))
        status = self.call(words, len(words), given, len(given), room, size, ctypes.byref(count))
        return status, count.value, room.raw[:size]

    def answer(self, words, given, size=65536):
        """The status and the text, in a room that is large enough."""
        status, count, room = self.answer_in(words, given, size)
        if status == NO_ROOM:
            return self.answer(words, given, count)
        return status, room[:count]


def cases(top, folder):
    """Of each mission and case: its name, its words as a text, its input, and the status and the text of the program."""
    subprocess.run([f"{top}/tools/cases", folder], check=True)
    with open(f"{folder}/statuses", encoding="utf-8") as lines:
        for name, status in (line.split() for line in lines):
            texts = []
            for kind in (".args", "", ".stdout"):
                path = f"{folder}/cases/{name}{kind}"
                with open(path, "rb") if os.path.exists(path) else open(os.devnull, "rb") as file:
                    texts.append(file.read())
            words, given, text = texts
            yield name, words, given, (int(status), text)
