"""Who asked for memory, by the stack that refuse.c kept.

A program of Rattle's own compiler at opt_level 0 has a symbol for each function, no function in another one, and frames of one size
each, which the first instructions of a function tell. So its calls can be read off its stack. LLVM puts functions into one another;
there only some of the callers are found.
"""
import bisect
import re
import struct
import subprocess

# The first instructions of a function that push a register, or leave the stack as it is, and by how much they move it.
MOVES = {b"\x55": 8, b"\x53": 8, b"\x41\x54": 8, b"\x41\x55": 8, b"\x41\x56": 8, b"\x41\x57": 8, b"\xf3\x0f\x1e\xfa": 0, b"\x48\x89\xe5": 0}

# lea -N(%rsp), %r11, and the end of the loop that goes down to there: cmp %r11, %rsp; jne.
PROBES, PROBED = b"\x4c\x8d\x9c\x24", b"\x49\x3b\xe3\x75"


def lines_of(words):
    return subprocess.run(words, check=True, stdout=subprocess.PIPE, text=True).stdout.splitlines()


class Program:
    """The functions of a program: where each begins, its name, and the size of its frame."""

    def __init__(self, path):
        self.code, self.at, self.offset = self.text_of(path)
        rows = [line.split(None, 2) for line in lines_of(["nm", "--defined-only", "-n", path])]
        rows = [(int(row[0], 16), row[2]) for row in rows if len(row) == 3 and row[1] in "tT"]
        self.starts = [start for start, _name in rows]
        self.names = [self.plain(name) for _start, name in rows]

    @staticmethod
    def plain(name):
        """A function's path, without what its types and impls are for."""
        return re.sub(r"\+[^:]*", "", name.split("::<")[0].split("::{")[0])

    @staticmethod
    def text_of(path):
        for line in lines_of(["readelf", "-S", "-W", path]):
            words = line.split("]", 1)[-1].split()
            if words[:1] == [".text"]:
                at, offset, size = (int(word, 16) for word in words[2:5])
                with open(path, "rb") as file:
                    file.seek(offset)
                    return file.read(size), at, offset
        raise SystemExit(f"callers: {path} has no code")

    def place_of(self, address):
        """The number of the function that an address lies in, or none."""
        if not self.at <= address < self.at + len(self.code):
            return None
        place = bisect.bisect_right(self.starts, address) - 1
        return place if place >= 0 else None

    def frame_of(self, place):
        """How many bytes a function takes of the stack."""
        at, size = self.starts[place] - self.at, 0
        if self.code.startswith(PROBES, at):
            # A large frame is touched page by page first, down to this place, and the rest is taken behind that loop.
            size = -struct.unpack_from("<i", self.code, at + len(PROBES))[0]
            at = self.code.index(PROBED, at) + len(PROBED) + 1
        while True:
            found = next((it for it in MOVES if self.code.startswith(it, at)), None)
            if found:
                at, size = at + len(found), size + MOVES[found]
            elif self.code.startswith(b"\x48\x83\xec", at):
                return size + self.code[at + 3]
            elif self.code.startswith(b"\x48\x81\xec", at):
                return size + struct.unpack_from("<I", self.code, at + 3)[0]
            else:
                return size

    def callers(self, mark):
        """The names of the functions that were under way at a request for memory, the innermost one first."""
        with open(mark, "rb") as file:
            kept = file.read()
        if len(kept) < 32:
            return []
        base, frame = struct.unpack_from("<QQ", kept)
        stack, names = kept[16:], []
        # The frame begins with the caller's frame pointer; the address to which the request returns follows.
        at = 8
        while at + 8 <= len(stack):
            place = self.place_of(struct.unpack_from("<Q", stack, at)[0] - base)
            if place is None:
                break
            names.append(self.names[place])
            at += 8 + self.frame_of(place)
        return names
