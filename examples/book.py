"""A book in Python, over the shared object: frames added and listed, and power lost at every entry of an addition.

Where the library is not in one of the dynamic linker's folders:
LD_LIBRARY_PATH=$(pkg-config --variable=libdir reelbook) python3 book.py"""

import ctypes

HEADS, HEAD_WORDS = 4, 5
SCRIPT_WORDS, HEADS_WORDS, BARRIER = 50, HEADS * HEAD_WORDS, 2**64 - 1
SLICE = [ctypes.POINTER(ctypes.c_uint64), ctypes.c_size_t]
TABLE = [ctypes.c_char_p, ctypes.c_size_t]
ARRAY = COUNT = [ctypes.POINTER(ctypes.c_uint64)]
NUMBER = [ctypes.c_uint64]

library = ctypes.CDLL("libreelbook.so.5")
for name, arguments in {
    "format": 2 * SLICE + ARRAY + TABLE + 2 * NUMBER,
    "recover": 2 * SLICE + ARRAY,
    "open": 3 * SLICE + NUMBER + COUNT,
    "claim": 2 * SLICE + ARRAY + SLICE + 3 * NUMBER + 2 * COUNT,
    "fill": SLICE + ARRAY + SLICE + NUMBER + COUNT,
    "commit": SLICE + ARRAY + SLICE + NUMBER + COUNT,
    "has": SLICE + 2 * NUMBER + 2 * COUNT,
    "list": 3 * SLICE + NUMBER + COUNT,
}.items():
    function = getattr(library, "reelbook_" + name)
    function.argtypes, function.restype = arguments, ctypes.c_uint64


class PowerFailure(Exception):
    pass


def words(count, contents=()):
    return (ctypes.c_uint64 * count)(*contents)


class Book:
    """In ordinary memory. table, if not empty, is the book's own: 256 bytes, each value once. lasting is the image at the last
    barrier; power, if not None, suffices for so many entries; left is how many clear places the node of the last frame has
    left."""

    def __init__(self, reels=4, nodes=16, table=b""):
        self.image, self.map, self.heads = words(64 + 2 * reels + 80 * nodes), words((nodes + 63) // 64), words(HEADS_WORDS)
        self.script, self.used, self.left, self.power = words(SCRIPT_WORDS), ctypes.c_uint64(), ctypes.c_uint64(), None
        self.call("format", self.image, self.map, self.heads, table, reels, nodes)
        self.lasting = list(self.image)

    def call(self, operation, *arguments):
        flat = []
        for argument in arguments:  # a slice is a pointer and a length; the heads are an array, without one
            is_slice = isinstance(argument, (ctypes.Array, bytes)) and argument is not self.heads
            flat += [argument, len(argument)] if is_slice else [argument]
        answer = getattr(library, "reelbook_" + operation)(*flat)
        if answer != 0:
            raise ValueError(f"{operation}: refused {answer}")

    def operate(self, operation, *arguments, more=()):
        self.call(operation, *arguments, ctypes.byref(self.used), *more)
        for at in range(0, self.used.value, 2):
            if self.power is not None:
                if self.power == 0:
                    raise PowerFailure
                self.power -= 1
            index, value = self.script[at : at + 2]
            if index == BARRIER:
                self.lasting = list(self.image)
            else:
                self.image[index] = value

    def open(self, reel):
        self.operate("open", self.image, self.map, self.script, reel)

    def add(self, reel, frame):
        self.operate("claim", self.image, self.map, self.heads, self.script, 0, reel, frame, more=[ctypes.byref(self.left)])
        self.operate("fill", self.image, self.heads, self.script, 0)
        self.operate("commit", self.image, self.heads, self.script, 0)

    def has(self, reel, frame):
        """Whether it is held, and how many nodes are on its path."""
        yes, nodes = ctypes.c_uint64(), ctypes.c_uint64()
        self.call("has", self.image, reel, frame, ctypes.byref(yes), ctypes.byref(nodes))
        return yes.value == 1, nodes.value

    def list(self, reel):
        frames, count = words(64 * self.image[2]), ctypes.c_uint64()
        self.call("list", self.image, words(len(self.map)), frames, reel, ctypes.byref(count))
        return frames[: count.value]

    def recover(self):
        self.call("recover", self.image, self.map, self.heads)


def frames_after_failure(entries, kept):
    """Power fails after so many entries of adding frame 13; the stores since the last barrier are kept, or lost."""
    book = Book()
    book.open(7)
    book.add(7, 12)
    book.power = entries
    try:
        book.add(7, 13)
    except PowerFailure:
        pass
    if not kept:
        book.image[:] = book.lasting
    book.map[:], book.heads[:] = [BARRIER] * len(book.map), [BARRIER] * HEADS_WORDS  # lost: anything may be in them
    book.recover()
    book.power = None
    book.open(8)  # the book goes on: its map has free nodes again
    return book.list(7)


def main():
    book = Book()
    book.open(7)
    for frame in 12, 5, 2**64 - 1:
        book.add(7, frame)
    print("reel 7:", *book.list(7), "places left:", book.left.value)
    for frame in range(100, 165):
        book.add(7, frame)
    for frame in 5, 6:
        held, nodes = book.has(7, frame)
        print("65 frames later: frame", frame, "held," if held else "not held,", "nodes on its path:", nodes)
    own = Book(table=bytes(range(255, -1, -1)))
    own.open(7)
    own.add(7, 12)
    own.recover()
    print("with its own table:", *own.list(7))
    for kept in True, False:
        held = [frames_after_failure(entries, kept) for entries in range(9)]
        assert all(frames in ([12], [12, 13]) for frames in held)
        print("power lost, stores", "kept:" if kept else "lost:", "frame 13 is held after entry", held.index([12, 13]), "of 8")


main()
