#!/usr/bin/env python3
"""The library from Python: scans, parses and changes a probe through the shared library.

    ./install --prefix DIR
    python3 include/example.py DIR/lib/libspoonharbor.so
"""
import ctypes
import sys

WORDS = 8  # SH_WORDS, SH_ROW_WORDS and SH_NODE_WORDS
NUMBER, OFFSET, LINE, COLUMN, FIRST, SECOND, COUNT, LENGTH = range(WORDS)
MISSING = 4294967295

Words = ctypes.POINTER(ctypes.c_uint32)
Text = ctypes.c_char_p
Size = ctypes.c_size_t
Number = ctypes.c_uint32


def opened(path):
    """The library with the types of the calls that are used here."""
    library = ctypes.CDLL(path)
    library.spoonharbor_version.restype = Number
    for name, arguments in {
        "scan": [Text, Size, Words, Size, Words],
        "parse": [Text, Size, Words, Size, Words, Words, Size, Words],
        "change": [Words, Size, Words, Number, Number, Number, Text, Size, Words, Size, Words],
    }.items():
        call = getattr(library, "spoonharbor_" + name)
        call.argtypes, call.restype = arguments, None
    return library


def words(count):
    return (ctypes.c_uint32 * count)()


class Document:
    """A text, its rows and the table that stands beside them."""

    def __init__(self, library, text):
        self.library, self.text = library, text.encode()
        self.rows, self.table = words((len(self.text) + 1) * WORDS), words(WORDS)
        library.spoonharbor_scan(self.text, len(self.text), self.rows, len(self.rows), self.table)

    def change(self, a, b, new):
        """Bytes a to b become the new text. The new rows stand in a buffer of their own."""
        new = new.encode()
        text = self.text[:a] + new + self.text[b:]
        rows, table = words((len(text) + 1) * WORDS), words(WORDS)
        self.library.spoonharbor_change(
            self.rows, len(self.rows), self.table, a, b, len(new), text, len(text), rows, len(rows), table
        )
        if table[NUMBER] == 0 or 11 <= table[NUMBER] <= 17:
            self.text, self.rows, self.table = text, rows, table
        return table[NUMBER]

    def parse(self):
        """The answer, and the nodes if there are any."""
        nodes, answer = words(self.table[COUNT] * WORDS), words(WORDS)
        self.library.spoonharbor_parse(
            self.text, len(self.text), self.rows, len(self.rows), self.table, nodes, len(nodes), answer
        )
        return answer, [nodes[at : at + WORDS] for at in range(0, answer[COUNT] * WORDS, WORDS)]

    def spelling(self, row):
        """What a row of the document's own table spells."""
        start, end = self.rows[row * WORDS + 1 : row * WORDS + 3]
        return self.text[start:end].decode()


def tell(document):
    answer, nodes = document.parse()
    rows = document.table[COUNT]
    if answer[NUMBER] != 0:
        print(f"{rows} rows, refused {answer[NUMBER]} at {answer[LINE]}:{answer[COLUMN]}")
        return
    names = [document.spelling(node[2]) for node in nodes if node[2] != MISSING]
    print(f"{rows} rows, {len(nodes)} nodes, names {' '.join(names)}")


def main():
    library = opened(sys.argv[1])
    version = library.spoonharbor_version()
    print(f"version {version >> 16}.{version >> 8 & 255}.{version & 255}")
    document = Document(library, "unit dome { // 0.1°\n    reg az = ctx.load_u64(0)\n}\n")
    tell(document)
    at = document.text.index(b"\n}")
    print("change", document.change(at, at, ";"))
    tell(document)
    print("change", document.change(0, 999, ""))
    tell(document)


main()
