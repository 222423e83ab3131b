#!/usr/bin/env python3
"""Checks a policy, compiles it, and serves the request lines of standard input: session.py LIBRARY POLICY

LIBRARY is a shared object that is made of the archive:
cc -shared -o libifsvm.so -Wl,--whole-archive libifsvm.a -Wl,--no-whole-archive
"""
import sys
from ctypes import CDLL, POINTER, Structure, byref, c_char_p, c_size_t, c_uint32, create_string_buffer
from pathlib import Path

CHECK, COMPILE = 0, 1
GOOD, REFUSED, OUT_OF_MEMORY, SHORT = 0, 1, 2, 3


class Lengths(Structure):
    _fields_ = [("text", c_size_t), ("file", c_size_t)]


class Library:
    """The functions of the library, over bytes."""

    def __init__(self, path):
        functions = CDLL(path)
        given, lent = [c_char_p, c_size_t], [c_char_p, c_size_t]
        self.of_answer = functions.ifs_page_answer
        self.of_answer.argtypes = [c_uint32, *given, *given, *lent, *lent, POINTER(Lengths)]
        self.of_answer.restype = c_uint32
        self.of_session = functions.ifs_page_session
        self.of_session.argtypes = [*given, *given, *lent, POINTER(c_size_t)]
        self.of_session.restype = c_uint32

    def answer(self, word, data, definitions=b""):
        """The status of a word, what it prints of an input, and the image that it writes."""
        lengths = Lengths(1 << 16, 1 << 16)
        status = SHORT
        while status == SHORT:
            text, file = create_string_buffer(lengths.text + 1), create_string_buffer(lengths.file + 1)
            status = self.of_answer(
                word, data, len(data), definitions, len(definitions), text, lengths.text, file, lengths.file, byref(lengths)
            )
        if status > REFUSED:
            return status, b"", b""
        return status, text.raw[: lengths.text], file.raw[: lengths.file]

    def session(self, image, requests):
        """The status of a session on an image, and its replies to these request lines."""
        length = c_size_t(1 << 16)
        status = SHORT
        while status == SHORT:
            room = length.value
            replies = create_string_buffer(room + 1)
            status = self.of_session(image, len(image), requests, len(requests), replies, room, byref(length))
        return status, replies.raw[: length.value] if status == GOOD else b""


def main():
    if len(sys.argv) != 3:
        sys.exit(__doc__)
    library = Library(sys.argv[1])
    policy = Path(sys.argv[2]).read_bytes()
    image = b""
    for word in (CHECK, COMPILE):
        status, text, image = library.answer(word, policy)
        sys.stdout.buffer.write(text)
        if status != GOOD:
            sys.exit(1 if status == REFUSED else 3)
    status, replies = library.session(image, sys.stdin.buffer.read())
    sys.stdout.buffer.write(replies)
    sys.exit(0 if status == GOOD else 3)


if __name__ == "__main__":
    main()
