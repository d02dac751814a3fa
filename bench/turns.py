#!/usr/bin/env python3
"""Shows that a line's text is written before the next line is read: lines are sent one at a time, each when the text of the one before has come.

    bench/turns.py PROGRAM

PROGRAM is the built `keepd`. A program that reads ahead before it writes makes this wait for ten seconds and fail."""
import os
import select
import subprocess
import sys

WAIT = 10
LINES = 1000
CONFIG = (
    b'{"cluster":"zzzzz","ttl":100,"skew":1,"secret":"sesame","system_token":"sys","tokens":["alice"],"devices":[{"capacity":1000000}],'
    b'"servers":[{"uuid":"zzzzz-bi6l4-000000000000000"}],"mounts":[{"uuid":"zzzzz-nyw5e-000000000000000","server":0,"device":0}],'
    b'"versions":4,"trash_life":50}\n'
)
OPEN = b'{"open":"p%d","at":%d,"do":"put","token":"alice","server":0,"bytes":"%04x"}\n'
STEP = b'{"step":"p%d","at":%d}\n'


def text_of(source, ends):
    """What comes until a line ends so."""
    text = b""
    while not text.endswith(ends):
        ready, _, _ = select.select([source], [], [], WAIT)
        assert ready, "no text after %d seconds; so far %r" % (WAIT, text)
        piece = os.read(source.fileno(), 65536)
        assert piece, text
        text += piece
    return text


def main():
    program = subprocess.Popen([sys.argv[1], "run"], stdin=subprocess.PIPE, stdout=subprocess.PIPE)
    at = 1700000000000000000
    program.stdin.write(CONFIG)
    program.stdin.flush()
    for number in range(LINES):
        program.stdin.write(OPEN % (number, at, number))
        for word in (b"Absent\n", b"Written %d\n" % at):
            program.stdin.write(STEP % (number, at))
            program.stdin.flush()
            text = text_of(program.stdout, b"\n")
            assert word in text, (word, text)
    program.stdin.close()
    assert program.wait(WAIT) == 0
    print("%d lines, each sent when the text of the one before had come" % (2 * LINES))


if __name__ == "__main__":
    main()
