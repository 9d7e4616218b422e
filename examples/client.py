#!/usr/bin/env python3
"""A client of a serving worldd: plays lines as one batch, and prints the answer.

    client.py ADDRESS LINE..
    client.py 7070 'add 0 1' 'get 0'
    client.py /run/worldd/socket 'add 0 1' 'get 0'

The address is a port of this machine, or the path of a socket.
"""
import socket
import sys


class Refused(Exception):
    """The server refused a batch as a whole, by this code."""


class World:
    """A connection to a server. It plays one batch after another."""

    def __init__(self, address: str) -> None:
        if address.isascii() and address.isdigit():
            if not 1 <= int(address) <= 65_535:
                raise ValueError("a port is a number from 1 to 65535")
            self.stream = socket.create_connection(("127.0.0.1", int(address)))
            self.stream.setsockopt(socket.IPPROTO_TCP, socket.TCP_NODELAY, 1)
        else:
            self.stream = socket.socket(socket.AF_UNIX)
            self.stream.connect(address)
        self.answers = self.stream.makefile("r", encoding="ascii", newline="\n")

    def play(self, *lines: str) -> tuple[int, list[str]]:
        """Plays a batch, and returns its tick and a word for each line."""
        if any(line == "end" or "\n" in line for line in lines):
            raise ValueError("an `end` or a newline within a batch would end it")
        self.stream.sendall("".join(f"{line}\n" for line in (*lines, "end")).encode("ascii"))
        answer = self.answers.readline()
        if not answer.endswith("\n"):
            raise ConnectionError("the connection broke: the batch was played as a whole, or not at all")
        if answer.startswith("fault "):
            raise Refused(f"the batch was refused by code {answer.split()[1]}")
        head, _, words = answer.rstrip("\n").partition(":")
        return int(head.removeprefix("tick ")), words.split()


def main() -> int:
    """Plays the batch of the command line."""
    if len(sys.argv) < 2:
        print(__doc__.strip(), file=sys.stderr)
        return 2
    try:
        tick, words = World(sys.argv[1]).play(*sys.argv[2:])
    except (Refused, OSError, ValueError) as error:
        print(f"client: {error}", file=sys.stderr)
        return 2 if isinstance(error, ValueError) else 1
    print(f"tick {tick}:", *words)
    return 0


if __name__ == "__main__":
    sys.exit(main())
