#!/usr/bin/env python3
"""Asks a built file questions over a pipe that stays open.

    examples/client.py FILE QUESTION..           as in  examples/client.py island.pemb "node 1" "face 0"
    examples/client.py --time FILE QUESTION..    the same questions over and over: answers a second

The class stands alone and may be copied.
"""

import itertools
import os
import re
import subprocess
import sys
import time


class Topology:
    """A map that is served from a file, by one process for as long as this object is open."""

    QUESTION = re.compile(r"[a-z]{1,8}( -?[0-9]{1,10}){0,2}")  # each gets one line as its answer
    AT_ONCE = 200  # so many questions fit into a pipe, so that no write waits for a read

    def __init__(self, file, program="./tackcherry"):
        self.server = subprocess.Popen([program, "query", file], stdin=subprocess.PIPE, stdout=subprocess.PIPE)
        try:
            self.ask("counts")
        except ValueError:  # with the program's line: the file is missing or refused
            self.close()
            raise

    def ask(self, question):
        """The items of the answer as texts, or None where the map lacks what is asked for."""
        return self.ask_all([question])[0]

    def ask_all(self, questions):
        """The answers to many questions, with fewer turns between the two processes than one by one."""
        answers = []
        for some in (questions[i:i + self.AT_ONCE] for i in range(0, len(questions), self.AT_ONCE)):
            if not all(map(self.QUESTION.fullmatch, some)):
                raise ValueError("not a question")
            try:
                self.server.stdin.write("".join(question + "\n" for question in some).encode())
                self.server.stdin.flush()
            except BrokenPipeError:
                pass  # the server has ended, and what it wrote says why
            answers += map(self.read, some)
        return answers

    def read(self, question):
        answer = self.server.stdout.readline().decode()
        if not answer.startswith(question + ":"):
            raise ValueError(answer.strip() or f"the server ended with status {self.server.wait()}")
        items = answer[len(question) + 1:].split()
        return None if items == ["unknown"] else items

    def close(self):
        """Ends the server, and gives its exit status."""
        try:
            self.server.communicate()
        except BrokenPipeError:
            pass
        return self.server.wait()

    def __enter__(self):
        return self

    def __exit__(self, *_):
        self.close()


def tell_speed(topology, questions, seconds=3):
    """Prints how many answers a second come where each is awaited, and where many questions are written at once."""
    for at_once in 1, Topology.AT_ONCE:
        source = itertools.cycle(questions)
        asked, start = 0, time.perf_counter()
        while time.perf_counter() - start < seconds:
            topology.ask_all(list(itertools.islice(source, at_once)))
            asked += at_once
        print(f"{at_once} at a time: {asked / (time.perf_counter() - start):,.0f} answers a second")


def main(file, questions, timed):
    program = os.path.join(os.path.dirname(os.path.dirname(os.path.abspath(__file__))), "tackcherry")
    with Topology(file, program) as topology:
        if timed:
            tell_speed(topology, questions)
        else:
            for question in questions:
                items = topology.ask(question)
                print(f"{question} ->", "unknown" if items is None else " ".join(items))


if __name__ == "__main__":
    words = [word for word in sys.argv[1:] if word != "--time"]
    if len(words) < 2:
        sys.exit(__doc__)
    main(words[0], words[1:], "--time" in sys.argv)
