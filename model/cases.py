#!/usr/bin/env python3
"""Cases worked out by hand: a line behind others, and what the model has to answer."""

from __future__ import annotations

import unittest

from sheetbench import Server

# Each case: why, the lines before (their answers do not matter), the line, its
# answer with lines separated by blanks.
Case = tuple[str, list[str], str, str]


class CaseTest(unittest.TestCase):
    """Tests that go through cases."""

    def check(self, cases: list[Case]) -> None:
        for why, before, line, answer in cases:
            with self.subTest(why):
                server = Server()
                for earlier in before:
                    server.answer(earlier.encode())
                found = server.answer(line.encode())
                self.assertEqual(found.decode(), answer.replace(" ", "\n") + "\n")
