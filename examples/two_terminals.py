#!/usr/bin/env python3
"""Plays examples/chat.py: alice and bob each have a terminal (a pty), and write to each other; bob's chat is killed in the middle and
begun again, and goes on where it was. It prints what both terminals show, which examples/two_terminals.txt has. The stores are in a
folder of their own, which is taken away at the end."""
import os
import re
import subprocess
import sys
import tempfile
import threading
import time

HERE = os.path.dirname(os.path.abspath(__file__))
MOST = 60


class Terminal:
    """Somebody's terminal, where their chat runs."""

    def __init__(self, name, other, spec, top):
        self.name, self.words, self.top = name, (name, other, spec), top
        self.screen, self.seen = '', 0
        self.begin()

    def begin(self):
        self.master, inside = os.openpty()
        self.chat = subprocess.Popen([os.path.join(HERE, 'chat.py'), *self.words], cwd=self.top, stdin=inside, stdout=inside, stderr=inside,
                                     start_new_session=True)
        os.close(inside)
        threading.Thread(target=self.hear, args=(self.master,), daemon=True).start()

    def hear(self, master):
        try:
            while got := os.read(master, 4_096):
                self.screen += got.decode().replace('\r\n', '\n')
        except OSError:                                 # nobody has the other end
            pass

    def types(self, text):
        os.write(self.master, text.encode() + b'\n')

    def sees(self, line, seconds=MOST):
        """Waits until a line is shown, behind what was seen before."""
        end = time.monotonic() + seconds
        while not (met := re.compile(f'^{re.escape(line)}$', re.M).search(self.screen, self.seen)):
            if time.monotonic() > end:
                sys.exit(f'{self.name} does not see {line!r}:\n{self.screen}')
            time.sleep(0.02)
        self.seen = met.end()

    def asks_until(self, question, answer):
        """Asks again until this is the answer; only the last time stays on the screen that is printed."""
        end = time.monotonic() + MOST
        while True:
            before = len(self.screen)
            self.types(question)
            while not re.fullmatch(rf'{question}\n[^\n]+\n', self.screen[before:]):
                if time.monotonic() > end:
                    sys.exit(f'{self.name} is not told {answer!r}:\n{self.screen}')
                time.sleep(0.02)
            if self.screen.endswith(f'\n{answer}\n'):
                self.seen = len(self.screen)
                return
            self.screen = self.screen[:before]
            time.sleep(0.2)

    def is_killed(self):
        self.chat.kill()
        self.chat.wait()
        os.close(self.master)
        self.screen += '(it is killed, and begun again)\n'
        self.seen = len(self.screen)

    def quits(self):
        self.types('/quit')
        self.chat.wait(MOST)
        self.sees('/quit')


def main():
    with tempfile.TemporaryDirectory() as top:
        alice = Terminal('alice', 'bob', 'unixlisten:../meet', top)
        bob = Terminal('bob', 'alice', 'unix:../meet', top)
        alice.asks_until('/who', 'bob is here')
        alice.types('shall we meet?')
        alice.sees('0 me: shall we meet?')
        bob.sees('0 alice: shall we meet?')
        bob.types('/re 0 at noon')
        bob.sees('1 me (to 0): at noon')
        alice.sees('1 bob (to 0): at noon')
        bob.asks_until('/who', 'alice is here')
        bob.is_killed()
        alice.asks_until('/who', 'bob is not here')
        alice.types('/re 1 where?')
        alice.sees('2 me (to 1): where?')
        bob.begin()
        bob.sees('2 alice (to 1): where?')
        bob.types('/re 2 by the river')
        bob.sees('3 me (to 2): by the river')
        alice.sees('3 bob (to 2): by the river')
        alice.asks_until('/who', 'bob is here')
        alice.quits()
        bob.asks_until('/who', 'alice is not here')
        bob.quits()
        for person in (alice, bob):
            print(f"{person.name}'s terminal:\n{person.screen}", end='')
        print(f'they ended with {alice.chat.returncode} and {bob.chat.returncode}')


main()
