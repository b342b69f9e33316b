#!/usr/bin/env python3
"""An app that has a node as its child process (`bsp serve std`): it asks for one thing at a time, so it never waits for a process to
begin or for a store to be loaded. It shows what is new behind the place that it keeps, and sees by the id of the last message that
it showed when its store was put back to an older copy. examples/app.txt has what it prints; the store is in a folder of its own,
which is taken away at the end."""
import contextlib
import json
import os
import shutil
import subprocess
import sys
import tempfile
import time

HERE = os.path.dirname(os.path.abspath(__file__))
BSP = os.environ.get('BSP', os.path.join(HERE, '..', 'crates', 'bsp', 'out', 'bsp'))


class Ended(Exception):
    """The node ended: what was asked last and not answered may be done or not."""


class Node:
    """A process that holds the store of a folder and answers."""

    def __init__(self, folder):
        # In a session of its own, so that a Ctrl-C at the app's terminal is not the node's: it ends when its input does.
        self.process = subprocess.Popen([BSP, 'serve', 'std'], cwd=folder, stdin=subprocess.PIPE, stdout=subprocess.PIPE,
                                        stderr=subprocess.PIPE, start_new_session=True)
        if self.process.stdout.readline() != b'node 1\n':
            raise self.ended()

    def ended(self):
        """Why the node is no more: its status, and its lines."""
        with contextlib.suppress(BrokenPipeError):
            self.process.stdin.close()
        self.process.stdout.close()
        with self.process.stderr as lines:
            return Ended(self.process.wait(), lines.read().decode())

    def ask(self, *words, body=b''):
        """What a command comes to: its status, its output and its error output."""
        told = b''.join(str(word).encode() + b'\0' for word in words)
        try:
            self.process.stdin.write(b'%d %d\n' % (len(told), len(body)) + told + body)
            self.process.stdin.flush()
        except BrokenPipeError:
            raise self.ended() from None
        try:
            status, *sizes = map(int, self.process.stdout.readline().split())
            out, error = map(self.read, sizes)
        except ValueError:
            raise self.ended() from None
        return status, out, error.decode()

    def read(self, size):
        data = self.process.stdout.read(size)
        if len(data) < size:
            raise ValueError('half an answer')
        return data

    def end(self):
        """Ends the node, by the end of its input: its status."""
        return self.ended().args[0]


class App:
    """A reader and writer of one group, whose place is kept in a file beside the store."""

    def __init__(self, folder, group):
        self.folder, self.group, self.kept = folder, group, os.path.join(folder, 'place')
        self.place, self.last = 0, ''
        if os.path.exists(self.kept):
            with open(self.kept) as file:
                self.place, self.last = json.load(file)
        self.node = Node(folder)

    def write(self, text):
        """Writes a message once, whatever comes between: asked again with the same time it says `already held`."""
        words = 'post', self.group, time.time_ns() // 1_000_000
        for _ in range(3):
            try:
                status, _, error = self.node.ask(*words, body=text.encode())
            except Ended:
                self.node = Node(self.folder)
                continue
            if status == 0 or error == 'refused: already held\n':
                return
            if status == 6:
                sys.exit(self.node.ended())   # it says why, and somebody has to look before another node begins
            if status != 12:
                sys.exit(error)
        sys.exit('the node does not stay')

    def lines(self, place, count):
        status, out, error = self.node.ask('inbox', place, count)
        if status:
            sys.exit(error)
        return [line.split() for line in out.decode().splitlines()]

    def show_news(self):
        """Shows what stands behind the place, and keeps the place behind what was shown."""
        if self.place and [line[0] for line in self.lines(self.place - 1, 1)] != [self.last]:
            print('  the store is an older copy: all is shown once more')
            self.place = 0
        while news := self.lines(self.place, 100):
            for ident, _, _, origin, _ in news:
                _, text, _ = self.node.ask('body', ident)
                print(f'  {self.place} from {origin}: {text.decode()}')
                self.place, self.last = self.place + 1, ident
                self.keep()

    def keep(self):
        """The old place stands until the new one is whole."""
        with open(self.kept + '.new', 'w') as file:
            json.dump([self.place, self.last], file)
        os.replace(self.kept + '.new', self.kept)

    def end(self):
        print(f'  the node ends with status {self.node.end()}')


def make_store(folder):
    """A store with a contact and a group: its id."""
    os.mkdir(folder, 0o700)
    for words in (['init'], ['contact'], ['group', 'note', '0', 'd']):
        told = subprocess.run([BSP, *words], cwd=folder, check=True, capture_output=True, text=True).stdout
    return told.split()[1]


def main():
    with tempfile.TemporaryDirectory() as top:
        folder, copy = os.path.join(top, 'alice'), os.path.join(top, 'copy')
        group = make_store(folder)
        print('An app writes, and shows what is new:')
        app = App(folder, group)
        app.write('shall we meet?')
        app.write('at noon')
        app.show_news()
        app.end()
        shutil.copy(os.path.join(folder, 'bsp.0'), copy)
        print('It begins again, where it was:')
        app = App(folder, group)
        app.write('by the river')
        app.show_news()
        print('The node is killed, and the app begins another one:')
        app.node.process.kill()
        app.write('I am late')
        app.show_news()
        app.end()
        print('The store is put back to a copy that was made before:')
        shutil.copy(copy, os.path.join(folder, 'bsp.0'))
        app = App(folder, group)
        app.show_news()
        app.write('where are you?')
        app.show_news()
        app.end()


main()
