#!/usr/bin/env python3
"""Two people write to each other, each in a terminal of their own:

    examples/chat.py FOLDER NAME SPEC       as   examples/chat.py alice bob unixlisten:/tmp/meet
                                            and  examples/chat.py bob alice unix:/tmp/meet

FOLDER is where this person's store is, and is made where it is not there; NAME is how the other one is called, and SPEC where the two
meet. A line that is typed is a message; `/re N TEXT` answers the one of number N, `/who` says whether the other one is here, `/quit`
or the end of the input ends it. A node (`bsp serve std`) is the child of this program: it holds the store, keeps the link up, is asked
for one thing at a time, and tells what is new behind the place up to which all was shown, which is kept in the folder. So a chat that
is killed begins again where it was. examples/two_terminals.py plays it, and has what both terminals show."""
import os
import queue
import subprocess
import sys
import threading
import time

HERE = os.path.dirname(os.path.abspath(__file__))
BSP = os.path.abspath(os.environ.get('BSP', os.path.join(HERE, '..', 'crates', 'bsp', 'out', 'bsp')))


class Ended(Exception):
    """The node ended: what was asked last and not answered may be done or not."""


class Node:
    """A node over the store of a folder, which meets contact 0 at a place. What it tells beside its answers goes to `events`."""

    def __init__(self, folder, spec, events):
        self.answers, self.events = queue.Queue(), events
        with open(os.path.join(folder, 'log'), 'ab') as log:
            # In a session of its own, so that a Ctrl-C at the terminal is not the node's: it ends when its input does.
            self.process = subprocess.Popen([BSP, 'serve', 'std', '0', 'interactive', '1000', spec], cwd=folder, stderr=log,
                                            stdin=subprocess.PIPE, stdout=subprocess.PIPE, start_new_session=True)
        threading.Thread(target=self.hear, daemon=True).start()

    def hear(self):
        """Reads answers, which begin with a number, and notices, which begin with a word, to the end."""
        out = self.process.stdout
        out.readline()                                  # node 1
        while head := out.readline().split():
            sizes = [int(it) for it in head[-2:]] if head[0].isdigit() else [int(head[-1])]
            parts = [out.read(size) for size in sizes]
            if [len(it) for it in parts] != sizes:
                break
            if head[0].isdigit():
                self.answers.put((int(head[0]), parts[0], parts[1].decode()))
            else:
                self.events.put((head[0].decode(), int(head[1]), parts[0]))
        self.answers.put(None)
        self.events.put(('ended', self, b''))

    def ask(self, *words, body=b''):
        """What a command comes to: its status, its output and its error output."""
        told = b''.join(str(word).encode() + b'\0' for word in words)
        try:
            self.process.stdin.write(b'%d %d\n' % (len(told), len(body)) + told + body)
            self.process.stdin.flush()
        except BrokenPipeError:
            raise Ended from None
        answer = self.answers.get()
        if answer is None:
            raise Ended
        return answer

    def end(self):
        self.process.stdin.close()
        self.process.wait()


def make_store(folder):
    """Makes a store with one contact and one group of replies, as far as they are not there: the group's id."""
    def bsp(*words):
        it = subprocess.run([BSP, *words], cwd=folder, capture_output=True, text=True)
        if it.returncode not in (0, 3) and it.stderr != 'refused: group exists\n':
            sys.exit(f'bsp {words[0]}: {it.stderr}')
        return it.stdout

    os.makedirs(folder, 0o700, exist_ok=True)
    bsp('init')
    if bsp('show').startswith('contacts 0\n'):
        bsp('contact')
    bsp('group', 'thread', '0', 'chat')
    group, = (line.split()[1] for line in bsp('show').splitlines() if line.startswith('group '))
    bsp('share', '0', group, 'shared')
    return group


class Chat:
    """What one person sees and writes."""

    def __init__(self, folder, name, spec):
        self.folder, self.spec = folder, spec
        self.names = {'self': 'me', '0': name}
        self.events = queue.Queue()
        self.group = make_store(folder)
        self.kept = os.path.join(folder, 'place')
        self.ids = []                                   # of all that was shown, in order
        self.node = Node(folder, spec, self.events)
        self.begin()

    def begin(self):
        """Looks at what was shown before, and asks to be told what comes behind it."""
        place = 0
        if os.path.exists(self.kept):
            with open(self.kept) as file:
                place = int(file.read())
        _, out, _ = self.node.ask('inbox', 0, place)
        self.ids = [line.split()[0] for line in out.decode().splitlines()]
        self.node.ask('watch', len(self.ids))

    def show(self, place, lines):
        """Shows lines of the inbox from a place on, but what was shown already, and keeps the place behind each; the old place stands
        until the new one is whole."""
        for line in lines[len(self.ids) - place:]:
            ident, _, _, origin, _ = line.split()
            _, body, _ = self.node.ask('body', ident)
            count = body[0]
            to = ''.join(f' (to {self.ids.index(it)})' for it in (body[1 + 32 * n:33 + 32 * n].hex() for n in range(count)))
            print(f'{len(self.ids)} {self.names[origin]}{to}: {body[1 + 32 * count:].decode()}', flush=True)
            self.ids.append(ident)
            with open(self.kept + '.new', 'w') as file:
                file.write(str(len(self.ids)))
            os.replace(self.kept + '.new', self.kept)

    def write(self, text, parents=()):
        """Writes a message once, whatever comes between: asked again with the same time it says `already held`."""
        words = 'post', self.group, time.time_ns() // 1_000_000
        body = bytes([len(parents)]) + b''.join(map(bytes.fromhex, parents)) + text.encode()
        for _ in range(3):
            try:
                status, _, error = self.node.ask(*words, body=body)
            except Ended:
                self.node = Node(self.folder, self.spec, self.events)
                self.begin()
                continue
            if status not in (0, 10) and error != 'refused: already held\n':
                print(error, end='', flush=True)
            if status != 10 or self.node.ask('compact')[0] != 0:
                return

    def who(self):
        """Whether the link to the other one is up."""
        _, out, _ = self.node.ask('status')
        state = next(line.split()[3] for line in out.decode().splitlines() if line.startswith('link 0 '))
        print(f'{self.names["0"]} is here' if state == 'up' else f'{self.names["0"]} is not here', flush=True)

    def typed(self, line):
        """Does what a line asks for, and says whether the chat goes on."""
        word, _, rest = line.partition(' ')
        number, _, text = rest.partition(' ')
        if word == '/quit':
            return False
        if word == '/who':
            self.who()
        elif word == '/re' and number.isdigit() and int(number) < len(self.ids):
            self.write(text, [self.ids[int(number)]])
        elif word.startswith('/'):
            print('/re N TEXT answers a message, /who says who is here, /quit ends', flush=True)
        elif line:
            self.write(line)
        return True

    def run(self):
        def read():
            for line in sys.stdin:
                self.events.put(('typed', 0, line.rstrip('\n')))
            self.events.put(('typed', 0, '/quit'))

        threading.Thread(target=read, daemon=True).start()
        while True:
            what, number, data = self.events.get()
            if what == 'deliver':
                self.show(number, data.decode().splitlines())
            elif what == 'ended' and number is self.node:
                raise Ended
            elif what == 'typed' and not self.typed(data):
                return self.node.end()


if __name__ == '__main__':
    if len(sys.argv) != 4:
        sys.exit(__doc__)
    try:
        Chat(*sys.argv[1:]).run()
    except Ended:
        sys.exit(f'the node ended, and {sys.argv[1]}/log says why')
