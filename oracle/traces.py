"""What a command does to the two files of its folder, and what it says, from a trace of its system calls by strace.

An event is a tuple: `made FILE`, `write FILE PLACE BYTES`, `cut FILE LENGTH`, `sync FILE`, `names` (the folder was synced), `parent`
(the folder above it was), `out BYTES` (on the standard output), `sent BYTES` (on a socket), `failed WHAT CALL FD ASKED` where a call had
an error, with WHAT a file, `folder`, `parent`, `out`, `socket` or None, `drop FILE FD` (its cached pages were let go of), and `close FD`.
A call that could change a file otherwise is an error here, so that nothing is overlooked.
"""
import os
import re

NAMES = ('bsp.0', 'bsp.1')
CALLS = ('openat open creat close dup dup2 dup3 fcntl lseek write pwrite64 writev pwritev pwritev2 ftruncate truncate fallocate '
         'fdatasync fsync sync sync_file_range syncfs msync copy_file_range sendfile splice fadvise64 rename renameat renameat2 link '
         'linkat symlink symlinkat unlink unlinkat socket accept4 accept sendto sendmsg sendmmsg')
OPTIONS = ('-qq', '-xx', '-a', '0', '-s', '100000000', '-e', 'signal=none', '-e', 'trace=' + CALLS.replace(' ', ','))
LINE = re.compile(r'(\w+)\((.*)\) += (-?\d+|\?)(.*)')
TEXT = re.compile(r'"((?:\\x[0-9a-f]{2})*)"')


class Unknown(Exception):
    """A call that the events can't tell."""


def text_of(args):
    """The strings among the arguments, one behind the other."""
    return b''.join(bytes.fromhex(found.replace('\\x', '')) for found in TEXT.findall(args))


def first_number(args):
    return int(args.split(',', 1)[0])


class Opened:
    """What a descriptor is of: a file's number, `folder`, `parent`, `out`, `socket` or None; and its place."""

    def __init__(self, what):
        self.what, self.at = what, 0


class Trace:
    """The events of one command in a folder; `present` are the numbers of the files that are there before it."""

    def __init__(self, folder, present=()):
        self.folder, self.present = folder, set(present)
        self.opened = {1: Opened('out')}
        self.events = []

    def read(self, lines):
        for line in lines:
            if (found := LINE.fullmatch(line.rstrip('\n'))) and found[3] != '?':
                call, args, answer, rest = found[1], found[2], int(found[3]), found[4]
                self.take(call, args, answer, rest)
            elif not line.startswith(('+++', '---')):
                raise Unknown(line[:200])
        return self.events

    def what_is(self, path):
        path = os.path.normpath(os.path.join(self.folder, os.fsdecode(path)))
        if os.path.dirname(path) == self.folder and os.path.basename(path) in NAMES:
            return NAMES.index(os.path.basename(path))
        return {self.folder: 'folder', os.path.dirname(self.folder): 'parent'}.get(path)

    def take(self, call, args, answer, rest):
        it = self.opened.get(first_number(args)) if args[:1].isdigit() else None
        what = it.what if it else None
        if answer < 0:
            if it and call != 'lseek' and not 'EAGAIN' in rest:
                self.events.append(('failed', what, call, first_number(args), self.asked_for(call, args, it)))
            return
        does = getattr(self, 'take_' + call, None)
        if does:
            does(args, answer, it)
        elif what in (0, 1) or call in ('sync', 'syncfs', 'truncate', 'creat', 'open'):
            raise Unknown(f'{call}({args[:100]})')

    def asked_for(self, call, args, it):
        """What a call that failed may have done all the same: a write with its place and bytes, a cut with its length, or None."""
        if call == 'write' and it.what in (0, 1):
            return ('write', it.at, text_of(args))
        if call == 'ftruncate' and it.what in (0, 1):
            return ('cut', int(args.split(', ')[1]))
        return None

    def take_openat(self, args, answer, _):
        what = self.what_is(text_of(args)) if args.startswith('AT_FDCWD, ') else None
        self.opened[answer] = Opened(what)
        if what in (0, 1):
            if 'O_TRUNC' in args or 'O_APPEND' in args or 'O_DSYNC' in args or 'O_SYNC' in args:
                raise Unknown(args[:100])
            if 'O_CREAT' in args and what not in self.present:
                self.present.add(what)
                self.events.append(('made', what))

    def take_close(self, args, *_):
        self.opened.pop(first_number(args), None)
        self.events.append(('close', first_number(args)))

    def take_dup(self, args, answer, it):
        self.opened[answer] = it or Opened(None)

    def take_fcntl(self, args, answer, it):
        if 'F_DUPFD' in args:
            self.opened[answer] = it or Opened(None)

    def take_lseek(self, _, answer, it):
        if it:
            it.at = answer

    def take_write(self, args, answer, it):
        self.say(it, text_of(args)[:answer])

    take_writev = take_write

    def take_sendto(self, args, answer, it):
        self.say(it, TEXT.search(args) and text_of(TEXT.search(args)[0])[:answer] or b'')

    def say(self, it, content):
        what = it.what if it else None
        if what in (0, 1):
            self.events.append(('write', what, it.at, content))
            it.at += len(content)
        elif what in ('out', 'socket'):
            self.events.append(('out' if what == 'out' else 'sent', content))

    def take_ftruncate(self, args, _, it):
        if it and it.what in (0, 1):
            self.events.append(('cut', it.what, int(args.split(', ')[1])))

    def take_fdatasync(self, _, __, it):
        self.synced(it)

    take_fsync = take_fdatasync

    def synced(self, it):
        what = it.what if it else None
        if what in (0, 1):
            self.events.append(('sync', what))
        elif what in ('folder', 'parent'):
            self.events.append(('names',) if what == 'folder' else ('parent',))

    def take_fadvise64(self, args, _, it):
        if it and it.what in (0, 1) and re.fullmatch(r'\d+, 0, 0, POSIX_FADV_DONTNEED', args):
            self.events.append(('drop', it.what, first_number(args)))

    def take_socket(self, _, answer, __):
        self.opened[answer] = Opened('socket')

    take_accept4 = take_accept = take_socket

    def named(self, args, *_):
        paths = [bytes.fromhex(found.replace('\\x', '')) for found in TEXT.findall(args)]
        if any(self.what_is(path) in (0, 1) for path in paths):
            raise Unknown(args[:100])

    take_rename = take_renameat = take_renameat2 = take_link = take_linkat = named
    take_symlink = take_symlinkat = take_unlink = take_unlinkat = named
