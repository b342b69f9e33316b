"""A disk of two files as it is changed call by call, and what a crash may leave of it, as docs/ARCHITECTURE.md has it under
"Moments and images": each place below the least length since the last sync, over which nothing was written since, is as it was
then; a place that was written may hold anything; the length is one between the least and the greatest since; the name of a file that
was made may be gone until the folder was synced.

Of these images those are made that a disk most likely leaves, and some that it hardly does: every change but one is there, and this
one is there up to a byte, from a byte on, or not at all, with what stood there, zeros, ones or noise in the place of the rest; or
none of those behind it is there; or any part of each is. It shares nothing with the program.
"""

# how many bytes of a write are torn at each place, and at how many places a longer one
EACH, DRAWN = 96, 24
FILLS = ('old', 'zeros', 'ones', 'noise')


class File:
    """A file: its bytes at its last sync, those as they read, and the changes between the two."""

    def __init__(self, content):
        self.is_there, self.is_named = content is not None, content is not None
        self.durable, self.now = content or b'', bytearray(content or b'')
        self.changes, self.least, self.greatest = [], len(self.now), len(self.now)

    def note(self, change):
        if change:
            self.changes.append(change)
        self.least, self.greatest = min(self.least, len(self.now)), max(self.greatest, len(self.now))

    def write(self, at, written):
        done(self.now, ('write', at, written))
        self.note(('write', at, bytes(written)))

    def cut(self, length):
        done(self.now, ('cut', length))
        self.note(('cut', length))

    def sync(self):
        self.durable, self.changes = bytes(self.now), []
        self.least = self.greatest = len(self.now)

    def is_pending(self):
        return bool(self.changes) or self.is_there and not self.is_named


def done(content, change):
    """Makes a change of some content."""
    if change[0] == 'cut':
        del content[change[1]:]
        content.extend(bytes(change[1] - len(content)))
        return
    _, at, written = change
    if len(content) < at:
        content.extend(bytes(at - len(content)))
    content[at:at + len(written)] = written


class Images:
    """What a crash may leave of a disk, drawn by a source of random numbers."""

    def __init__(self, draws, each=EACH, drawn=DRAWN):
        self.draws, self.each, self.drawn = draws, each, drawn

    def of_disk(self, files):
        """Pairs of contents, None where a name is not there. One file at a time has all its images."""
        whole = tuple(bytes(file.now) if file.is_there else None for file in files)
        yield whole
        for number, file in enumerate(files):
            for image in self.of_file(file):
                pair = list(whole)
                pair[number] = image
                yield tuple(pair)
        if all(file.is_pending() for file in files):
            drawn = [self.draws.sample(some, min(len(some), 4 * self.drawn)) for some in (list(self.of_file(f)) for f in files)]
            yield from zip(*drawn)

    def of_file(self, file):
        """Contents of one file; it is the same as it reads where nothing is pending."""
        if not file.is_there:
            return
        if not file.is_named:
            yield None
        if not file.changes:
            return
        yield self.with_length(file, bytearray(file.durable), len(file.durable))
        for number, change in enumerate(file.changes):
            for part, length in self.parts(file, number, change):
                front = [*file.changes[:number], part]
                yield self.made(file, front, length)
                if number + 1 < len(file.changes):
                    yield self.made(file, [*front, *file.changes[number + 1:]], length)
        for _ in range(self.drawn):
            yield self.any_part(file)

    def parts(self, file, number, change):
        """What may be there of a change, None for nothing of it, each with a length of the file."""
        if change[0] == 'cut':
            for length in (file.least, file.greatest, self.length_of(file), self.length_of(file)):
                yield None, length
            yield change, file.least
            yield change, self.length_of(file)
            return
        _, at, written = change
        stood = bytearray(file.durable)
        for before in file.changes[:number]:
            done(stood, before)
        size, end = len(written), max(len(stood), at + len(written))
        for torn in self.places(size):
            for fill in FILLS:
                rest = self.filled(fill, stood[at + torn:at + size], size - torn)
                yield ('write', at, written[:torn] + rest), end
            yield ('write', at, written[:torn]), max(len(stood), at + torn)
            yield ('write', at, written[:torn] + self.noise(size - torn)), self.length_of(file)
            head = self.filled(self.draws.choice(FILLS), stood[at:at + torn], torn)
            yield ('write', at, head + written[torn:]), end

    def places(self, size):
        """Where a write of this size is torn."""
        if size <= self.each:
            return range(size + 1)
        drawn = self.draws.sample(range(size), self.drawn)
        sectors = [at for at in (512, 4_096, 8_192) if at < size]
        return sorted({0, 1, 3, 4, 5, size - 2, size - 1, size, *sectors, *drawn})

    def filled(self, fill, stood, size):
        if fill == 'old':
            return bytes(stood) + bytes(size - len(stood))
        return {'zeros': bytes(size), 'ones': b'\xff' * size}.get(fill) if fill != 'noise' else self.noise(size)

    def noise(self, size):
        # bytes 0 and 1 mean something at a gate, so they come often
        if self.draws.randrange(4) == 0:
            return bytes(self.draws.choice((0, 1, 255)) for _ in range(size)) if size < 4_096 else b'\1' * size
        return self.draws.randbytes(size)

    def length_of(self, file):
        return self.draws.randint(file.least, file.greatest)

    def made(self, file, changes, length):
        """With these changes, None for one that was not made."""
        content = bytearray(file.durable)
        for change in changes:
            if change:
                done(content, change)
        return self.with_length(file, content, length)

    def any_part(self, file):
        """Any part of each change, byte by byte or by sectors, and any length."""
        content = bytearray(file.durable)
        for change in file.changes:
            if change[0] == 'cut' or self.draws.randrange(4) == 0:
                continue
            _, at, written = change
            stood = content[at:at + len(written)]
            other = self.filled(self.draws.choice(FILLS), stood, len(written))
            grain = self.draws.choice((1, 1, 16, 512))
            size = len(written)
            picks = [self.draws.randrange(2) for _ in range(size // grain + 1)]
            mixed = b''.join((written if picks[n] else other)[n * grain:(n + 1) * grain] for n in range(size // grain + 1))
            done(content, ('write', at, mixed))
        return self.with_length(file, content, self.length_of(file))

    def with_length(self, file, content, length):
        """With a length that the file may have."""
        length = min(max(length, file.least), file.greatest)
        if length < len(content):
            del content[length:]
        else:
            kept = file.durable[len(content):length]
            content.extend(kept + bytes(length - len(content) - len(kept)))
        return bytes(content)


def is_image(file, content):
    """Whether the definition has this content as an image of the file."""
    if content is None:
        return not (file.is_there and file.is_named)
    if not file.least <= len(content) <= file.greatest:
        return False
    written = set()
    for change in file.changes:
        if change[0] == 'write':
            written.update(range(change[1], change[1] + len(change[2])))
    return all(content[at] == file.durable[at] or at in written for at in range(min(file.least, len(content))))
