"""A stream of records, byte by byte as docs/FORMATS.md has it."""
import struct


def write_messages(path, size, length, group):
    """Writes MESSAGE records of this group with bodies of this length, until there are so many bytes; answers how many bytes and
    records there are."""
    body, written, number = b'a' * length, 0, 0
    with open(path, 'wb') as file:
        while written < size:
            file.write(struct.pack('>BBH', 0, 1, 40 + length) + group + struct.pack('>Q', number) + body)
            written, number = written + 44 + length, number + 1
    return written, number
