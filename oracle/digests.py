"""The digests and ids of docs/FORMATS.md, by hashlib: nothing here is shared with the program."""
import hashlib
import struct

LABEL = b'org.briarproject.bramble/'


def digest(*parts):
    h = hashlib.blake2b(digest_size=32)
    for part in parts:
        h.update(struct.pack('>I', len(part)) + part)
    return h.digest()


def group_id(name, major, descriptor):
    return digest(LABEL + b'GROUP_ID', b'\x01', name, struct.pack('>I', major), descriptor)


def block_hash(body):
    return digest(LABEL + b'MESSAGE_BLOCK', b'\x01', body)


def message_id(group, time, body):
    return id_over(group, time, block_hash(body))


def id_over(group, time, block):
    """The id of a message whose body has this hash."""
    return digest(LABEL + b'MESSAGE_ID', b'\x01', group, struct.pack('>Q', time), block)
