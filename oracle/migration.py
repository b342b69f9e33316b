"""Files of format 1 and what they are in format 2, as docs/FORMATS.md has both. command_cases.py makes cases of these."""
from store_file import CLOSED, NEXT_HEADER, OLD_HEADER, Note, file_bytes, old_file_bytes


def migrated():
    """A label, the file of format 1, and the other file after the migration."""
    yield 'no batch', OLD_HEADER + CLOSED, NEXT_HEADER + CLOSED
    for label, count in (('no message', 0), ('one message', 1), ('three messages', 3)):
        notes = [Note(1000 + i, 20 + i) for i in range(count)]
        yield label, old_file_bytes(notes), file_bytes(notes, NEXT_HEADER)
