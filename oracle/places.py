#!/usr/bin/env python3
"""When the links of a peer that flaps come up, by the rule of docs/FORMATS.md ("A node that stays"): behind a pause of 1, 2, 4 and so
on up to 64 seconds, which a link that lived a minute sets back to 1. The rows stand in crates/link_places/src/tests.rt.

    oracle/places.py        prints for each life of a link how many of 1,000 links came up by each time, in milliseconds
"""
LINKS = 1_000
PLACES = (1, 2, 3, 7, 8, 9, 100, 1_000)


def times(life, takes_over):
    """The times at which each of the links comes up: each lives so long, or until the next takes its place."""
    now, pause, found = 0, 1_000, []
    while len(found) < LINKS:
        found.append(now)
        if takes_over:
            # The next comes once the pause is over that began when this one came up; it has a longer one, but for a long life.
            now += pause
            pause = 1_000 if pause >= 60_000 else min(2 * pause, 64_000)
        else:
            if life >= 60_000:
                pause = 1_000
            now += life + pause
            pause = min(2 * pause, 64_000)
    return found


if __name__ == '__main__':
    for name, life, takes_over in (('hangs up at once', 0, False), ('hangs up behind 59,999 ms', 59_999, False),
                                   ('hangs up behind a minute', 60_000, False), ('is replaced as soon as may be', 0, True)):
        found = times(life, takes_over)
        print(name, ' '.join(f'{n}: {found[n - 1]}' for n in PLACES))
