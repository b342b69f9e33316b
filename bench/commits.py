"""What the scripts compare with: repositories of git with a commit for each note, and how long one takes to fetch them."""
import os
import shutil
import subprocess
import sys
import time


def make_commits(folder, notes):
    """A repository with a commit for each note, whose one file is the note."""
    here = os.path.join(folder, 'commits')
    shutil.rmtree(here, ignore_errors=True)
    subprocess.run(('git', 'init', '-q', '--bare', here), check=True)
    fed = subprocess.Popen(('git', 'fast-import', '--quiet'), cwd=here, stdin=subprocess.PIPE)
    for note in notes:
        head = (f'commit refs/heads/main\ncommitter a <a> {note.time} +0000\ndata 0\ndeleteall\n'
                f'M 644 inline note\ndata {len(note.body)}\n')
        fed.stdin.write(head.encode() + note.body + b'\n')
    fed.stdin.close()
    if fed.wait():
        sys.exit('wrong: fast-import')
    return here


def fetch(folder, source, **env):
    """Seconds on the clock that a repository that has none takes to fetch them."""
    here = os.path.join(folder, 'fetched')
    shutil.rmtree(here, ignore_errors=True)
    subprocess.run(('git', 'init', '-q', '--bare', here), check=True)
    start = time.perf_counter()
    subprocess.run(('git', 'fetch', '-q', f'file://{source}', 'main'), cwd=here, check=True, env=dict(os.environ, **env))
    return time.perf_counter() - start
