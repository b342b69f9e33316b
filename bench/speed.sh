#!/usr/bin/env bash
# Measures all that the table of docs/SPEED.md says, each script of this folder after the other, each with its peers beside it, and
# prints the table.
#
#     bench/speed.sh                    all of it, in one run: seven minutes, on a machine that does nothing else
#     bench/speed.sh try store          these rows alone
#     bench/speed.sh --write ..         the same, and the rows are written into docs/SPEED.md, with their run's date and machine
#     bench/speed.sh --list             the words of the rows
#
# A row is written as soon as its script ended well and told each figure. What the scripts print goes to the error output as it
# comes. A run wants a machine that does nothing else: the load that it began under stands with its date. RUNS is handed on to the
# scripts, so a small one gives a short and rough run; TMPDIR, a folder on a disk, is where the files of stores lie.
cd "$(dirname "$0")/.." || exit 1
exec env PYTHONDONTWRITEBYTECODE=1 python3 - "$@" <<'PY'
import functools, os, platform, re, subprocess, sys, time
from collections import namedtuple

# `figures` and `limit` are texts in which each {..} is computed from the figures that the script tells, by their names. A limit is
# what the figure cannot pass, whatever the program does: it is the peer itself, or what the peer leaves out.
Row = namedtuple('Row', 'word script compared figures limit')

# a message of 100 bytes is 144 in its record, and its id the digest of three blocks of 128
SMALL = '2.7: the id of such a message is three blocks of the digest, where `b2sum` takes 1.1'
BARE = '1: the writes of the batch, and its two syncs'
ROWS = [
    Row('hash', 'hash.sh', 'the digest of 256 MiB, over `b2sum -l 256` of the same', '{hash:.2f}', '1'),
    Row('records', 'records.sh', '`bsp records` of messages of 32,768 bytes, and of 100, over `b2sum -l 256` of the same',
        '{records:.2f}; {records_small:.2f}', f'1; {SMALL}'),
    Row('try', 'try.sh', '`bsp try` of 200 MiB of messages of 32,768 bytes, and of 50, 100 and 200 MiB of messages of 100, over '
        '`b2sum -l 256` of the same', '{large:.2f}; {small_quarter:.2f}, {small_half:.2f}, {small:.2f}', f'1; {SMALL}'),
    Row('store', 'store.sh', 'a load of 8,000 messages of 32,000 bytes, over `b2sum -l 256` of their file; of 200,000 of 200 bytes, over '
        'computing their ids alone, with no contact and with one; bytes of memory beside a held body, with no contact and with one',
        '{load_large:.2f}; {load_small:.2f}, {load_small_shared:.2f}; {memory_held:.0f}, {memory_held_shared:.0f}', '1: the digest; 1: the ids; the id, 32'),
    Row('commands', 'commands.sh', 'a `post` of 200 bytes behind 1, 20, 1,000 and 20,000 messages, over a bare program with the same writes '
        'and syncs; over one INSERT by SQLite at synchronous=FULL into as many rows; the part of it that is the load',
        '{post_1_bare:.1f}, {post_20_bare:.1f}, {post_1000_bare:.1f}, {post_20000_bare:.1f}; '
        '{post_1_sqlite:.1f}, {post_20_sqlite:.1f}, {post_1000_sqlite:.1f}, {post_20000_sqlite:.1f}; '
        '{load_of_post_1:.2f}, {load_of_post_20:.2f}, {load_of_post_1000:.2f}, {load_of_post_20000:.2f}',
        f'{BARE}; these over SQLite {{post_1_sqlite / post_1_bare:.1f}}, {{post_20_sqlite / post_20_bare:.1f}}, {{post_1000_sqlite / post_1000_bare:.1f}}, '
        '{post_20000_sqlite / post_20000_bare:.1f}'),
    Row('serve', 'serve.sh', 'of a node that serves: a `post` of 200 bytes behind 20,000 and behind 200,000 messages over one INSERT by SQLite '
        'in one process at synchronous=FULL into as many rows; over the two writes and syncs of such a post alone; 100,000 `body` behind 100,000 '
        'messages over `git cat-file --batch` of as many packed objects of these bytes, one at a time and 64 ahead, of the processor, and on the '
        'clock with the same client; as many `inbox FROM 1` over these; memory behind these over that before; of a long listing over its text; of '
        'an input that nothing reads, of one of `records` and of a mailbox file over their bytes',
        '{serve_post_20000_sqlite:.2f}, {serve_post_200000_sqlite:.2f}; {serve_post_20000_bare:.2f}, {serve_post_200000_bare:.2f}; '
        '{serve_body_git_1_processor:.2f}, {serve_body_git_64_processor:.2f}, {serve_body_git_1_clock:.2f}, {serve_body_git_64_clock:.2f}; '
        '{serve_inbox_body_1:.2f}, {serve_inbox_body_64:.2f}; {serve_memory:.2f}; {serve_memory_listing:.2f}; {serve_memory_unread:.2f}, '
        '{serve_memory_records:.2f}, {serve_memory_mailbox:.2f}',
        'the bare writes over SQLite, {serve_post_20000_sqlite / serve_post_20000_bare:.2f}, {serve_post_200000_sqlite / serve_post_200000_bare:.2f}; 1; '
        'none; none; 1: the load; 1: the text; 0, 1, 1'),
    Row('node', 'node.sh', '20,000 notes of 200 bytes heard by `sync` on its standard input, and as many sent on its output, in files in '
        'memory, of the processor, over a bare program with the same writes and syncs and a load of what is left', '{hear:.2f}, {send:.2f}',
        '1: the writes of each batch, and the digest and the state of each message'),
    Row('sync', 'sync.sh', '20,000 notes of 200 bytes, and 2,000 of 32,000, from one store to another over a socket, over a bare program '
        'with as many writes and syncs; over `git fetch` of as many commits; the same where syncs are left out on both sides; messages '
        'for each sync of the side that hears, and of the one that says',
        '{sync_small_bare:.2f}, {sync_large_bare:.2f}; {sync_small_git:.1f}, {sync_large_git:.1f}; {sync_small_git_unsynced:.2f}, '
        '{sync_large_git_unsynced:.2f}; {sync_small_hears:.1f}, {sync_large_hears:.1f}; {sync_small_says:.1f}, {sync_large_says:.1f}',
        f'1: the writes and syncs; these over git {{sync_small_git / sync_small_bare:.1f}}, {{sync_large_git / sync_large_bare:.1f}}; '
        'the digest and the state of each message; 32: 64 outputs a turn, in two syncs'),
    Row('edge', 'edge.sh', 'a `body` behind 200,000 messages in real files, over their load from memory; reads of a `show` of 20,000 '
        'messages over the pieces of 32 KiB in their file', '{files_over_memory:.2f}; {show_reads:.2f}', '1: the load; 1 is the most that is allowed'),
    Row('mailbox', 'mailbox.sh', 'a mailbox file of 20,000 notes of 200 bytes read into a store, and one written from it, over a bare program '
        'with the same writes and syncs; the reading over `git fetch` of as many commits; the memory of the reading over that of a load of '
        'the store that it leaves, the file and one record',
        '{mailbox_in:.2f}, {mailbox_out:.2f}; {mailbox_in_git:.2f}; {mailbox_in_memory:.2f}', '1: the writes and syncs; none; none'),
    Row('quicker', 'quicker.sh', '20,000 notes of 200 bytes that a letter lost, sent and offered by `sync` over a quicker way, over the same of '
        'a store in which nothing was tried, each less a load of its store; and as a whole; a turn with nothing due over 100,000 notes that '
        'wait, over one over 100; an audit of 20,000 such tries, of as many by two ways that take turns of 64, and of 5,000 by two with one '
        'try in a turn: the growth from half as many over linear; over a load of the same store',
        '{quicker_batch:.2f}, {quicker_interactive:.2f}; {quicker_batch_whole:.2f}, {quicker_interactive_whole:.2f}; {quicker_turn:.2f}; '
        '{quicker_audit_sooner:.2f}, {quicker_audit_by_turns:.2f}, {quicker_audit_one_by_one:.2f}; {quicker_audit_sooner_load:.2f}, '
        '{quicker_audit_by_turns_load:.2f}, {quicker_audit_one_by_one_load:.2f}', '1; the load of what the letter added; 1; 1: linear; none'),
    Row('compact', 'compact.sh', 'a store of 20,000 notes that were heard and sent on in 200 sessions: its length once compacted, its load '
        'then, and the memory of `compact` over that of the load before; on a disk `compact` beside its load over a bare program with the '
        'same writes and syncs, on the clock and of the processor',
        '{compact_length:.2f}, {load_after_before:.2f}, {compact_memory:.2f}; {compact_bare_clock:.2f}, {compact_bare_processor:.2f}',
        'the bodies; 1: the writes and syncs'),
    Row('migrate', 'migrate.sh', 'a store of 200,000 notes of 200 bytes written anew in format 2, over two loads of it in memory; on a disk '
        '`contact` beside its load over a bare program with the same writes and syncs, on the clock and of the processor; a journal of '
        '20,000 notes heard and sent on, in format 2 over format 1',
        '{migrate_two_loads:.2f}; {migrate_bare_clock:.2f}, {migrate_bare_processor:.2f}; {length_short_whole:.2f}',
        '0.5: a load; 1: the writes and syncs; the bodies'),
    Row('audit', 'audit.sh', 'an audit of 20,000 notes of 200 bytes that were heard and sent on in 200 sessions, against one of 5,000, over '
        'n log n; over a load of the same file; its memory over the length of the file; a chain of 5,000 messages in the worst order, and '
        '5,000 that wait for one, over their loads',
        '{audit_growth:.2f}; {audit_load:.1f}; {audit_memory:.2f}; {audit_chain:.1f}, {audit_star:.1f}', '1: n log n; none; 1: the file; none'),
    Row('tree', 'tree.sh', 'a tree of replies made of 200,000 items against one of 50,000, as chains of 20,000, a star and random replies, over '
        'linear; `tree` of 20 messages in the middle of 200,000 of a star and of random replies, and of a chain of 20,000 and one of '
        '100,000, over the load of their store; bytes an item',
        '{tree_add_chains:.2f}, {tree_add_star:.2f}, {tree_add_random:.2f}; {tree_star:.2f}, {tree_random:.2f}, {tree_chain_20000:.2f}, '
        '{tree_chain_100000:.2f}; {tree_bytes_an_item:.0f}', '1: linear; 1: the load; 24: a parent, a depth, a size, a place and the walk'),
    Row('replay', 'replay.sh', 'a world of 20,000 posts against one of 5,000, over linear; a message that comes to a device in a ring of eight '
        'over one in that world; bytes of memory for each of 100,000 posts', '{gen:.2f}; {ring:.2f}; {memory_gen:.0f}', '1: linear; none; none'),
    Row('hostile', 'hostile.sh', 'names that were chosen to meet over random ones: a load of 5,000 and of 20,000 messages of 100 names each, an '
        'OFFER of 1,536, and one whose ids share the slot by which they are counted; the growth of that load over n log n',
        '{hostile_load_5000:.2f}, {hostile_load_20000:.2f}, {hostile_offer:.2f}, {hostile_slot:.1f}; {hostile_growth:.2f}', '1; 1: n log n'),
    # the same script tells these: each shape at n and 2 n messages
    Row('shapes', 'hostile.sh', 'what contacts may send to make a command slow: `tree` of a chain, a star and random replies of 100,000; `audit` of '
        'a chain in the worst order and a star before its root of 40,000, 2,000 that name the same 255, an invalid note before 40,000, and '
        '20,000 asked for again and again; 20,000 levels behind 20,000 notes; `agree` of 200,000 words: the growth from half as many over '
        'n log n; over a load of the same store (of the notes alone); over a load of an honest store of as many bytes; the same two of a '
        'chain and a star of 500,000 and of 30,000 that name the same 255',
        '{hostile_growth_tree_chain:.2f}, {hostile_growth_tree_star:.2f}, {hostile_growth_tree_random:.2f}; '
        '{hostile_growth_audit_chain:.2f}, {hostile_growth_audit_star:.2f}, {hostile_growth_audit_fan:.2f}, {hostile_growth_audit_invalid:.2f}, {hostile_growth_audit_asked:.2f}; '
        '{hostile_growth_levels:.2f}, {hostile_growth_agree:.2f}. '
        '{hostile_own_tree_chain:.2f}, {hostile_own_tree_star:.2f}, {hostile_own_tree_random:.2f}; '
        '{hostile_own_audit_chain:.2f}, {hostile_own_audit_star:.2f}, {hostile_own_audit_fan:.2f}, {hostile_own_audit_invalid:.2f}, {hostile_own_audit_asked:.2f}; '
        '{hostile_own_levels:.2f}, {hostile_own_agree:.2f}. '
        '{hostile_honest_tree_chain:.2f}, {hostile_honest_tree_star:.2f}, {hostile_honest_tree_random:.2f}; '
        '{hostile_honest_audit_chain:.2f}, {hostile_honest_audit_star:.2f}, {hostile_honest_audit_fan:.2f}, {hostile_honest_audit_invalid:.2f}, {hostile_honest_audit_asked:.2f}; '
        '{hostile_honest_levels:.2f}, {hostile_honest_agree:.2f}. '
        '{hostile_own_tree_chain_large:.2f}, {hostile_honest_tree_chain_large:.2f}, {hostile_own_tree_star_large:.2f}, {hostile_honest_tree_star_large:.2f}, {hostile_own_audit_fan_large:.2f}, {hostile_honest_audit_fan_large:.2f}',
        '1: n log n. 1: the load. None. The same'),
    Row('tables', 'tables.sh', 'the table of what is due at 400,000 messages against 100,000, over n log n', '{tables:.2f}', '1: n log n'),
]
PAGE, BEGIN, END = 'docs/SPEED.md', '<!-- the table is written by bench/speed.sh --write -->\n', '<!-- end of the table -->\n'
HEAD = '| Row | What is compared | Figures | What they cannot pass | Run |\n|---|---|---|---|---|\n'


def filled(text, figures):
    """The text with its figures; a name that no figure has is a KeyError or a NameError."""
    return re.sub(r'\{([^{}:]+):([^{}]+)\}', lambda of: format(eval(of[1], {'__builtins__': {}}, figures), of[2]), text)


@functools.cache
def measure(script):
    """What a script tells, by name; None if it failed. One that has two rows is run once."""
    print(f'== bench/{script}', file=sys.stderr, flush=True)
    child = subprocess.Popen(['bench/' + script], stdout=subprocess.PIPE, text=True)
    figures = {}
    for line in child.stdout:
        sys.stderr.write(line)
        told = re.match(r'(ratio|memory) (\w+) ([0-9.]+)$', line)
        if told:
            figures[('memory_' if told[1] == 'memory' else '') + told[2]] = float(told[3])
    return figures if child.wait() == 0 else None


def line_of(row, figures):
    return f'| `{row.word}` | {row.compared} | {filled(row.figures, figures)} | {filled(row.limit, figures)} | '


def command(*words):
    return subprocess.run(words, capture_output=True, text=True).stdout.strip()


def machine():
    """The date, the state of the repository, and the machine, on one line."""
    with open('/proc/cpuinfo') as file:
        found = re.search(r'model name\s*: (.*)', file.read())
    model = re.sub(r'\s+', ' ', found[1]) if found else platform.machine()
    with open('/proc/meminfo') as file:
        memory = int(file.read().split()[1]) / 2 ** 20
    folder = os.environ.get('TMPDIR', '/tmp')
    changed = ' with changes' if command('git', 'status', '--porcelain', '--untracked-files=no') else ''
    return (f'{time.strftime("%Y-%m-%d")}, at commit {command("git", "rev-parse", "--short", "HEAD")}{changed}: {os.cpu_count()} processors, {model}; '
            f'{memory:.0f} GiB; Linux {platform.release()}; files on {command("stat", "-f", "-c", "%T", folder)}; load of the machine when the run '
            f'began {os.getloadavg()[0]:.1f}')


def parts_of(section):
    """The rows of a section of the page by word, each as its line up to its run's number and that number; and the runs by number."""
    rows = {of[2]: (of[1], of[3]) for of in re.finditer(r'^((?=\| `(\w+)`).*\| )(\S+) \|$', section, re.M)}
    return rows, dict(re.findall(r'^- Run (\d+): (.*)\.$', section, re.M))


def section_of(rows, runs):
    """The section anew: rows in their order, and the runs that they name, numbered in the order of the rows."""
    numbers = {}
    lines = []
    for row in ROWS:
        if row.word in rows:
            line, run = rows[row.word]
            number = numbers.setdefault(runs[run], len(numbers) + 1) if run in runs else run
            lines.append(f'{line}{number} |\n')
    told = ''.join(f'- Run {number}: {run}.\n' for run, number in numbers.items())
    return f'\n{HEAD}{"".join(lines)}\n{told}\n' if told else f'\n{HEAD}{"".join(lines)}\n'


def write(rows, runs):
    """Puts rows in the place of those of the same words on the page."""
    with open(PAGE) as file:
        before, _, rest = file.read().partition(BEGIN)
    section, _, behind = rest.partition(END)
    old_rows, old_runs = parts_of(section)
    with open(PAGE, 'w') as file:
        file.write(before + BEGIN + section_of(old_rows | rows, old_runs | runs) + END + behind)


def main(words):
    writes = words[:1] == ['--write']
    words = words[writes:]
    if words == ['--list']:
        return print(' '.join(row.word for row in ROWS))
    unknown = set(words) - {row.word for row in ROWS}
    if unknown:
        sys.exit(f'no row {", ".join(sorted(unknown))}: bench/speed.sh --list has the words')
    run, rows, failed = machine(), {}, []
    for row in ROWS:
        if words and row.word not in words:
            continue
        figures = measure(row.script)
        try:
            rows[row.word] = line_of(row, figures), 'new'
        except (TypeError, NameError) as fault:
            failed.append(row.word)
            print(f'{row.word} is not measured: {fault}', file=sys.stderr)
            continue
        if writes:
            write({row.word: rows[row.word]}, {'new': run})
    print(section_of(rows, {'new': run}).strip())
    if failed:
        sys.exit(f'not measured: {", ".join(failed)}')


main(sys.argv[1:])
PY
