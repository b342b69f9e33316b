#!/usr/bin/env python3
"""What the programs answer who asks for help, made from their manual pages (docs/bsp.1, docs/bsp_replay.1).

    oracle/help_texts.py            prints the texts of both
    oracle/help_texts.py --write    writes them as constants to the `texts.rt` of both programs

.ci/manual compares with these what the programs print and what their sources have.
"""
import pathlib
import re
import sys
import textwrap

TOP = pathlib.Path(__file__).resolve().parent.parent
PROGRAMS = {'bsp': 'node_program', 'bsp_replay': 'replay_program'}
WIDTH, COLUMNS = 78, 100


def page_of(program):
    return (TOP / 'docs' / f'{program}.1').read_text(encoding='utf-8')


def section(page, name):
    """The lines of a section of a manual page."""
    return re.search(rf'^\.SH {name}\n(.*?)(?=^\.SH |\Z)', page, re.S | re.M).group(1)


def unescaped(text):
    return re.sub(r'\\f.', '', text).replace('\\-', '-').replace('\0', ' ')


def plain(line):
    """A line of a manual page without its macros: what is bold stands in backquotes."""
    line = line.replace('\\ ', '\0')
    met = re.match(r'\.(BI|BR|RB|IR|B|I) (.*)$', line)
    if not met:
        return unescaped(line)
    macro, words = met[1], [unescaped(a) if a else b for a, b in re.findall(r'"([^"]*)"|(\S+)', met[2])]
    if macro in ('B', 'I'):
        text = unescaped(' '.join(words))
        return f'`{text}`' if macro == 'B' else text
    if macro == 'BI':
        inside, _, behind = ''.join(words).partition('\\fR')
        return f'`{unescaped(inside)}`{unescaped(behind)}'
    return ''.join(f'`{unescaped(w)}`' if macro[n % 2] == 'B' else unescaped(w) for n, w in enumerate(words))


def folded(lines):
    text = ' '.join(plain(line) for line in lines if line)
    return textwrap.fill(text, WIDTH, break_on_hyphens=False, break_long_words=False)


def synopsis(program, page):
    """Each line of the synopsis, with the words of its command: those in bold behind the program's name."""
    found = []
    for line in section(page, 'SYNOPSIS').splitlines():
        met = re.match(rf'\\fB{program} ?([^\\]*)\\fR', line)
        if met:
            found.append((met[1], unescaped(line)))
    return found


def texts_of(program):
    """The answers of a program by what is asked: '' for an overview, 'version', and those of commands by their words."""
    page = page_of(program)
    usages = synopsis(program, page)
    version = re.match(r'\.TH \S+ 1 "" "Bramble Sync (\S+)"', page)[1]
    name = section(page, 'NAME').strip().replace('\\-', '-')
    found = {'': f'{name}\n\n' + ''.join(f'  {usage}\n' for _, usage in usages)
                 + f'\n`{program} help COMMAND` tells of a command; the manual page {program}(1) has the rest.\n',
             'version': f'{program} {version}\n'}
    for block in section(page, 'COMMANDS').split('.TP\n')[1:]:
        head, *lines = block.split('\n')
        command = re.match(r'[a-z]+(?: [a-z]+)*', plain(head).strip('`'))[0]
        usage, = (usage for words, usage in usages if words == command)
        found[command] = f'{usage}\n\n{folded(lines)}\n'
    if program == 'bsp':
        found['mailbox'] = found['mailbox in'] + '\n' + found['mailbox out']
    return found


def constant(words):
    return {'': 'OVERVIEW'}.get(words, words.replace(' ', '_').upper())


def source_of(program):
    """The file of constants of a program."""
    out = [f'//! The texts of help of `{program}`, made from docs/{program}.1 by oracle/help_texts.py.', '']
    for words, text in texts_of(program).items():
        if (program, words) == ('bsp', 'version'):  # it stands in sync_words
            continue
        what = {'': 'What commands there are.', 'version': 'The version.'}.get(words, f'What `{words}` does.')
        escaped = text.replace('\\', '\\\\').replace('"', '\\"')
        head, told = f'pub const {constant(words)}: &str =', f'"{escaped}";'
        # (as rt fmt lays it out)
        wide = len(f'{head} {told}'.split('\n')[0]) > COLUMNS
        out += [f'/// {what}', f'{head}\n    {told}' if wide else f'{head} {told}', '']
    return '\n'.join(out[:-1]) + '\n'


def source_path(program):
    return TOP / 'crates' / PROGRAMS[program] / 'src/texts.rt'


def main():
    for program in PROGRAMS:
        if sys.argv[1:] == ['--write']:
            source_path(program).write_text(source_of(program), encoding='utf-8')
        else:
            for words, text in texts_of(program).items():
                print(f'== {program} {words}\n{text}')


if __name__ == '__main__':
    main()
