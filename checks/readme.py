#!/usr/bin/env python3
"""Runs the command lines of README.md as they stand there: each must end with 0, and print what is expected of it.

    python3 checks/readme.py                   the commands of the toolchain and of make, and those for a reader of one's own, unproved
    python3 checks/readme.py LIBRARY ARCHIVE NODE   the lines of C, Rust, Python and JavaScript, over libgoblin_c.a and its archive, by
                                               this command of node with 64-bit memories, if there is one

The languages are tried after `make install`, after a second one for the shared library, in a folder with a space and é, and in the unpacked
archive. In a line only the folder of the kit or of the installation is replaced, and /bin/true by a file that is everywhere the same. Two
lines of faces/installed.md are tried, too: one for such a folder, where the shell splits what pkg-config prints, and one that
links the shared library. What the machine lacks is left out, and a line says so. Run it from the repository's root.
"""
import glob
import os
import re
import shlex
import shutil
import subprocess
import sys
import tempfile

sys.dont_write_bytecode = True
from crates import copy_crates, text_of, with_those_below

HERE = shlex.quote(os.getcwd())
# The line of what a program prints of a library, and a string of app.c that is gone if somebody links it with --gc-sections.
SYMBOL, KEPT = r'[0-9a-fx]+ (.* )?goblin_symbol\n', 'a string of a section of its own'
# Of each language how its line begins, the commands that it needs, the shell commands before and after it, and what all of them print.
LANGUAGES = {
    'C': ('cc app.c ', ('cc', 'pkg-config'), f"""cp {HERE}/faces/c/examples/values.c app.c
        echo '__attribute__((used, section(".own"))) static const char kept[] = "{KEPT}";' >> app.c""",
          f"""./a.out "$FILE"; grep -ao -e '{KEPT}' -e 'libgoblin_c[.]so[.0-9]*' a.out""", f'{SYMBOL}([0-9a-f]+ .*\n)*{KEPT}\n$'),
    'Rust': ('cargo add ', ('cargo', 'cc'), f'cargo init -q --vcs none --name app .; cp {HERE}/faces/rust/examples/symbols.rs src/main.rs',
             'cargo run -q -- "$FILE"', SYMBOL),
    'Python': ('export PYTHONPATH=', (), '', 'python3 -c "$LINES"', SYMBOL),
    'JavaScript': ('npm install ', ('npm', 'node'), f'sed "s|\'../goblin.js\'|\'goblin_c\'|" {HERE}/faces/web/examples/segments.mjs > app.mjs',
                   '$NODE app.mjs "$FILE"', r'PT_LOAD .*[.]text'),
}
OUTPUT = 'header '
SHARED = f'{SYMBOL}([0-9a-f]+ .*\n)*libgoblin_c[.]so[.][0-9]+\n{KEPT}\n$'
# Variables of a make or a test above this, which would change what the lines do.
UNSET = re.compile('MAKE|MFLAGS|PREFIX|DESTDIR|LIBDIR|LIBRARY|TARGET|CPU|SHARED|PYTHONPATH|GOBLIN_|CARGO_TARGET|LD_LIBRARY')


def blocks(path='README.md'):
    """The indented blocks of a page, each as its lines."""
    text = re.sub(r'^```.*?^```$', '', text_of(path), flags=re.DOTALL | re.MULTILINE)
    return [re.findall('^    (.*)', block, re.MULTILINE) for block in re.findall('(?:^    .*\n)+', text, re.MULTILINE)]


def line_of(start, path='README.md'):
    return next(line for lines in blocks(path) for line in lines if line.startswith(start))


def run(lines, wanted, where='.', **variables):
    """Runs lines by the shell, and returns what they print. Ends with 1 if that is not as wanted."""
    unset = {name: value for name, value in os.environ.items() if not UNSET.match(name)}
    ran = subprocess.run(['sh', '-ec', '\n'.join(lines)], stdout=subprocess.PIPE, stderr=subprocess.STDOUT, stdin=subprocess.DEVNULL, cwd=where,
                         encoding='utf-8', errors='replace', env={**unset, **variables})
    if ran.returncode or not re.search(wanted, ran.stdout):
        print('README: these lines are to end with 0, and print', repr(wanted), *lines,
              f'They end with {ran.returncode}, and print:', ran.stdout, sep='\n')
        sys.exit(1)
    return ran.stdout


def kit(lines, _):
    folder = os.path.dirname(os.path.dirname(os.path.realpath(shutil.which('rt'))))
    said = run([line.replace('KIT', shlex.quote(folder)) for line in lines] + ['test -f "$(rt doc)"'], ' logic [0-9a-f]{16}\n/.*\n$')
    logic = re.search('logic [0-9a-f]{16}', text_of('README.md'))[0]
    print(f'README names {logic}, which is {"" if logic in said else "not "}the one of this kit')


def shown(lines, _):
    """Shows a file by both commands. Each line that README prints of one has the words of a line of it; names and numbers may differ."""
    said = run([line.replace('/bin/true', 'checks/files/symbols') for line in lines], r'(?s)\bheader ELF32 .*\nheader ELF32 ')
    words = lambda line: [word if re.fullmatch('[a-z]+', word) else re.sub('[^=]', '', word) for word in line.split()]
    for line in next(lines for lines in blocks() if lines[0].startswith(OUTPUT)):
        if words(line) not in map(words, said.split('\n')):
            sys.exit(f'README: the program prints no line like this one: {line}')


def reader(lines, folder):
    """Makes a reader of one's own over copies of the crates that README names, by `rt try` for `rt check`: nothing is proved."""
    copy_crates(with_those_below('goblin'), folder)
    # (what is left of the template is its source)
    run([*(line.replace('rt check', 'rt try < src/main.rt') for line in lines), 'echo "left: $(ls | xargs)"'],
        '(?ms)^run=ended status=0.*^left: (out )?src$', folder)


BLOCKS = {'export PATH=KIT/bin': kit, 'make try ': shown, 'rt new ': reader}


def commands():
    for start, tried in BLOCKS.items():
        with tempfile.TemporaryDirectory() as folder:
            tried(next(lines for lines in blocks() if lines[0].startswith(start)), folder)
    print("README's commands of the toolchain and of make can be run, and make a reader of one's own")


def lines_for(language, setting, prefix):
    """The lines of a language in an installation, each with what its program is to print."""
    start, *_, wanted = LANGUAGES[language]
    if language == 'C' and ' ' in prefix:
        return [(line_of('eval ', 'faces/installed.md'), wanted)]
    shared = [(line_of('cc app.c $(pkg-config --cflags --libs goblin_c-shared)', 'faces/installed.md'), SHARED)]
    return [(line_of(start), wanted), *shared * ((language, setting) == ('C', 'shared'))]


def installed(room, library, archive, has_module):
    """Makes each installation in turn, of the module for JavaScript, too, if it has any. Yields what it is, and its folder."""
    install, module = re.search('^After `(make install PREFIX=/usr/local)`.*`(TARGET=.*?)`', text_of('README.md'), re.MULTILINE).groups()
    for setting in ('alone', 'shared', 'with a space and é', 'unpacked'):
        prefix = f'{room}/{"installed" if setting == "shared" else setting.replace("alone", "installed")}'
        here, to = install.replace('/usr/local', shlex.quote(prefix)), shlex.quote(prefix)
        made = [f'LIBRARY={shlex.quote(library)} {here}' + ' SHARED=1' * (setting == 'shared'), f'{here} {module}']
        unpack = f'mkdir -p {to}; tar -C {to} --strip-components 1 -xzf '
        unpacked = [unpack + shlex.quote(archive), f'{module} sh faces/install.sh --archive {to}/module.tar.gz; {unpack}{to}/module.tar.gz']
        run((unpacked if setting == 'unpacked' else made)[:1 + has_module], '')
        yield setting, prefix


def languages(library, archive, node):
    lacks = {language: [f'there is no {name}' for name in needed if not shutil.which(name)] for language, (_, needed, *_) in LANGUAGES.items()}
    lacks['JavaScript'] += ['node has no 64-bit memories'] * (not node)
    snippet = re.search('^```python\n(.*?)^```', text_of('README.md'), re.DOTALL | re.MULTILINE)[1]
    snippet = snippet.replace("'/bin/true'", "__import__('os').environ['FILE']")
    tried = [language for language in LANGUAGES if not lacks[language]]
    with tempfile.TemporaryDirectory() as room:
        for setting, prefix in installed(room, library, archive, 'JavaScript' in tried):
            file, = glob.glob(f'{prefix}/share/goblin_c/python/goblin_elf/libgoblin_c.so.*')
            variables = dict(FILE=file, NODE=node, LINES=snippet, PKG_CONFIG_PATH=f'{prefix}/lib/pkgconfig', CARGO_NET_OFFLINE='true',
                             npm_config_offline='true', npm_config_audit='false', npm_config_cache=f'{room}/npm')
            for language, (line, wanted) in [(language, pair) for language in tried for pair in lines_for(language, setting, prefix)]:
                with tempfile.TemporaryDirectory(dir=room) as folder:
                    _, _, before, after, _ = LANGUAGES[language]
                    run([before, line.replace('/usr/local', shlex.quote(prefix)), after], wanted, folder, **variables)
    for language in set(LANGUAGES) - set(tried):
        print(f"left out: {lacks[language][0]}, so README's line for {language} is not run")
    print(f'README\'s lines for {", ".join(tried)} can be run in each installation')


def faults():
    """The lines of README that are not run here, for checks/lint."""
    starts = tuple(start for start, *_ in LANGUAGES.values())
    lines = [line for lines in blocks() if not lines[0].startswith((OUTPUT, *BLOCKS)) for line in lines if not line.startswith(starts)]
    return f'{sum(map(len, blocks()))} command lines of README', [f'README.md: checks/readme.py does not run this line: {line}' for line in lines]


if __name__ == '__main__':
    languages(*sys.argv[1:]) if sys.argv[1:] else commands()
