"""Whether what the pages name exists: each file that a link names, and of the code between backquotes, outside quoted blocks:

- each word stands in the code without its comments, or in a file's name; `get_..` and `.._to_str` begin or end such a word;
- of `a::b`, b stands in a file of the module a, or in one that defines a or has an impl of it;
- a file or a folder is there;
- in a CALLING.md a module in parentheses, as (`Strtab`), is one of specs/, and the name before it stands there;
- in docs/PROVED.md a name after a function or module and a colon, as in `walk`: `looks`, is a clause in its file or a definition;
- of an example of a change in docs/MAP.md, also of a number, `git grep -wF` finds each word outside docs/, or in the named folders.
Columns of a table with the head goblin, libelf, object, pyelftools, lief or interface 7 hold names of others, which may stand anywhere.
"""
import os
import re
import subprocess

from crates import text_of, tracked

# The heads of such columns.
HEADS = ('goblin', 'libelf', 'object', 'pyelftools', 'lief', 'interface 7')
# Names of others that stand in no such column: of libelf and of CMake.
OTHERS = {'elf_getshdrnum', 'PkgConfig', 'GOBLIN'}
READ = ('crates/*/src/*', 'crates/*/specs/*', 'faces', 'checks', 'bench', 'commands', 'Makefile', 'crates.txt', ':!*.md')
COMMENT = {'rt': '//', 'main': '//', 'antt': '--'}
FILE = re.compile(r'[\w./-]*(?:/[\w./-]*|\.(?:rt|antt|rs|js|mjs|py|sh|edit|awk))')
DEFINED = re.compile(r'\b(?:struct|enum|trait|type)\s+(\w+)|^impl\b(.*)', re.MULTILINE)
CLAUSE = re.compile(r'\b(?:requires|ensures|ghost) (\w+)|\bpub (?:record |data )?(\w+)')
SEVERAL = '((?:`[^`]+`(?:, | and )?)+)'


def words_in(text):
    return set(re.findall(r'\w+', text))


class File:
    """Of a file without comments: its module of specs/, its words, those that it is named by or defines, its functions, clauses, definitions."""
    def __init__(self, path):
        comment, text = COMMENT.get(path.rsplit('.', 1)[-1]), text_of(path)
        text = re.sub(rf'(?<!\S){comment}[^\n]*', '', text) if comment else text
        self.module = os.path.basename(path)[:-5] if '/specs/' in path else None
        self.words = words_in(text)
        self.owners = words_in(path) | words_in(' '.join(one + other for one, other in DEFINED.findall(text)))
        self.functions = set(re.findall(r'\bfn (\w+)', text))
        self.clauses = {one or other for one, other in CLAUSE.findall(text)}


class Code:
    def __init__(self):
        self.paths = tracked()
        self.files = [File(path) for path in tracked(*READ)]
        self.words = words_in('\n'.join(self.paths)).union(*(file.words for file in self.files))
        self.modules = {}
        for file in self.files:
            self.modules.setdefault(file.module, set()).update(file.words)

    def has_word(self, before, word, after):
        return word in self.words or any(after and one.startswith(word) or before and one.endswith(word) for one in self.words)

    def has_pair(self, left, right):
        return any(left in file.owners and any(word == right or right.endswith('_') and word.startswith(right) for word in file.words)
                   for file in self.files)

    def has_file(self, path):
        name = '/' + re.sub(r'^(\.?\./)+|/$', '', path)
        return path.startswith('/') or any(f'/{known}'.endswith(name) or f'{name}/' in f'/{known}' for known in self.paths)

    def has_clause(self, functions, name):
        return any(name in file.clauses and (file.module or functions & (file.functions | file.owners)) for file in self.files)

    def missing_in(self, span):
        """What code between backquotes names that doesn't exist."""
        if FILE.fullmatch(span):
            return [] if self.has_file(span) else [span]
        if re.search(r'\s', span):
            return [word for word in re.findall(r'\b[A-Za-z]\w*_\w+', span) if word not in self.words]
        if not re.fullmatch(r'[\w.:]+(?:\(\.*\))?', span):
            return []
        parts = re.findall(r'(\.\.)?\b([A-Za-z_]\w+)(\.\.)?', span)
        return [part[1] for part in parts if not self.has_word(*part)] \
            or ['::'.join(pair) for pair in re.findall(r'(?=\b(\w+)::(\w+))', span) if not self.has_pair(*pair)]

    def missing_modules(self, line):
        """The modules in parentheses that aren't there, and the names before them that these don't have."""
        modules = [module for several in re.findall(rf'\({SEVERAL}\)', line) for module in re.findall('`([A-Z][A-Za-z0-9]*)`', several)]
        names = re.findall(r'`(\w+)[^`]*` \(`(\w+)`', line)
        return [f'specs/{module}.antt' for module in modules if module not in self.modules] \
            + [f'{name} in {module}' for name, module in names if module in self.modules and name not in self.modules[module]]

    def missing_clauses(self, line):
        """The clauses that a row names after a function and that its file doesn't have."""
        rows = re.findall(f'{SEVERAL}: {SEVERAL}', line.split('|')[-2] if line.startswith('|') else '')
        return [f'{clause} of {functions}' for functions, clauses in rows for clause in re.findall('`([^`]+)`', clauses)
                if not self.has_clause(set(re.findall(r'(\w+)`', functions)), clause)]


def others_in(lines):
    """The words in the columns of tables that hold names of others."""
    words, columns = set(), []
    for line, below in zip(lines, lines[1:] + ['']):
        cells = line.split('|')
        if re.fullmatch('[|-]+', below):
            columns = [i for i, cell in enumerate(cells) if cell.strip('`') in HEADS or cell.startswith('goblin ')]
        words.update(*(words_in(cells[i]) for i in columns if line.startswith('|')))
    return words


def page_of(path):
    """The lines of a page without its quoted blocks, and of the changes only those of the last version: an older one may have what is gone."""
    text = re.sub(r'^```.*?^```', lambda block: re.sub('.*', '', block[0]), text_of(path), flags=re.DOTALL | re.MULTILINE)
    return (text if path != 'CHANGELOG.md' else '## '.join(text.split('## ')[:2])).split('\n')


def dead_links(page, line):
    """The files that links on a line of a page name and that aren't there."""
    links = re.findall(r'\]\(([^)#:\s]+)[^):\s]*\)', line) if page != 'faces/installed.md' else []
    return [link for link in links if not os.path.exists(os.path.join(os.path.dirname(page), link))]


def unfound(page, line):
    """The words of an example that aren't there."""
    _, change, example, *_ = [*line.split('|'), '', '', '']
    names, _, folders = example.partition(' in ') if page == 'docs/MAP.md' and '`' not in change else ('', '', '')
    where = re.findall('`([^`]+)`', folders) or [':!docs']
    return [name for name in re.findall('`([^`]+)`', names) if subprocess.run(['git', 'grep', '-qwF', '-e', name, '--', *where]).returncode]


def faults():
    code, pages = Code(), {page: page_of(page) for page in tracked('*.md')}
    others = OTHERS.union(*map(others_in, pages.values()))
    wrong, count = [], 0
    for page, lines in pages.items():
        for number, line in enumerate(lines, 1):
            spans = re.findall('`([^`]+)`', line)
            missing = [name for span in spans for name in code.missing_in(span)]
            missing += code.missing_modules(line) if page.endswith('CALLING.md') else []
            missing += code.missing_clauses(line) if page == 'docs/PROVED.md' else []
            missing = [name for name in missing if not words_in(name) <= others] + dead_links(page, line) + unfound(page, line)
            wrong += [f'{page}:{number}: there is no {name}' for name in missing]
            count += len(spans)
    return f'{count} names on {len(pages)} pages', wrong if count else ['no page names anything']
