#!/usr/bin/env python3
"""Prints facts.json, what is true of each stored ELF file, by what readelf prints: python3 checks/files/facts.py > checks/files/facts.json

Two faces are tested against that table: the Python package (facts.py there) and the page (facts.js). No check runs this script. It was run with
readelf 2.40. Of `BY_HAND`, which readelf does not show, the values were read from the files' bytes, or follow from how facts.sh made the
file of another one. The rules:

- kind: `object`, `core`, `program`, `library`, or `debug file`: an ET_EXEC or ET_DYN in which at least one section of SHF_ALLOC is SHT_NOBITS,
  and each other one SHT_NOTE. An ET_DYN is a program if its dynamic section has DT_DEBUG or DF_1_PIE, and `program or library` if that is
  unknown. All else is `other`.
- needed, soname, rpath, runpath: of the dynamic section, which is that of PT_DYNAMIC, or in a file without program headers the first section of
  type SHT_DYNAMIC with the strings that it links to. A name that can't be read makes its fact unknown. A PT_DYNAMIC without bytes in the
  file (p_filesz is 0) makes all of them unknown, and pie, bind_now and relro, too, unless there is no PT_GNU_RELRO.
- interpreter: the string in the first PT_INTERP, unknown if that has no bytes in the file.
- pie, nx (the stack may not be executed: PT_GNU_STACK is there, and none has PF_X), writable_code (a PT_LOAD has PF_W and PF_X), bind_now
  (DT_BIND_NOW, DF_BIND_NOW or DF_1_NOW) and relro are said of programs and libraries. bind_now is null if no dynamic section has an entry,
  and of a static program, which is one without PT_INTERP. relro is `no` without PT_GNU_RELRO, and else `full` if bind_now is not false and
  the last PT_GNU_RELRO holds each slot that a call goes through and that relocation wrote: those of DT_JMPREL, those of type IRELATIVE of DT_RELA
  and DT_REL, and if no dynamic section has an entry, those of this type of sections with SHF_ALLOC. Else it is `partial`. It is unknown if no
  dynamic section has an entry and there is PT_INTERP or no section, and for a machine whose number of IRELATIVE is not known (facts.sh shows
  by a run what these slots are).
- canary: a symbol of the first SHT_SYMTAB or SHT_DYNSYM is __stack_chk_fail, __stack_chk_fail_local or __stack_chk_guard, with or without
  a version from an @ on. If none is, it is unknown if one of these can't be read, or if there is no SHT_SYMTAB, unless there is SHT_DYNSYM and
  the file is no static program.
- control_flow: what the first note GNU of type 5 marks: IBT and SHSTK for x86, BTI and PAC for AArch64, null for other machines.
- compilers: the strings of the section .comment that are not empty, each once, but those that begin with `Linker:`, `LLD`, `GNU ld`, `GNU gold`
  or `mold`, which are a linker's.
- build_id: the descriptor of the first note GNU of type 3. Notes are looked for in all PT_NOTE, and then in all SHT_NOTE. What comes after a
  damaged one is unknown. Other names need not be UTF-8.
- stripped: there is no SHT_SYMTAB. sizes: the sums of sh_size by what the sections are for, without section 0.
- cut: the section headers, the program headers, or the bytes of a section or segment are not all in the file (of a debug file's segments they
  never are).
- A core has neither canary, control_flow, stripped nor compilers, and a debug file nothing of what PT_DYNAMIC, PT_INTERP, other segments and
  control_flow and canary say: these are null.
- What can't be read since the file does not hold it is null, and named in `unknown`, in the order of the facts.
- So is what needs more than a face reads: 131,072 segments, 1,048,576 sections, 4,096 entries of the dynamic section, 4,096 sections of
  relocations, 4,194,304 relocations, 4,095 bytes of a text, 64
  of a build ID, 65,536 of .comment or of the note of control_flow, 65,536 notes (a segment or section of notes counts as one), and 64 names of
  canaries in the strings of a table.
"""
import json
import os
import re
import subprocess

FILES = os.path.dirname(os.path.abspath(__file__))
NAMES = ('kind', 'build_id', 'interpreter', 'soname', 'rpath', 'runpath', 'needed', 'pie', 'nx', 'relro', 'bind_now', 'writable_code', 'canary',
         'control_flow', 'compilers', 'stripped', 'cut', 'sections', 'segments', 'symbols', 'dynamic_symbols', 'sizes')
CANARY = re.compile(r' __stack_chk_(?:fail|fail_local|guard)(?:@\S*)?(?: \(\d+\))?$', re.M)
LINKER = re.compile(r'Linker:|LLD|GNU ld|GNU gold|mold')


def printed(path, *options):
    """Returns what readelf prints of a file."""
    return subprocess.run(['readelf', '-W', *options, path], stdout=subprocess.PIPE, stderr=subprocess.DEVNULL, encoding='utf-8',
                          errors='surrogateescape', env={**os.environ, 'LC_ALL': 'C'}).stdout


def first(pattern, text):
    """Returns what is in the parentheses of the first match, or `None`."""
    match = re.search(pattern, text, re.M)
    return match and match[1]


def sections_of(path):
    """Returns the type, the size, the size of an entry and the flags of each section but section 0."""
    rows = re.findall(r'^  \[ *(\d+)\] .*? +([A-Z][\w+:]*) +[0-9a-f]{8,16} [0-9a-f]{6} ([0-9a-f]{6,}) ([0-9a-f]{2,}) +([A-Zldop]*) +\d+ +\d+ +\d+$',
                      printed(path, '-S'), re.M)
    return [(kind, int(size, 16), int(entry, 16), flags) for index, kind, size, entry, flags in rows if index != '0']


def sizes_of(sections):
    sizes = {'code': 0, 'data': 0, 'read_only': 0, 'zeros': 0, 'not_loaded': 0}
    for kind, size, _, flags in sections:
        loaded = 'code' if 'X' in flags else 'data' if 'W' in flags else 'read_only'
        sizes['zeros' if kind == 'NOBITS' else loaded if 'A' in flags else 'not_loaded'] += size
    return sizes


def relro_of(path, segments, dynamic, now):
    """Returns what is protected of the slots that calls go through, by the addresses of the relocations that write them."""
    held = [(int(start, 16), int(start, 16) + int(size, 16))
            for start, size in re.findall(r'^  GNU_RELRO +0x\w+ (0x\w+) 0x\w+ 0x\w+ (0x\w+)', segments, re.M)]
    tables = re.findall(r"^(?:'(\w+)')?.*elocation section .*\n.*\n((?:[0-9a-f]{8,16} .*\n)*)", printed(path, '-rD' if 'contains' in dynamic else '-r'), re.M)
    slots = [(int(slot, 16), int(slot, 16) + len(slot) // 2) for name, rows in tables
             for slot in re.findall(r'^(\w+).*' if name == 'PLT' else r'^(\w+).* R_\w+_IRELATIV', rows, re.M)]
    is_open = now is False or any(start < held[-1][0] or end > held[-1][1] for start, end in slots)
    return 'no' if not held else 'partial' if is_open else 'full'


def linking(path, segments):
    """Returns what the dynamic section and the segments of a program or a library say."""
    dynamic = printed(path, '-d')
    interpreter, flags = first(r'interpreter: (.*)\]', segments), first(r'\(FLAGS\) +(.*)', dynamic) or ''
    more = first(r'\(FLAGS_1\) +Flags: (.*)', dynamic) or ''
    is_program = 'EXEC' in segments or '(DEBUG)' in dynamic or 'PIE' in more.split()
    is_static = is_program and interpreter is None
    is_now = '(BIND_NOW)' in dynamic or 'BIND_NOW' in flags.split() or 'NOW' in more.split()
    now = None if is_static or 'contains' not in dynamic else is_now
    stacks = re.findall(r'^  GNU_STACK +(?:0x\w+ +){5}([RWE ]{3})', segments, re.M)
    loads = re.findall(r'^  LOAD +(?:0x\w+ +){5}([RWE ]{3})', segments, re.M)
    return {'kind': 'program' if is_program else 'library', 'interpreter': interpreter, 'soname': first(r'\(SONAME\).*\[(.*)\]', dynamic),
            'rpath': first(r'\(RPATH\).*\[(.*)\]', dynamic), 'runpath': first(r'\(RUNPATH\).*\[(.*)\]', dynamic),
            'needed': re.findall(r'\(NEEDED\).*\[(.*)\]', dynamic), 'pie': 'EXEC' not in segments and is_program,
            'nx': bool(stacks) and not any('E' in flags for flags in stacks), 'relro': relro_of(path, segments, dynamic, now), 'bind_now': now,
            'writable_code': any('W' in flags and 'E' in flags for flags in loads), 'is_static': is_static}


def row(path):
    """Returns the facts of a whole file."""
    header, segments, sections = printed(path, '-h'), printed(path, '-l'), sections_of(path)
    kind = first(r'Type: +(\w+)', header)
    loaded = [kind for kind, _, _, flags in sections if 'A' in flags]
    found = dict.fromkeys(NAMES)
    found.update(kind={'REL': 'object', 'CORE': 'core'}.get(kind, 'debug file'), needed=[])
    if kind in ('EXEC', 'DYN') and not ('NOBITS' in loaded and {'NOBITS', 'NOTE'} >= set(loaded)):
        found.update(linking(path, f'{kind}\n{segments}'))
    elif kind in ('EXEC', 'DYN'):
        found['needed'] = None
    types = [kind for kind, _, _, _ in sections]
    symbols, dynamic_symbols = (next((size // entry for kind, size, entry, _ in sections if kind == name), 0) for name in ('SYMTAB', 'DYNSYM'))
    found.update(build_id=first(r'Build ID: (\w+)', printed(path, '-n')), cut=False, sizes=sizes_of(sections), unknown=[],
                 sections=int(first(r'Number of section headers: +(?:0 \()?(\d+)', header)),
                 segments=int(first(r'Number of program headers: +(?:65535 \()?(\d+)', header)), symbols=symbols,
                 dynamic_symbols=dynamic_symbols)
    is_static = found.pop('is_static', False)
    if found['kind'] != 'core':
        comments = dict.fromkeys(re.findall(r'^  \[ *\w+\]  (.*)$', printed(path, '-p', '.comment'), re.M))
        found.update(stripped='SYMTAB' not in types, compilers=[text for text in comments if not LINKER.match(text)])
    if found['kind'] not in ('core', 'debug file'):
        is_known = 'SYMTAB' in types or 'DYNSYM' in types and not is_static
        found['canary'] = bool(CANARY.search(printed(path, '-s'))) or (False if is_known else None)
        found['unknown'] = ['canary'] if found['canary'] is None else []
        marks = first(r'Properties:.* feature: ([A-Z, ]+)(?:, x86|$)', printed(path, '-n'))
        is_marked = re.search('Machine: +(AArch64|Intel 80386|Advanced Micro Devices X86-64)', header)
        found['control_flow'] = (marks or '').split(', ') if marks else [] if is_marked else None
    return found


def without(found, *names, **changed):
    """Returns facts of which some are unknown."""
    return {**found, **dict.fromkeys(names), **changed, 'unknown': [name for name in NAMES if name in (*names, *found['unknown'])]}


# What is unknown without the dynamic section, and without the section headers.
DYNAMIC = ('soname', 'rpath', 'runpath', 'needed', 'pie', 'relro', 'bind_now')
SECTIONS = ('canary', 'compilers', 'stripped', 'sections', 'symbols', 'dynamic_symbols', 'sizes')
BY_HAND = {
    # The first 512 bytes of a core: its notes lie after them.
    'made/x86_64_core': lambda rows: without(rows['made/x86_64_core'], 'build_id', cut=True),
    'facts/cut_dynamic': lambda rows: without(rows['facts/full'], *DYNAMIC, *SECTIONS, kind='program or library', cut=True),
    'facts/cut_headers': lambda rows: without(rows['facts/full'], *SECTIONS, cut=True),
    'facts/cut_debug': lambda rows: without(rows['facts/full'], 'interpreter', *DYNAMIC, *SECTIONS, kind='program or library', cut=True),
    'facts/long_dynamic': lambda rows: without(rows['facts/full'], *DYNAMIC, kind='program or library', cut=True),
    # Its name can't be read: DT_STRTAB is missing.
    'facts/no_strings': lambda rows: without(rows['facts/two_compilers'], 'soname'),
    # Of one of its needed libraries the name is said to lie past the end of the strings.
    'facts/open_names': lambda rows: without(rows['facts/open_names'], 'needed'),
    # Its last segment ends at 0x104e6 + 0x1388, and the file at 66,800. Its PT_NOTE has an alignment of 4,096, and notes are aligned to 4 or 8.
    'uses': lambda rows: without(rows['uses'], 'build_id', cut=True),
    # Its program headers are said to lie past the end. A machine without marks of control-flow enforcement has none.
    'facts/far_segments': lambda rows: without(rows['facts/two_compilers'], 'build_id', 'interpreter', *DYNAMIC, 'nx', 'writable_code', 'segments',
                                               kind='program or library', control_flow=None, cut=True),
    # The same of a debug file. (Of its segments it has no bytes, but it has their headers.)
    'facts/far_segments_debug': lambda rows: without(rows['facts/debug'], 'build_id', 'segments', cut=True),
    # Their SHT_SYMTAB is said to lie past the end: it may have a canary, as SHT_DYNSYM of the second one does.
    'facts/far_symbols': lambda rows: without(rows['facts/far_symbols'], 'canary', 'symbols', cut=True),
    'facts/far_symbols_canary': lambda rows: without(rows['facts/far_symbols_canary'], 'symbols', cut=True),
    # readelf looks for no dynamic section without program headers. Without them there is no PT_INTERP, PT_GNU_STACK or PT_GNU_RELRO.
    'facts/no_segments': lambda rows: {**rows['facts/two_compilers'], 'interpreter': None, 'nx': False, 'relro': 'no', 'segments': 0},
}


def main():
    names = [f'{folder}/{name}' for folder in ('made', 'facts') for name in sorted(os.listdir(os.path.join(FILES, folder)))
             if not name.endswith('.listed')]
    rows = {name: row(os.path.join(FILES, name)) for name in [*names, 'symbols', 'relocations', 'uses']}
    rows.update({name: read(rows) for name, read in BY_HAND.items()})
    print('{\n' + ',\n'.join(f'{json.dumps(name)}: {json.dumps(found)}' for name, found in rows.items()) + '\n}')


if __name__ == '__main__':
    main()
