#!/usr/bin/env python3
"""Whether an archive of faces/install.sh can be used without the toolchain: python3 checks/installed.py ARCHIVE [COMPILER RUNNER]

It is unpacked elsewhere, and used in an environment that has only the compilers. C finds it by pkg-config, CMake by its package, and Rust by
a path. The examples are compiled, and the program is tried if the archive has it. What the machine lacks is left out. COMPILER and RUNNER
are for an archive of another target: the compiler makes static programs, which the runner runs. Run it from the repository's root.
"""
import glob
import os
import re
import shlex
import shutil
import sys
import tempfile

sys.dont_write_bytecode = True
import readme
from crates import text_of

# The warnings of groff 1.22. What other versions find is not asked for.
WARNINGS = 'break char delim di el escape file font ig input mac missing number range reg right-brace scale space syntax tab'
# What a project asks for that version 1.2.3 meets, and what it doesn't: CMake says the same of a package whose versions are compatible if they
# have the same first number.
MET = '1, 1.1, 1.1.9, 1.2, 1.2.3, 1.2.3 EXACT, 1.0...1.2.3, 1.1...<1.3, 1...<2, 1.2.3...1.9'
UNMET = ('0, 0.9, 1.2.4, 1.3, 2, 2.0, 99, 1.2 EXACT, 1.1 EXACT, 1.2.3.0 EXACT, 2.2.3 EXACT, 1.0...<1.2.3, 1.0...1.2, 1.3...1.4, 0.9...1.9, '
         '1.0...2.0, 1...<2.1, 1.2.3...2, 1.0...<99, 0...0.9')
# What nm.c and symbols.rs print of themselves.
OF_C, OF_RUST = r'(?m) T [0-9]* main$', '(?m) main$'


def need(is_so, why):
    if not is_so:
        sys.exit(why)


def exported(path):
    """The names that a shared object exports."""
    said = readme.run([f'readelf --dyn-syms -W {shlex.quote(path)}'], '')
    return re.findall(r'^ *\d+: \w+ +\w+ \w+ +(?:GLOBAL|WEAK) +\w+ +\d+ (\S+)', said, re.MULTILINE)


class Unpacked:
    def __init__(self, folder, archive, compiler='cc', runner=''):
        self.folder, self.linker, self.runner = folder, compiler.split()[0], runner
        readme.run([f'tar -C {shlex.quote(folder)} -xzf {shlex.quote(archive)}'], '')
        self.there, = glob.glob(f'{folder}/goblin_c-*')
        self.libdir = os.path.dirname(*glob.glob(f'{self.there}/**/libgoblin_c.a', recursive=True))
        self.version, self.target = re.search('goblin_c-([^-]*)-(.*)', self.there).groups()
        self.header = text_of(f'{self.there}/include/goblin.h')
        self.interface = re.search(r'define GOBLIN_VERSION (\d+)', self.header)[1]
        self.shared = f'{self.there}/share/goblin_c/python/goblin_elf/libgoblin_c.so.{self.interface}'
        self.variables = dict(PKG_CONFIG_PATH=f'{self.libdir}/pkgconfig', CARGO_TARGET_DIR=f'{folder}/target', THERE=self.there, LIBDIR=self.libdir,
                              CC=compiler, RUNNER=runner, SHARED=self.shared, CMAKE_PREFIX_PATH=self.there)

    def run(self, *lines, wanted='', **variables):
        return readme.run(lines, wanted, self.folder, **{**self.variables, **variables})

    def page(self):
        """The installed page lists each installed file, or a folder that has it, but for the licences. What it and the page of the Python
        package link to is there. The archive's first page, if there is one, lists the same, with the size of each."""
        share = f'{self.there}/share/goblin_c'
        text, files = text_of(f'{share}/README.md'), text_of(f'{share}/library.files').splitlines()
        listed = re.findall('^- `(.*?)`', text.split('## Installed files')[1], re.MULTILINE)
        for file in files:
            need(file.endswith(('/', '/LICENSE', '/README.md', '/libgoblin_c-shared.so')) or file.startswith(tuple(listed)),
                 f"the installed README.md doesn't list {file}")
        for name in ('README.md', 'python/README.md'):
            for link in re.findall(r'\]\((.*?)\)', text_of(f'{share}/{name}')):
                need(os.path.exists(os.path.join(share, os.path.dirname(name), link)), f"the installed {name} links to {link}, which isn't there")
        unreplaced = [path for path in (f'{share}/README.md', *glob.glob(f'{self.libdir}/*/**/*.[cp]*', recursive=True))
                      if re.search('@[A-Z]+@', text_of(path))]
        need(not unreplaced, f'an installed file has a name that is not replaced: {unreplaced}')
        if os.path.exists(f'{self.there}/README.md'):
            first = text_of(f'{self.there}/README.md')
            named = [name for name in re.findall('^[|]`(.*?)`[|]', first, re.MULTILINE) if name != 'share/goblin_c/README.md']
            need(named == listed, "the archive's README.md lists other files")
            size = os.path.getsize(f'{self.there}/include/goblin.h')
            need(f'|`include/goblin.h`|the header for C and C++|{size}|\n' in first, "the archive's README.md has another size of goblin.h")

    def shared_library(self):
        """The Python package's shared library, of which the folder of libraries may have a copy, has its soname, and exports the calls of
        goblin.h alone, each with the version of the interface."""
        if os.path.exists(f'{self.libdir}/libgoblin_c-shared.so'):
            self.run('cmp "$LIBDIR/libgoblin_c-shared.so" "$SHARED"')
        said = self.run('readelf -dW "$SHARED"', wanted=rf'\(SONAME\).*\[libgoblin_c\.so\.{self.interface}\]')
        need('TEXTREL' not in said, 'the code of the shared library is relocated')
        need(re.findall(r' UND (\S+)', self.run('readelf --dyn-syms -W "$SHARED"')) == ['memcpy'], 'the shared library needs more than memcpy')
        calls = re.findall(r'^(?:bool|size_t|uint\d+_t|void) (goblin_\w+)\(', self.header, re.MULTILINE)
        need(sorted(exported(self.shared)) == sorted(f'{call}@@GOBLIN_{self.interface}' for call in calls), 'the shared library exports other names')

    def versions(self):
        """Two interfaces in one process keep apart: a program calls the shared library, or the static one with the option that goblin.h names,
        and a library of the program another one."""
        option = re.search('Inside a shared library or program of your own, `(.*?)` hides the calls', self.header)
        need(option, 'goblin.h names no option that hides the calls inside a program')
        self.run("echo 'GOBLIN_1 { global: goblin_*; local: *; };' > exports", "echo 'unsigned goblin_version(void) { return 1; }' > older.c",
                 "echo 'unsigned goblin_version(void); unsigned older(void) { return goblin_version(); }' > caller.c",
                 "printf '#include <stdio.h>\nunsigned older(void), goblin_version(void);\n"
                 "int main(void) { printf(\"%%u, %%u\\\\n\", older(), goblin_version()); }' > both.c",
                 '$CC -shared -fPIC -o libgoblin_c.so.1 older.c -Wl,-soname,libgoblin_c.so.1 -Wl,--version-script=exports',
                 '$CC -shared -fPIC -o libcaller.so caller.c libgoblin_c.so.1 -Wl,-rpath,"$PWD"',
                 '$CC -o both both.c ./libcaller.so "$SHARED" -Wl,-rpath,"$PWD:${SHARED%/*}"', './both',
                 f'$CC -o both both.c ./libcaller.so "$LIBDIR/libgoblin_c.a" -Wl,-rpath,"$PWD" {option[1]}', './both',
                 wanted=f'(?ms)^1, {self.interface}$.*^1, {self.interface}$')

    def hidden(self):
        """A flag hides the names of the static library in a shared library that takes it in."""
        self.run("printf '#include <goblin.h>\nextern uint32_t own_name(void);\nuint32_t own_name(void) { return goblin_version(); }' > own.c",
                 '$CC -shared -fPIC -o own.so -I"$THERE/include" own.c "$LIBDIR/libgoblin_c.a" -Wl,--exclude-libs,libgoblin_c.a -Wl,--gc-sections')
        need(exported(f'{self.folder}/own.so') == ['own_name'], 'a shared library exports names of the static library in it')

    def program(self):
        self.run(f'"$THERE/bin/goblin_show" < {readme.HERE}/crates/goblin_show/stdin | cmp - {readme.HERE}/crates/goblin_show/stdout')

    def manual(self):
        """The manual page can be formatted, which causes no warning."""
        self.run(f'groff -man -Tutf8 -Ww -w{" -w".join(WARNINGS.split())} "$THERE/share/man/man1/goblin_show.1" 2> warned > page',
                 'grep -q goblin_show page', "! grep -v 'unknown warning' warned", wanted='^$')

    def by_pkg_config(self):
        self.run('pkg-config --modversion goblin_c', wanted=f'^{self.version}\n$')
        compiled = 'eval "$CC -std=c99 -o $name $name.c $(pkg-config --cflags --libs goblin_c)"'
        self.run('cp -R "$THERE/share/goblin_c/examples" . && cd examples', f'for name in $(basename -s .c *.c); do {compiled}; done',
                 '$RUNNER ./nm nm', wanted=OF_C)

    def by_cmake(self):
        """Builds nm.c by CMake with some lines that find and link the library, and runs it."""
        package, module = f'find_package(goblin_c {self.version.rpartition(".")[0]} REQUIRED)', 'find_package(PkgConfig REQUIRED)'
        none = ('foreach(wrong 99 "COMPONENTS;nothing")\nfind_package(goblin_c ${wrong} QUIET)\n'
                'if(goblin_c_FOUND)\nmessage(FATAL_ERROR "${wrong} is found")\nendif()\nendforeach()\n'
                'find_package(goblin_c REQUIRED COMPONENTS goblin_c OPTIONAL_COMPONENTS nothing)\n'
                'if(goblin_c_nothing_FOUND OR NOT goblin_c_goblin_c_FOUND)\nmessage(FATAL_ERROR "other components are found")\nendif()\n'
                f'find_package(goblin_c {self.version.partition(".")[0]}.0 REQUIRED)\n')
        ways = {'package': f'{none}{package}\ntarget_link_libraries(listing goblin_c::goblin_c)'}
        if shutil.which('pkg-config'):
            ways['module'] = (f'{module}\npkg_check_modules(GOBLIN REQUIRED IMPORTED_TARGET goblin_c={self.version})\n'
                              'target_link_libraries(listing PkgConfig::GOBLIN)')
        if not self.runner and os.path.exists(f'{self.libdir}/libgoblin_c-shared.so'):
            # (another folder of the project finds the package before, and makes one of its targets global)
            before = ('if(NOT CMAKE_VERSION VERSION_LESS 3.11)\nfile(WRITE before/CMakeLists.txt "find_package(goblin_c REQUIRED)\n'
                      'set_target_properties(goblin_c::{} PROPERTIES IMPORTED_GLOBAL TRUE)")\nadd_subdirectory(before)\nendif()\n')
            for target in ('goblin_c', 'shared'):
                ways[f'shared_after_{target}'] = (f'{before.format(target)}{package[:-1]} COMPONENTS shared)\n'
                                                  'target_link_libraries(listing goblin_c::shared)')
        project = 'cmake_minimum_required(VERSION 3.10)\nproject(listing C)\nadd_executable(listing "$ENV{THERE}/share/goblin_c/examples/nm.c")\n'
        for name, lines in ways.items():
            self.run(f'mkdir {name}', f'cd {name}', 'echo "$LISTS" > CMakeLists.txt', 'cmake -S . -B built', 'cmake --build built',
                     '$RUNNER built/listing built/listing', wanted=OF_C, LISTS=project + lines)
        # (what is refused to a 32-bit project is not its version)
        self.run('mkdir narrow', 'cd narrow', 'echo "$LISTS" > CMakeLists.txt', '! cmake -S . -B built', wanted=rf'version: {self.version} \(64bit\)',
                 LISTS='cmake_minimum_required(VERSION 3.10)\nproject(narrow C)\nset(CMAKE_SIZEOF_VOID_P 4)\nfind_package(goblin_c REQUIRED)')
        # (the folder of the libraries may be a link)
        self.run('mv "$LIBDIR" linked', 'ln -s "$PWD/linked" "$LIBDIR"', 'cmake -S package -B package/linked', 'rm "$LIBDIR"',
                 'mv linked "$LIBDIR"')

    def versions_for_cmake(self):
        """What requests the version file meets, as of version 1.2.3. (A project's variables may have the names of words in it.)"""
        checked = [f'check({int(requests is MET)} {request})' for requests in (MET, UNMET) for request in requests.split(', ')]
        self.run('mkdir versions', 'cd versions',
                 'sed "s/(PACKAGE_VERSION .*)/(PACKAGE_VERSION 1.2.3)/" "$LIBDIR/cmake/goblin_c/goblin_c-config-version.cmake" '
                 '> goblin_c-config-version.cmake', 'touch goblin_c-config.cmake reference-config.cmake', 'echo "$LINES" > versions.cmake',
                 'cmake -P versions.cmake', wanted='all are as expected', LINES='\n'.join([
                     'cmake_minimum_required(VERSION 3.10)', 'include(CMakePackageConfigHelpers)', 'set(INCLUDE include)', 'set(EXCLUDE exclude)',
                     'write_basic_package_version_file(reference-config-version.cmake VERSION 1.2.3 COMPATIBILITY SameMajorVersion)',
                     'function(check is_met)', 'if("${ARGN}" MATCHES "[.][.][.]" AND CMAKE_VERSION VERSION_LESS 3.19)', 'return()', 'endif()',
                     'foreach(package goblin_c reference)', 'find_package(${package} ${ARGN} QUIET CONFIG PATHS . NO_DEFAULT_PATH)',
                     'if(NOT ${package}_FOUND EQUAL is_met)', 'message(FATAL_ERROR "version 1.2.3 of ${package} for ${ARGN}: ${${package}_FOUND}")',
                     'endif()', 'endforeach()', 'endfunction()', *checked, 'message(STATUS "all are as expected")']))

    def cargo(self, command, wanted='', **variables):
        linker = {f'CARGO_TARGET_{self.target.upper().replace("-", "_")}_LINKER': self.linker}
        static = dict(RUSTFLAGS='-Ctarget-feature=+crt-static') if self.runner else {}
        return self.run(f'{command} --offline --target {self.target} --manifest-path app/Cargo.toml', wanted=wanted, **linker, **static, **variables)

    def by_rust(self):
        crate = f'{self.there}/share/goblin_c/rust'
        package = f'[package]\nname = "app"\nversion = "0.0.0"\nedition = "2021"\n\n[dependencies]\ngoblin_rs = {{ path = "{crate}" }}'
        self.run('mkdir -p app/src', 'cp "$THERE/share/goblin_c/rust/examples/symbols.rs" app/src/main.rs', 'echo "$PACKAGE" > app/Cargo.toml',
                 PACKAGE=package)
        self.cargo('cargo build')
        self.run(f'$RUNNER target/{self.target}/debug/app target/{self.target}/debug/app', wanted=OF_RUST)
        if not self.runner:
            self.run('cargo test --offline --manifest-path "$THERE/share/goblin_c/rust/Cargo.toml"')
            self.run('cargo package --list --offline --manifest-path "$THERE/share/goblin_c/rust/Cargo.toml"',
                     wanted='(?m)^LICENSE$')
        # Without the library only linking fails, and cargo prints each folder that was searched, and in which archive the library is.
        os.rename(f'{self.libdir}/libgoblin_c.a', f'{self.folder}/libgoblin_c.a')
        missing = lambda where: (rf'(?s)libgoblin_c\.a is missing for .*{re.escape(where)}.*'
                                 rf'to get it, unpack {re.escape(f"goblin_c-{self.version}-{self.target}.tar.gz")}')
        clippy = bool(re.search(r'^clippy \d', self.run('cargo clippy --version || true')))
        for command in ['cargo check', 'cargo doc', *['cargo clippy'] * clippy]:
            self.cargo(command, missing(f'looked for in {self.libdir}: '), PKG_CONFIG_PATH='')
            self.cargo(command, missing(f'looked for in GOBLIN_C_LIB={self.folder}/app: '), GOBLIN_C_LIB=f'{self.folder}/app')
            self.cargo(command, missing(f'looked for in GOBLIN_C_LIB=none, which is {crate}/none: '), GOBLIN_C_LIB='none')
        self.cargo('! cargo build', missing(f'looked for in {self.libdir}: '), PKG_CONFIG_PATH='')


def main(archive, *compiler):
    cargo = os.path.dirname(shutil.which('cargo') or '/usr/bin/cargo')
    home = os.environ.get('HOME', '/')
    os.environ.clear()
    os.environ.update(PATH=f'{cargo}:/usr/bin:/bin', HOME=home, LC_ALL='C')
    if shutil.which('rt'):
        print("rt is on the bare PATH, so it is not shown that the toolchain isn't needed")
    with tempfile.TemporaryDirectory() as folder:
        it = Unpacked(folder, archive, *compiler)
        has = lambda *names: all(map(shutil.which, names))
        has_program, compiles = os.path.exists(f'{it.there}/bin/goblin_show'), has(it.linker)
        has_rust = has('cargo', 'rustc') and os.path.isdir(it.run(f'rustc --print target-libdir --target {it.target}').strip())
        checks = {'its page': (it.page, True), 'the shared library': (it.shared_library, has('readelf')),
                  'two interfaces in one process': (it.versions, compiles and not it.runner),
                  'hidden in a shared library': (it.hidden, compiles and not it.runner and has('readelf')), 'goblin_show': (it.program, has_program),
                  'its manual page': (it.manual, has_program and has('groff')), 'C by pkg-config': (it.by_pkg_config, compiles and has('pkg-config')),
                  'versions for CMake': (it.versions_for_cmake, has('cmake')), 'CMake': (it.by_cmake, compiles and has('cmake')),
                  'Rust by its path': (it.by_rust, compiles and has_rust)}
        tried = {name: check for name, (check, can_be) in checks.items() if can_be}
        for program in [program for program in ('cmake', 'groff', 'pkg-config', 'readelf') if not has(program)]:
            print(f'left out: {program} is not installed, so the archive is not tried by it')
        for check in tried.values():
            check()
        print(f'the archive of goblin_c {it.version} for {it.target} can be used without the toolchain: {", ".join(tried)}')


if __name__ == '__main__':
    main(*sys.argv[1:])
