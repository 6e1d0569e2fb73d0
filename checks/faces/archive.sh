#!/bin/sh
# Whether the library can be installed and used without the toolchain: sh checks/faces/archive.sh FOLDER, after webassembly.sh
# The archive, the wheel and the crate have the same bytes whatever the umask, the folder and the time of the sources, and the sums beside
# them. All users can read what is installed. Another LIBDIR and a shared library can be used too. A new installation leaves no old file, and
# an uninstallation neither a file nor a folder that was made. What others made stays. What can't be whole changes nothing, and of two
# installations at once one waits.
. checks/faces/shared.sh
root=$folder/above/other/root
export LIBRARY="$folder/libgoblin_c.a" TARGET='' CPU=''

# (a program in place of goblin_show, which another part of a test may build meanwhile)
printf '#!/bin/sh\ncat "%s/crates/goblin_show/stdout"\n' "$PWD" > "$folder/program"
copy_sources "$folder/sources"
for mask in 077 022; do
    mkdir "$folder/$mask&|"
    if [ $mask = 077 ]; then from=$folder/sources; else from=.; fi
    (umask $mask && cd "$from" && quietly env TMPDIR="$(realpath --relative-to=. "$folder/$mask&|")" PROGRAM="$folder/program" \
        sh faces/install.sh --archive "$folder/made.$mask/goblin_c.tar.gz")
done
quietly diff -r "$folder/made.077" "$folder/made.022"
(cd "$folder/made.022" && quietly sha256sum -c goblin_c.tar.gz.sha256 goblin_elf-*.whl.sha256 "goblin_rs-$version.crate.sha256")
archive=$folder/made.022/goblin_c.tar.gz
tar -tzf "$archive" > "$folder/output"
grep -qx 'goblin_c-[^/]*/README\.md' "$folder/output" || fail "the archive has no README.md"
python3 checks/installed.py "$archive"
# A client takes the crate from a registry, by its version, and can be packaged. The crate's own tests need no other file.
if has cargo 'the crate is not taken from a registry'; then
    registry=$folder/registry
    mkdir -p "$registry/index/go/bl" "$folder/client/src" "$folder/client/.cargo"
    cp "$folder/made.022/goblin_rs-$version.crate" "$registry/"
    printf '{"name":"goblin_rs","vers":"%s","deps":[],"cksum":"%s","features":{"default":["std"],"std":[]},"yanked":false}\n' "$version" \
        "$(sha256sum < "$registry/goblin_rs-$version.crate" | awk '{ print $1 }')" > "$registry/index/go/bl/goblin_rs"
    printf '[source.crates-io]\nreplace-with = "local"\n[source.local]\nlocal-registry = "%s"\n' "$registry" \
        > "$folder/client/.cargo/config.toml"
    printf '[package]\nname = "client"\nversion = "1.0.0"\nedition = "2021"\nlicense = "MIT"\ndescription = "A client"\n' \
        > "$folder/client/Cargo.toml"
    printf '[dependencies]\ngoblin_rs = "%s"\n' "${version%.*}" >> "$folder/client/Cargo.toml"
    cp faces/rust/examples/symbols.rs "$folder/client/src/main.rs"
    alone() {
        (cd "$folder/$1" && shift && env -u GOBLIN_C_LIB CARGO_HOME="$folder/home" CARGO_TARGET_DIR=target PKG_CONFIG_LIBDIR="$folder" "$@")
    }
    quietly alone client cargo build --offline
    "$folder/client/target/debug/client" "$program_file" > "$folder/listed"
    [ "$(grep -c ' main$' "$folder/listed")" -eq 1 ] || fail "the client of the crate does not list main: $(cat "$folder/listed")"
    quietly alone client cargo package --offline --allow-dirty
    mkdir "$folder/unpacked"
    tar -C "$folder/unpacked" --strip-components=1 -xzf "$registry/goblin_rs-$version.crate"
    for file in README.md LICENSE goblin.h libraries/x86_64-linux/libgoblin_c.a; do
        [ -s "$folder/unpacked/$file" ] || fail "the crate has no $file"
    done
    quietly alone unpacked cargo test --offline --lib --tests
    echo 'a client takes the crate from a registry'
fi
find_node
python3 checks/readme.py "$folder/libgoblin_c.a" "$archive" "$(cat "$folder/node" 2> "$folder/output" || :)"

# With another LIBDIR and a shared library.
multiarch=lib/x86_64-linux-gnu
(umask 077 && quietly env LIBDIR=$multiarch SHARED=1 PROGRAM="$folder/program" sh faces/install.sh "$root")
ends_with 0 '' find "$root" -mindepth 1 '(' -type f ! -perm 644 ! -path '*/bin/*' -o -path '*/bin/*' ! -perm 755 -o -type d ! -perm 755 ')'
mkdir "$folder/packed"
cp -R "$root" "$folder/packed/goblin_c-$version-x86_64-unknown-linux-gnu"
tar -C "$folder/packed" -czf "$folder/multiarch.tar.gz" .
python3 checks/installed.py "$folder/multiarch.tar.gz"

# (as if an earlier version had installed a file more)
echo share/goblin_c/rust/src/earlier.rs >> "$root/share/goblin_c/library.files"
touch "$root/share/goblin_c/rust/src/earlier.rs"
(umask 022 && quietly env LIBDIR=lib sh faces/install.sh "$root")
grep -q '^the shared library of the earlier installation is removed' "$folder/output" \
    || fail 'an installation does not say that it removes an earlier shared library'
ends_with 0 '' find "$root" -path '*/x86_64-linux-gnu/*' ! -type d -o -name earlier.rs -o -name '*-shared*'
# (as if cargo had built the crate, and Python imported the package)
mkdir "$root/share/goblin_c/rust/target" "$root/share/goblin_c/python/goblin_elf/__pycache__"
touch "$root/share/goblin_c/rust/target/made" "$root/share/goblin_c/rust/Cargo.lock"
quietly make uninstall PREFIX="$root" LIBDIR="$root/lib"
[ ! -e "$folder/above" ] || fail "an uninstallation leaves: $(find "$folder/above")"
# (so does what an installation left that failed, also if from then on nothing can be written, as on a disk that is full)
mkdir "$folder/filling" "$folder/stopping"
printf '#!/bin/sh\n[ ! -e "%s/lib/libgoblin_c.a" ] || exit 1\nexec /usr/bin/cp "$@"\n' "$root" > "$folder/filling/cp"
printf '#!/bin/sh\n/usr/bin/cp "$@"\n[ ! -L "%s/lib/libgoblin_c-shared.so" ] || exit 1\n' "$root" > "$folder/stopping/cp"
chmod 755 "$folder/filling/cp" "$folder/stopping/cp"
ends_with 1 '*' env PROGRAM="$folder" sh faces/install.sh "$root"
[ ! -e "$folder/above" ] || fail "an installation of what can't be read leaves: $(find "$folder/above")"
for path in "$folder/filling:$PATH" "$folder/stopping:$PATH"; do
    ends_with 1 '*' env LIBDIR=lib SHARED=1 PROGRAM="$folder/program" PATH="$path" sh faces/install.sh "$root"
    [ -e "$root/lib/libgoblin_c.a" ] || fail "an installation that fails after the library has installed nothing"
    quietly sh faces/install.sh --uninstall "$root"
    [ ! -e "$folder/above" ] || fail "the uninstallation of what was installed in part leaves: $(find "$folder/above")"
done
ends_with 2 'PROGRAM is *: it can not be read' env PROGRAM="$folder/none" sh faces/install.sh "$root"
# (nor is an earlier module removed for a library that is missing)
quietly env TARGET=wasm64-unknown-unknown sh faces/install.sh "$root"
ends_with 2 'LIBRARY is *: it can not be read' env TARGET=wasm64-unknown-unknown LIBRARY="$folder/none" sh faces/install.sh "$root"
# (nor one that is a folder, no library, or for another target)
for wrong in "$folder" faces/c/goblin.h; do ends_with 2 'LIBRARY is *: it *' env LIBRARY="$wrong" sh faces/install.sh "$root"; done
ends_with 2 'LIBRARY is *: it is no library for aarch64-*' env TARGET=aarch64-unknown-linux-gnu sh faces/install.sh "$root"
[ -e "$root/share/goblin_c/web/goblin_c.wasm" ] || fail 'an installation of a library that is missing removes the earlier one'
quietly sh faces/install.sh --uninstall "$root"
mkdir -p "$root/share/man"
(umask 022 && quietly env LIBDIR=lib sh faces/install.sh "$root")
touch "$root/include/own.h"
quietly sh faces/install.sh --uninstall "$root"
for own in share/man include/own.h; do [ -e "$root/$own" ] || fail "an uninstallation removes $own, which the installation didn't make"; done
ends_with 0 '' find "$root" -mindepth 1 ! -path "$root/share" ! -path "$root/share/man" ! -path "$root/include" ! -path "$root/include/own.h"
# What can't be removed or written whole changes nothing, nor where a file is in the way that another package may have installed.
whole=$folder/whole
unchanged() {
    chmod -R u+w "$whole"
    quietly diff -r --no-dereference "$folder/earlier" "$whole"
    rm -rf "$folder/earlier"
}
# Tests one without rights to write to a folder below: refused BELOW [OPTION]
refused() {
    cp -R "$whole" "$folder/earlier"
    chmod a-w "$whole/$1"
    ends_with 2 "PREFIX is *: */$1 is no folder that can be written to" \
        restricted env PROGRAM="$folder/program" sh faces/install.sh ${2:+"$2"} "$whole"
    unchanged
}
if restricted true 2> "$folder/output"; then
    quietly env PROGRAM="$folder/program" sh faces/install.sh "$whole"
    compiled=share/goblin_c/python/goblin_elf/__pycache__
    mkdir "$whole/$compiled"
    touch "$whole/$compiled/made"
    for below in include lib bin share/man/man1 share/goblin_c share/goblin_c/rust/src $compiled; do
        refused "$below"
        refused "$below" --uninstall
    done
    for below in include lib bin share; do
        rm -rf "$whole"
        mkdir -p "$whole/include" "$whole/lib" "$whole/bin" "$whole/share"
        refused "$below"
    done
else
    left_out 'setpriv is not installed or takes root no rights, so nothing is installed into folders that can not be written to'
fi
for other in include/goblin.h bin/goblin_show; do
    rm -rf "$whole"
    mkdir -p "$whole/include" "$whole/bin"
    ln -s nowhere "$whole/$other"
    cp -R "$whole" "$folder/earlier"
    ends_with 2 "*/$other is not of goblin_c, so nothing is changed. *" env PROGRAM="$folder/program" sh faces/install.sh "$whole"
    unchanged
done
# Of some at once each is whole.
rm -rf "$whole"
quietly sh faces/install.sh "$whole"
sort "$whole/share/goblin_c/library.files" > "$folder/wanted"
for turn in 1 2; do
    [ $turn = 2 ] || rm -rf "$whole"
    for each in 1 2 3; do { sh faces/install.sh "$whole" && touch "$folder/ended.$turn$each"; } > "$folder/output" 2>&1 & done
    wait
    for each in 1 2 3; do [ -e "$folder/ended.$turn$each" ] || fail "one of three installations at once fails"; done
    sort "$whole/share/goblin_c/library.files" | quietly diff "$folder/wanted" -
    (cd "$whole" && grep -v '^[@/]' share/goblin_c/library.files | while read -r file; do [ -e "$file" ] || fail "$file is not there"; done)
done
# What was moved, or is of a version that listed no folders, leaves such as lib, and says so.
leaves_folders() {
    ends_with 0 '*
an empty folder stays, which others may have made: */include
*/lib/cmake
*/lib/pkgconfig
*' sh faces/install.sh --uninstall "$1"
    ends_with 0 '' find "$1" -name '*goblin*'
}
mv "$whole" "$folder/moved"
leaves_folders "$folder/moved"
quietly sh faces/install.sh "$whole"
sed -i '/[/]$/d' "$whole/share/goblin_c/library.files"
leaves_folders "$whole"
# What is unpacked where others have made folders can be removed, too, and theirs stay.
mkdir -p "$folder/local/bin" "$folder/local/include"
tar -C "$folder/local" --strip-components=1 -xzf "$archive"
quietly sh faces/install.sh --uninstall "$folder/local"
for own in bin include; do [ -d "$folder/local/$own" ] || fail "an uninstallation removes $own, which others made"; done
ends_with 0 "$folder/local/README.md" find "$folder/local" -type f
# What was staged elsewhere leaves folders that others made, too.
quietly sh faces/install.sh "$folder/staged/usr"
mkdir -p "$folder/rooted/usr/include" "$folder/rooted/usr/lib"
cp -R "$folder/staged/." "$folder/rooted"
quietly sh faces/install.sh --uninstall "$folder/rooted/usr/."
for own in include lib; do [ -d "$folder/rooted/usr/$own" ] || fail "an uninstallation removes $own, which others made"; done
ends_with 0 '' find "$folder/rooted" -type f
# What is put into a package has no name of a folder where it was made. It leaves no folder there if it is removed.
quietly make install PREFIX=/usr DESTDIR="$folder/package" SHARED=1
ends_with 1 '' grep -rF "$folder" "$folder/package"
quietly grep -x prefix=/usr "$folder/package/usr/lib/pkgconfig/goblin_c.pc"
quietly grep -F '"/usr/share/goblin_c/rust"' "$folder/package/usr/share/goblin_c/README.md"
quietly make uninstall PREFIX=/usr DESTDIR="$folder/package"
[ ! -e "$folder/package" ] || fail "the uninstallation of a package leaves: $(find "$folder/package")"
quietly make install PREFIX=/usr DESTDIR=-x
quietly grep -x prefix=/usr ./-x/usr/lib/pkgconfig/goblin_c.pc
quietly make uninstall PREFIX=/usr DESTDIR=-x
[ ! -e ./-x ] || fail "the uninstallation of a package whose folder begins with a hyphen leaves: $(find ./-x)"
# The folder of the libraries may be a link, from where no relative name leads back. (One with a space is not written.)
mkdir -p "$folder/elsewhere/libraries" "$folder/linking"
ln -s "$folder/elsewhere/libraries" "$folder/linking/lib"
quietly sh faces/install.sh "$folder/linking"
case $folder in
*[!A-Za-z0-9._+/-]*) ;;
*)
    grep -qxF "prefix=$(realpath "$folder/linking")" "$folder/linking/lib/pkgconfig/goblin_c.pc" \
        || fail 'pkg-config finds no goblin.h'
    ;;
esac
# A folder of the installation may have any name of one line, and one of libraries some.
ends_with 2 'PREFIX is *line break' sh faces/install.sh "$folder/a
b"
# shellcheck disable=SC2016 # (it is the name)
odd=$folder'/$(touch made)$b\n'
quietly make install PREFIX="$odd/" LIBDIR="$odd/lib/"
grep -q '^pkg-config and CMake may not find it there' "$folder/output" || fail 'an installation does not say that pkg-config can not name it'
quietly make uninstall PREFIX="$odd"
[ ! -e "$odd" ] || fail "the uninstallation of a folder whose name has a backslash leaves: $(find "$odd")"
[ ! -e made ] || fail 'make runs what a name of a folder has'
quietly make install PREFIX=-x
quietly make uninstall PREFIX=-x
[ ! -e ./-x ] || fail "the uninstallation of a folder whose name begins with a hyphen leaves: $(find ./-x)"
ends_with 2 '*goblin_c is not installed below /: nothing is removed*' make uninstall PREFIX=
# (the shell leaves a quoted ~)
for command in install uninstall; do ends_with 2 '*PREFIX is ~/x: *' make $command PREFIX='~/x'; done
ends_with 2 "LIBDIR is lib&64: *" env LIBDIR='lib&64' sh faces/install.sh "$root"
# What is for some processors alone takes no place of what is for all. (The name of their folder is not UTF-8.)
some=$folder/$(printf 'some\351')
quietly env CPU=x86-64-v3 sh faces/install.sh --archive "$some/goblin_c.tar.gz"
made_for="$version-x86_64-unknown-linux-gnu-x86-64-v3"
tar -tzf "$some/goblin_c.tar.gz" > "$folder/output"
grep -qx "goblin_c-$made_for/README.md" "$folder/output" || fail "the archive for some processors has no name of its own: $(cat "$folder/output")"
# (if two of them had the same time and size, Python would run what it compiled of the earlier one)
dates() { tar --full-time -tvzf "$1" | awk '{ print $4, $5 }' | sort -u; }
if [ "$(dates "$some/goblin_c.tar.gz")" = "$(dates "$archive")" ]; then fail "the files of two archives have the same time"; fi
[ -e "$some/x86-64-v3/goblin_elf-$version-py3-none-linux_x86_64.whl" ] || fail "the wheel for some processors has no folder of its own"
# What can't be written whole leaves the earlier archive and wheel. (Some files may have only 4 KiB, as on a disk that is full.)
mkdir "$folder/limited"
cp -R "$some" "$folder/before"
for command in gzip python3 cp; do
    # shellcheck disable=SC2016 # (they are of the script that is written)
    printf '#!/bin/sh\ncase $1 in *constants.py) ;; *) trap "" XFSZ && ulimit -f 8 ;; esac\nexec "%s" "$@"\n' "$(command -v $command)" \
        > "$folder/limited/$command"
    chmod 755 "$folder/limited/$command"
    ends_with 1 '*File too large*' env PATH="$folder/limited:$PATH" CPU=x86-64-v3 sh faces/install.sh --archive "$some/goblin_c.tar.gz"
    quietly diff -r "$folder/before" "$some"
    rm "$folder/limited/$command"
done
# A wheel that can't be written is no archive that is.
mkdir -p "$folder/taken/goblin_elf-$version-py3-none-linux_x86_64.whl"
ends_with 1 '*' sh faces/install.sh --archive "$folder/taken/goblin_c.tar.gz"
echo "all users can read what is installed, and it can be removed"
