#!/bin/sh
# Tests the Python package: sh checks/faces/python.sh FOLDER, after library.sh
# The unit tests are run over the package as it is installed, by the system's Python, and first without numpy and Dask by the one on PATH if
# that is another one, and most of them by the oldest that its page names. What needs numpy, mypy, Dask or another Python is left out where
# these are missing, and a line says so. Then the wheel is installed in an environment of its own, and the first lines of the page and its
# goblin-scan are run there.
. checks/faces/shared.sh
package=$folder/python/share/goblin_c/python
tests=faces/python/tests
export PYTHONDONTWRITEBYTECODE=1 LIBRARY="$folder/libgoblin_c.a" TARGET='' CPU='' LIBDIR=''
unset GOBLIN_ELF_LIBRARY PYTHONPATH PYTHONUNBUFFERED

has_module() { "$python" -c "import $1" 2> "$folder/output"; }

# Runs a command with the installed package.
with_package() { quietly env PYTHONPATH="$package" "$@"; }

# Runs the unit tests of the files of a pattern: try_tests PATTERN
try_tests() {
    with_package "$python" -m unittest discover -s $tests -p "$1"
    grep -q '^Ran [1-9][0-9]' "$folder/output" || fail "fewer than 10 tests ran of $1"
    echo "the Python package: $(grep -o '^Ran [0-9]* tests' "$folder/output") by $("$python" -V)"
}

# Checks the types, where mypy is installed, by what its flag --strict turns on in version 1.0.1.
check_types() {
    has_module mypy || { left_out "mypy is not installed for $python, so the types are not checked"; return; }
    set -- --disallow-any-generics --disallow-subclassing-any --disallow-untyped-calls --disallow-untyped-defs --disallow-incomplete-defs \
        --check-untyped-defs --disallow-untyped-decorators --warn-redundant-casts --warn-unused-ignores --warn-return-any --no-implicit-reexport \
        --strict-equality --follow-imports skip --ignore-missing-imports --config-file= --cache-dir "$folder/mypy"
    with_package "$python" -m mypy "$@" faces/python/goblin_elf
    echo "the Python package: mypy finds no fault in its types"
}

# Installs the wheel, and runs the first lines of the page.
try_wheel() {
    "$python" -m venv "$folder/venv" > "$folder/output" 2>&1 || { left_out "venv is not installed for $python, so the wheel is not tried"; return; }
    quietly sh faces/install.sh --archive "$folder/wheel/goblin_c.tar.gz"
    quietly "$folder/venv/bin/pip" install --no-index --disable-pip-version-check "$folder/wheel"/*.whl
    # shellcheck disable=SC2016 # (the signs are markdown's)
    sed -n "/^\`\`\`python\$/,/^\`\`\`\$/ { /^\`\`\`/d; s|/bin/true|$PWD/$program_file|; p }" faces/python/README.md > "$folder/lines.py"
    (cd "$folder/venv" && quietly bin/python ../lines.py)
    grep -q '^0x[0-9a-f]* .' "$folder/output" || fail "the first lines of the page list no symbols"
    "$folder/venv/bin/pip" show goblin_elf 2>&1 | grep -x 'License: MIT' > "$folder/output" || fail "pip finds no licence of the wheel"
    quietly "$folder/venv/bin/goblin-scan" "$folder/libgoblin_c.a" -o "$folder/report.csv"
    grep -q "^$folder/libgoblin_c.a,.*,ELF64,little,REL," "$folder/report.csv" || fail "the wheel's goblin-scan finds no member"
    echo "the Python package: its wheel can be installed, and the page's $(wc -l < "$folder/lines.py") lines list symbols"
}

# (this fails if the python3 on PATH is older than 3.8)
quietly sh faces/install.sh "$folder/python"
oldest=$(sed -n 's/.*CPython \(3\.[0-9]*\) or later.*/\1/p' faces/python/README.md)
# (pyenv asks for the version that is meant)
if python=$(PYENV_VERSION=$oldest "python$oldest" -c 'import sys; print(sys.executable)' 2> "$folder/output"); then
    (export PYTHONUTF8=0 PYTHONCOERCECLOCALE=0; try_tests 'test_[dfg]*.py')
else
    left_out "python$oldest is not installed, so the Python package is not tested by the oldest Python that it needs"
fi
python=$(command -v python3) system=/usr/bin/python3 is_new='import sys; sys.exit(sys.version_info < (3, 8))'
if $system -c "$is_new" 2> "$folder/output" && [ "$(readlink -f "$python")" != "$(readlink -f $system)" ]; then
    try_tests 'test_goblin_elf.py'
    python=$system
fi
try_tests 'test_*.py'
sed -n 's/^[a-z]* is not installed, so /left out: &/p' "$folder/output"
check_types
try_wheel
