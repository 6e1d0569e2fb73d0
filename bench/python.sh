#!/bin/sh
# Times the Python package beside pyelftools and readelf, over a FILE with many symbols: SHOWN=FILE sh bench/python.sh
# It installs the package in a folder of this run. Run it from the repository's root.
set -eu
folder=$(mktemp -d)
trap 'rm -rf "$folder"' EXIT
trap 'exit 1' HUP INT TERM
for python in python3 /usr/bin/python3; do
    if "$python" -c 'import elftools, numpy' 2> "$folder/output"; then
        SHARED='' sh faces/install.sh "$folder/installed" > "$folder/output" || { cat "$folder/output"; exit 2; }
        # (bench.py finds a file if none is given)
        PYTHONPATH="$folder/installed/share/goblin_c/python" "$python" faces/python/tests/bench.py ${SHOWN:+"$SHOWN"}
        exit 0
    fi
done
echo "pyelftools or numpy is not installed (in Debian python3-pyelftools and python3-numpy), so nothing is timed"
