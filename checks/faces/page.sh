#!/bin/sh
# Tests the page in browsers, beside readelf and C: sh checks/faces/page.sh FOLDER, after webassembly.sh
# If the machine lacks a browser, a line says so.
. checks/faces/shared.sh
page=$folder/web/index.html

# (without node it is not made)
[ -e "$page" ] || exit 0
size=$(wc -c < "$page")
[ "$size" -le 400000 ] || fail "the page is too large: it has $size bytes, and may have at most 400,000"

# Each browser opens it by the first of some commands that the machine has, and both do so side by side.
opened=
for commands in 'chromium chromium-browser google-chrome' 'firefox firefox-esr'; do
    name=${commands%% *} browser=
    for command in $commands; do if [ -z "$browser" ] && has "$command"; then browser=$command; fi; done
    if [ "$browser" ]; then
        { node faces/page/browser.mjs "$name" "$browser" "$page" "$folder/dump" "$files" checks/files > "$folder/$name.said" 2>&1 \
            || touch "$folder/$name.failed"; } &
        opened="$opened $name"
    else left_out "$name is not installed, so the page is not opened in it"; fi
done
wait
for name in $opened; do
    cat "$folder/$name.said"
    [ ! -e "$folder/$name.failed" ] || fail "the page FAILED in $name"
done
