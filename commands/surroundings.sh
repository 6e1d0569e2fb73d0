#!/bin/sh
# Tests the last commit in other surroundings, each time in a fresh clone: sh commands/surroundings.sh [NAME[+NAME ..] ..]
# In the first one `make gate` proves all. In the others `make test` runs over these proofs, without edits, since they depend on nothing that
# is changed here. By default there are four runs: plain, bare+homeless+two, locale+user+spaces, and all.
#   plain     this machine as it is
#   bare      a PATH of Debian's essential packages, git, make, awk, python3 and rt alone, and no other variable but HOME
#   locale    the locale tr_TR.UTF-8, in which the capital of i isn't I, and the time zone Asia/Kathmandu
#   homeless  no HOME
#   user      a user who isn't root, and owns nothing but the clone and TMPDIR
#   spaces    a clone and a TMPDIR whose names have spaces
#   two       two processors
#   all       each optional program, and binutils-multiarch with foreign compilers, which apt-get installs: so it comes last
# PROVED=FOLDER takes the proofs from a checkout of the same sources that was tested before, if `plain` isn't run. What each run prints is in
# out/surroundings. It ends with 1 if one fails. `user` and `all` need root. Run it from the repository's root, on Debian.
set -eu
room=$(mktemp -d)
trap 'rm -rf "$room"' EXIT
trap 'exit 1' HUP INT TERM
chmod 755 "$room"
proved=$(realpath -m "${PROVED:-$room/plain}")
said=$PWD/out/surroundings
mkdir -p "$said"
failed=

# Leaves the commands of `bare` in a folder.
make_bare() {
    mkdir -p "$room/bin"
    for package in $(dpkg-query -W -f '${Essential} ${Package}\n' | sed -n 's/^yes //p'); do
        for file in $(dpkg-query -L "$package" | grep -E '^(/usr)?/s?bin/.'); do ln -sf "$file" "$room/bin/"; done
    done
    for command in git make awk rt; do ln -sf "$(command -v $command)" "$room/bin/"; done
    # (what is found on the PATH may be a script that looks for Python on the PATH)
    ln -sf "$(python3 -c 'import sys; print(sys.executable)')" "$room/bin/python3"
}

install_all() {
    apt-get update -qq
    # (a nodejs from elsewhere may have npm in it, and conflict with Debian's)
    if ! command -v npm; then apt-get install -qq -y nodejs npm; fi
    apt-get install -qq -y binutils-multiarch cargo chromium cmake firefox-esr g++ gcc gcc-aarch64-linux-gnu gcc-powerpc-linux-gnu \
        gcc-s390x-linux-gnu groff libelf-dev mypy node-typescript pkg-config python3-distributed python3-numpy python3-pandas python3-pyelftools \
        qemu-user rustc shellcheck valgrind
}

# Tests a fresh clone in surroundings, all at once, and reports how that ended: test_in NAME[+NAME ..]
test_in() {
    names=$1 clone=$room/${1%%+*} temporary=$room/temporary start=$(date +%s) end=passed
    case +$names+ in *+spaces+*) clone="$room/a clone" temporary="$room/a temporary folder" ;; esac
    git clone -q . "$clone"
    mkdir -p "$temporary"
    set -- env TMPDIR="$temporary" make test OVER="$proved"
    for name in $(echo "$names" | tr + ' '); do
        case $name in
        plain) set -- sh -c 'make gate && make test OVER=.' ;;
        bare)
            make_bare
            # shellcheck disable=SC2046 # (they are names; one such as PYTHONUNBUFFERED changes what a program does)
            set -- env $(env | sed -n 's/^\([A-Za-z_][A-Za-z_0-9]*\)=.*/-u \1/p' | grep -v ' HOME$') PATH="$room/bin" "$@"
            ;;
        locale)
            mkdir -p "$room/locales"
            localedef -i tr_TR -f UTF-8 "$room/locales/tr_TR.UTF-8"
            set -- env LOCPATH="$room/locales" LC_ALL=tr_TR.UTF-8 LANG=tr_TR.UTF-8 TZ=Asia/Kathmandu "$@"
            ;;
        homeless) set -- env -u HOME -u XDG_CACHE_HOME "$@" ;;
        user)
            chown -R 65534:65534 "$clone" "$temporary"
            set -- setpriv --reuid=65534 --regid=65534 --clear-groups env HOME=/nonexistent "$@"
            ;;
        two) set -- taskset -c "$(python3 -c 'import os; print(*sorted(os.sched_getaffinity(0))[:2], sep=",")')" "$@" ;;
        all) install_all > "$said/installed" ;;
        esac
    done
    (cd "$clone" && "$@") < /dev/null > "$said/$names" 2>&1 || end=FAILED
    [ $end = passed ] || failed="$failed $names"
    echo "$names: $end after $((($(date +%s) - start + 30) / 60)) minutes"
    grep -e ' skipped' -e 'not installed' -e 'left out' "$said/$names" | sort -u || :
    # (the proofs of the first one are taken over)
    [ "$names" = plain ] || rm -rf "${clone:?}" "$temporary"
}

[ $# -gt 0 ] || set -- plain bare+homeless+two locale+user+spaces all
unknown=$(echo "$*" | tr ' +' '\n' | grep -vxE 'plain|bare|locale|homeless|user|spaces|two|all' || :)
[ -z "$unknown" ] || { echo "surroundings: there is no $unknown" >&2; exit 2; }
for names; do test_in "$names"; done
[ -z "$failed" ] || { echo "surroundings: FAILED in$failed"; exit 1; }
echo 'surroundings: all passed'
