#!/usr/bin/env bash
# Makes one archive of the proved program, for systems without the toolchain.
#
#   tools/release/release.sh --gate LOG [--deb]     LOG is what `rt ci` printed for this commit
#   tools/release/release.sh --unproved [--deb]     before any proof, to try this script
#
# With --deb a package for Debian is made beside it (dpkg-deb, help2man, python3-aiohttp).
#
# The archive goes to out/release, with its checksum. It has ./serve and ./demo, the program, README
# and docs, the clients, a licence if there is one, a text that says what was proved, and a checksum
# of each file. Before it is kept, it is unpacked elsewhere and has to answer the stored run. This
# script refuses a work tree that differs from the last commit, sources that ./serve has not proved
# and built, and a log whose last line is not that of a whole gate that passed.
set -euo pipefail
top=$(cd "$(dirname "${BASH_SOURCE[0]}")/../.." && pwd)
cd "$top"
# shellcheck source=SCRIPTDIR/../common/program.sh
. tools/common/program.sh

fail() {
    echo "release: $1" >&2
    exit 1
}

# The last line of the gate's log, if it is that of a whole gate that passed.
gate_line() {
    local line
    [ -f "$1" ] || fail "there is no file $1"
    line=$(tail -n 1 "$1")
    if ! [[ $line =~ ^[0-9]+\ passed,\ 0\ failed$ ]]; then
        fail "the last line of $1 is not that of a whole gate that passed, but: $line"
    fi
    echo "$line"
}

# What was proved of a program in the archive, for whoever unpacks it.
proved_text() {
    cat <<END
bin/xq_server was proved and built from this commit on $(date --reference="$program" --utc +%F) with

    $kit

The gate (rt ci), which proves every crate, sees wrong bodies refused, and runs all tests, ended
for this commit, by the log of whoever made this archive, with

    $gate

README.md says under "What is proved" what that is, and below it what is only tested or trusted.
END
}

unproved_text() {
    cat <<END
THE PROGRAM IN THIS ARCHIVE IS NOT PROVED. bin/xq_server_unproved was built from this commit with

    $kit

without a proof. It checks itself as it runs. README.md describes the proved program.
END
}

release_text() {
    cat <<END
xq_server, commit $commit of $(git show -s --format=%cs HEAD)

$(if [ -n "$is_unproved" ]; then unproved_text; else proved_text; fi)

./serve runs the program, as README.md says under "Serving". It needs Linux on an x86-64 processor,
glibc 2.34 or later, and bash. ./demo shows a dialogue, and needs python3.
sha256sum --check SHA256SUMS tells whether all files are as they were packed.
END
}

# Fills a folder with what the archive has.
fill() {
    git ls-files -z -- README.md CHANGELOG.md CONTRIBUTING.md 'LICEN[CS]E*' 'COPYING*' docs \
        clients xqs serve demo tools/user/{show_run.py,dialogue.txt,try_dialogue.py,take_file.sh} |
        xargs -0 cp --parents --target-directory="$1"
    install -D --mode=755 "$program" "$1/bin/xq_server${is_unproved:+_unproved}"
    release_text >"$1/RELEASE.txt"
    (cd "$1" && find . -type f -printf '%P\0' | sort -z | xargs -0 sha256sum) >"$room/sums"
    mv "$room/sums" "$1/SHA256SUMS"
}

# Unpacks an archive elsewhere, and has its ./serve answer the program's stored run.
try() {
    mkdir "$room/tried"
    tar --extract --gzip --file="$1" --directory="$room/tried" --strip-components=1
    (cd "$room/tried" && sha256sum --check --quiet SHA256SUMS)
    (cd / && env -i PATH=/usr/bin:/bin "$room/tried/serve") <crates/xq_serve/stdin |
        cmp - crates/xq_serve/stdout
}

is_unproved=
gate=
case ${1-} in
--gate) gate=$(gate_line "${2:?}"); shift 2 ;;
--unproved) is_unproved=yes; shift ;;
*) sed -n '2,/^set/{s/^# \{0,1\}//;/^set/d;p}' "${BASH_SOURCE[0]}" >&2; exit 2 ;;
esac
[ -z "$(git status --porcelain)" ] || fail "the work tree differs from the last commit"
if [ -n "$is_unproved" ]; then
    program=$(tools/run build_unproved --if-built) || fail "run ./serve --unproved first"
elif ! is_current; then
    fail "there is no proved program of these sources: run ./serve first"
fi
commit=$(git rev-parse HEAD)
kit=$(rt version)
name=xq_server-${commit:0:12}-x86_64-linux${is_unproved:+-unproved}
room=$(mktemp --directory)
trap 'rm -rf "$room"' EXIT
mkdir "$room/$name"
fill "$room/$name"
tar --create --gzip --file="$room/$name.tar.gz" --directory="$room" --sort=name --owner=0 \
    --group=0 --numeric-owner --mtime="@$(git show -s --format=%ct HEAD)" "$name"
try "$room/$name.tar.gz" || fail "the archive does not answer the program's stored run"
mkdir -p out/release
(cd "$room" && sha256sum "$name.tar.gz" >"$name.tar.gz.sha256")
mv "$room/$name.tar.gz" "$room/$name.tar.gz.sha256" out/release/
echo "out/release/$name.tar.gz"
if [ "${1-}" = --deb ]; then
    tools/run package_deb "$program" out/release ${is_unproved:+--unproved}
fi
