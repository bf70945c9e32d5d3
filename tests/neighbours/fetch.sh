#!/usr/bin/env bash
# Unpacks Debian's packages, and all that they need, into a folder; nothing is installed.
#     fetch.sh SUITE FOLDER PACKAGE..
# SUITE is one of Debian's, as bookworm, bookworm-backports or sid. It takes the mirror that the machine's own apt has, with lists and a cache of its
# own that go when it ends.
set -eu
suite=$1
folder=$2
shift 2
work=$(mktemp -d)
trap 'rm -rf "$work"' EXIT
mkdir -p "$work"/{etc/sources.d,lists/partial,cache/archives/partial} "$folder"
: > "$work/status"
mirror=$(grep -rhoE 'https?://[^ ]*/debian/?( |$)' /etc/apt/sources.list /etc/apt/sources.list.d 2> /dev/null | head -1 | tr -d ' ') || true
[ -n "$mirror" ] || mirror=$(awk '$1 == "URIs:" { print $2; exit }' /etc/apt/sources.list.d/*.sources)
key=/usr/share/keyrings/debian-archive-keyring.gpg
for it in "$suite" "${suite%-backports}"; do
    echo "deb [signed-by=$key] $mirror $it main"
done | sort -u > "$work/etc/sources.list"
options=(
    -qq -o "Dir::Etc::sourcelist=$work/etc/sources.list" -o "Dir::Etc::sourceparts=$work/etc/sources.d"
    -o "Dir::State::lists=$work/lists" -o "Dir::Cache=$work/cache" -o "Dir::State::status=$work/status" -o APT::Sandbox::User=root
)
apt-get "${options[@]}" update
apt-get "${options[@]}" -t "$suite" --no-install-recommends --download-only -y install "$@" > /dev/null
for it in "$work"/cache/archives/*.deb; do
    dpkg -x "$it" "$folder"
done
