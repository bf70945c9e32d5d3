#!/usr/bin/env bash
# Makes the package and tries it in a clean Debian 12 that is booted beside this one: installed, in place of the package by its former name and beside
# Debian's node-typescript; run, stopped, upgraded, removed and purged.
# It needs root, Debian's archive by apt-get, and apt-get install build-essential debhelper lintian mmdebstrap systemd-container. No part of the gate.
#     packaging/test.sh [--program PATH]
# PATH is a program in place of the proved one. The clean system and node-typescript are kept in ~/.cache/tsc-packaging. Its last line is 'N passed, M failed'.
set -eu -o pipefail
here=$(cd "$(dirname "$0")" && pwd)
for it in dpkg-buildpackage dh lintian mmdebstrap systemd-nspawn systemd-analyze; do
    command -v "$it" > /dev/null || { echo "packaging/test.sh: $it isn't here" >&2; exit 2; }
done
kept=${XDG_CACHE_HOME:-$HOME/.cache}/tsc-packaging
room=$(mktemp -d)
trap 'rm -rf "$room"' EXIT
passed=0
failed=0

check() {
    local name=$1
    shift
    if "$@" > "$room/said" 2>&1; then
        passed=$((passed + 1))
        echo "ok $name"
    else
        failed=$((failed + 1))
        echo "FAILED $name: $(cat "$room/said")"
    fi
}

passes_lintian() {
    lintian --allow-root --fail-on error,warning "$room"/packages/conchpewter_*-2_amd64.deb "$room"/packages/{conchpewter-import,tsc}_*-2_all.deb
}

is_shut_in() {
    local exposed
    exposed=$(systemd-analyze security --offline=true "$here/debian/conchpewter.tsc.service" | sed -n 's/.*Overall exposure level for .*: \([0-9.]*\) .*/\1/p')
    echo "exposure $exposed"
    awk -v it="$exposed" 'BEGIN { exit !(it != "" && it <= 2.0) }'
}

# The package as it was under its former name, tsc: the program by that name, a stop command in place of the launcher, a dynamic user and an output that
# only the manager opens, and another end of purging.
make_former() {
    local former=$room/former
    dpkg-deb -R "$room"/packages/conchpewter_*-2_amd64.deb "$former"
    mv "$former/usr/bin/conchpewter" "$former/usr/bin/tsc"
    mv "$former/usr/share/doc/conchpewter" "$former/usr/share/doc/tsc"
    rm -r "$former"/usr/bin/tsc-run "$former"/usr/lib "$former"/usr/share/lintian "$former"/usr/share/man "$former"/lib/systemd/system/tsc@.service \
        "$former"/usr/share/bash-completion "$former"/DEBIAN/triggers "$former"/DEBIAN/preinst "$former"/DEBIAN/md5sums
    cp "$here/../examples/serve.toml" "$former/etc/tsc/serve.toml"
    sed -i -e 's/^Package: .*/Package: tsc/; s/^Version: \(.*\)-2$/Version: \1-1/; /^\(Breaks\|Replaces\):/d' "$former/DEBIAN/control"
    sed -i -e '/triggered/,/^fi/d; /^# Further instances/,$d; /^    systemd-sysusers/d; /^    for it in/,/^    done$/d; s/chown tsc:adm/chown root:adm/' \
        -e '/dh_installsysusers/,/^# End/d' "$former/DEBIAN/postinst"
    sed -i '/^if \[ "$1" = remove \]/,/^fi/d' "$former/DEBIAN/prerm"
    sed -i -e 's|^ExecStart=.*|ExecStart=/usr/bin/tsc serve /etc/tsc/serve.toml|; s|conchpewter validate|tsc validate|; /^ExecReload=/d' \
        -e 's|^User=tsc$|&\nDynamicUser=yes|; /^ReadWritePaths=/d; /^ExecStartPre=+.*chown/d' \
        -e 's|^TimeoutStopSec=|ExecStop=-/bin/sh -c "exec tsc close /etc/tsc/serve.toml >\&2"\nKillSignal=SIGCONT\n&|' "$former/lib/systemd/system/tsc.service"
    mkdir "$room/packages/former"
    dpkg-deb --root-owner-group -b "$former" "$room/packages/former" > /dev/null
}

"$here/build.sh" "$@" "$room/packages"
"$here/build.sh" "$@" --revision 3 "$room/packages"
make_former
# A further one that comes with another configuration.
dpkg-deb -R "$room"/packages/conchpewter_*-3_amd64.deb "$room/other"
sed -i 's/^Version: \(.*\)-3$/Version: \1-4/' "$room/other/DEBIAN/control"
sed -i 's/^num_traces = .*/num_traces = 200000/' "$room/other/etc/tsc/serve.toml"
mkdir "$room/packages/other" "$room/packages/foreign"
dpkg-deb --root-owner-group -b "$room/other" "$room/packages/other" > /dev/null
mkdir -p "$kept"
compgen -G "$kept/node-typescript_*.deb" > /dev/null || (cd "$kept" && apt-get -qq -o APT::Sandbox::User=root download node-typescript)
cp "$kept"/node-typescript_*.deb "$room/packages/foreign"

check pages_are_up_to_date "$here/pages.py" --check
check passes_lintian passes_lintian
check is_shut_in is_shut_in
cat "$room/said"

if [ ! -e "$kept/system.tar" ]; then
    mmdebstrap --quiet --variant=minbase --include=systemd,systemd-sysv,libgcc-s1,curl,man-db,mawk,python3-yaml bookworm "$kept/part.tar"
    mv "$kept/part.tar" "$kept/system.tar"
fi
mkdir "$room/root"
tar -C "$room/root" -xf "$kept/system.tar"
cp -R "$room/packages" "$room/root/packages"
install -m 755 "$here/test/inside.sh" "$room/root/packages/inside.sh"
cat > "$room/root/etc/systemd/system/inside.service" <<'UNIT'
[Unit]
After=multi-user.target
SuccessAction=poweroff-force
FailureAction=poweroff-force
[Service]
Type=oneshot
Environment=HOME=/root
ExecStart=/packages/inside.sh
StandardOutput=append:/packages/said
StandardError=append:/packages/said
UNIT
mkdir -p "$room/root/etc/systemd/system/default.target.wants"
ln -s /etc/systemd/system/inside.service "$room/root/etc/systemd/system/default.target.wants/inside.service"
timeout 580 systemd-nspawn --quiet --register=no --keep-unit --private-network -D "$room/root" -b < /dev/null > "$room/boot" 2>&1 || true
said=$room/root/packages/said
[ ! -s "$said" ] || grep -v ' passed, ' "$said"
if [[ $(tail -n 1 "$said" 2> /dev/null) =~ ^([0-9]+)\ passed,\ ([0-9]+)\ failed$ ]]; then
    passed=$((passed + BASH_REMATCH[1]))
    failed=$((failed + BASH_REMATCH[2]))
else
    failed=$((failed + 1))
    echo "FAILED what runs in the clean system didn't end: $(tail -n 20 "$room/boot")"
fi
echo "$passed passed, $failed failed"
[ "$failed" -eq 0 ]
