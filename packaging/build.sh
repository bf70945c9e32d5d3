#!/usr/bin/env bash
# Makes the Debian package conchpewter_VERSION-REVISION_amd64.deb of the proved program, by Debian's own tools (apt-get install build-essential
# debhelper); beside it conchpewter-import_VERSION-REVISION_all.deb with tsc-import, and tsc_VERSION-REVISION_all.deb, which has nothing and leads those
# who have the package by its former name to it.
#     packaging/build.sh [--program PATH] [--revision N] [FOLDER]
# PATH is a program in place of the proved one, which ./build leaves at crates/collector_main/out/collector_main; FOLDER gets the packages
# (default: packaging/out). The version is what the program prints, and must be the newest one of CHANGELOG.md.
set -eu -o pipefail
here=$(cd "$(dirname "$0")" && pwd)
top=$(dirname "$here")
program=$top/crates/collector_main/out/collector_main
revision=2
folder=$here/out
while [ $# -gt 0 ]; do
    case $1 in
        --program) program=$(realpath "$2"); shift 2 ;;
        --revision) revision=$2; shift 2 ;;
        *) folder=$1; shift ;;
    esac
done
[ -x "$program" ] || { echo "packaging/build.sh: $program isn't there: ./build makes it" >&2; exit 2; }
"$here/pages.py" --check
version=$("$program" version)
version=${version#tsc }
room=$(mktemp -d)
trap 'rm -rf "$room"' EXIT
tree=$room/conchpewter
mkdir -p "$tree" "$folder"
cp -R "$here/debian" "$here/pages" "$top/docs" "$top/examples" "$top/README.md" "$top/CHANGELOG.md" "$tree"
rm "$tree/docs/site.sh"
cp "$here/launcher/tsc-run.c" "$tree"
mkdir "$tree/import"
cp "$here"/import/*.py "$here/import/tsc-import" "$tree/import"
sed -i '1s|.*|#!/usr/bin/python3|' "$tree/import/tsc-import"
mv "$tree/pages/tsc.1" "$tree/pages/conchpewter.1"
"$here/configuration.sh" > "$tree/serve.toml"
# The unit of further instances, tsc@NAME, is that of the service with other names.
unit=$tree/debian/conchpewter.tsc.service
sed -e 's|/serve\.toml|/%i.toml|g; s|traces\.jsonl|%i.jsonl|; s/^RuntimeDirectory=tsc$/&-%i/; s|^Description=.*|& (%i)|; s|/run/tsc\.|/run/tsc-NAME.|' \
    "$unit" > "$tree/debian/conchpewter@.tsc.service"
install -m 755 "$program" "$tree/conchpewter"
"$here/pages.py" --changelog "$revision" > "$tree/debian/changelog"
named=$(dpkg-parsechangelog -l "$tree/debian/changelog" -S Version)
[ "$named" = "$version-$revision" ] || { echo "packaging/build.sh: the program says version $version, CHANGELOG.md ${named%-*}" >&2; exit 2; }
(cd "$tree" && dpkg-buildpackage -b --no-sign) > "$room/log" 2>&1 || { tail -n 40 "$room/log" >&2; exit 1; }
for it in "conchpewter_${named}_amd64.deb" "conchpewter-import_${named}_all.deb" "tsc_${named}_all.deb"; do
    cp "$room/$it" "$folder"
    echo "$folder/$it"
done
