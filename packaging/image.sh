#!/usr/bin/env bash
# Makes a container's image of the proved program, by podman (apt-get install podman): from scratch, with the program, its launcher, and the four
# libraries that the program links to, as they are on this machine, Debian 12. It runs as nobody and writes to no file.
#     packaging/image.sh [--program PATH] [--oci] [FOLDER]
# PATH is a program in place of the proved one, which ./build leaves at crates/collector_main/out/collector_main. The image is named
# conchpewter:VERSION, and FOLDER (default: packaging/out) gets it as an archive that docker and podman load. With --oci it is one of OCI's format,
# which has no place for the health check.
set -eu -o pipefail
here=$(cd "$(dirname "$0")" && pwd)
top=$(dirname "$here")
program=$top/crates/collector_main/out/collector_main
format=docker
folder=$here/out
while [ $# -gt 0 ]; do
    case $1 in
        --program) program=$(realpath "$2"); shift 2 ;;
        --oci) format=oci; shift ;;
        *) folder=$1; shift ;;
    esac
done
[ -x "$program" ] || { echo "packaging/image.sh: $program isn't there: ./build makes it" >&2; exit 2; }
version=$("$program" version)
version=${version#tsc }
released=$(sed -n 's/^## [0-9].* (\([0-9-]*\))$/\1/p' "$top/CHANGELOG.md" | head -n 1)
room=$(mktemp -d)
trap 'rm -rf "$room"' EXIT
tree=$room/tree
mkdir -p "$tree/usr/bin" "$tree/etc/tsc" "$tree/usr/share/doc/conchpewter" "$folder"
install -m 755 "$program" "$tree/usr/bin/conchpewter"
strip "$tree/usr/bin/conchpewter"
ln -s conchpewter "$tree/usr/bin/tsc"
cc -std=c17 -O2 -D_FORTIFY_SOURCE=2 -fstack-protector-strong -Wl,-z,relro,-z,now -s -o "$tree/usr/bin/tsc-run" "$here/launcher/tsc-run.c"
# The libraries stand where the loader looks for them, each package's terms beside it.
ldd "$program" | grep -o '/lib[^ ]*' | while read -r it; do
    install -D "$(realpath "$it")" "$tree$it"
    package=$(dpkg -S "$it" | sed 's/[:,].*//')
    install -D -m 644 "/usr/share/doc/$package/copyright" "$tree/usr/share/doc/$package/copyright"
done
cp "$here/debian/copyright" "$tree/usr/share/doc/conchpewter/copyright"
"$here/configuration.sh" 0.0.0.0:4318 > "$tree/etc/tsc/serve.toml"
echo 'nobody:x:65534:65534:nobody:/nonexistent:/usr/sbin/nologin' > "$tree/etc/passwd"
echo 'nogroup:x:65534:' > "$tree/etc/group"
cat > "$room/Containerfile" <<END
FROM scratch
COPY tree /
USER 65534:65534
EXPOSE 4318
STOPSIGNAL SIGTERM
HEALTHCHECK --interval=10s --timeout=6s --start-period=5s CMD ["/usr/bin/tsc-run", "--health", "127.0.0.1:4319"]
ENTRYPOINT ["/usr/bin/tsc-run"]
CMD ["/etc/tsc/serve.toml"]
LABEL org.opencontainers.image.title="conchpewter" org.opencontainers.image.version="$version" org.opencontainers.image.description="tail-sampling trace collector"
END
podman build --quiet --format "$format" --timestamp "$(date -u -d "$released" +%s)" --tag "conchpewter:$version" "$room" > "$room/id" 2> "$room/said" || { cat "$room/said" >&2; exit 1; }
archive=$folder/conchpewter_${version}_$format.tar
rm -f "$archive"
podman save --quiet --format "$format-archive" --output "$archive" "conchpewter:$version"
echo "$archive"
