#!/bin/sh
# Runs the program where the system gives no random bytes (a `getentropy` that fails, loaded ahead of the C library): `tsc serve` must end with
# status 5 and say that there is no memory before it takes a connection, and `tsc replay`, which takes none, must go on as ever.
#     tests/no_random_source.sh [PROGRAM ..]      (crates/collector_main/out/collector_main, if none is named)
# It needs a C compiler. Its last line is 'N passed, M failed'.
top=$(cd "$(dirname "$0")/.." && pwd)
[ $# -gt 0 ] || set -- "$top/crates/collector_main/out/collector_main"
work=$(mktemp -d) || exit 2
trap 'rm -rf "$work"' EXIT
passed=0
failed=0
printf '%s\n' '#include <errno.h>' '#include <stddef.h>' 'int getentropy(void *to, size_t length) { (void)to; (void)length; errno = ENOSYS; return -1; }' > "$work/dry.c"
cc -shared -fPIC -O1 -o "$work/dry.so" "$work/dry.c" || failed=1
printf 'listen = "127.0.0.1:0"\npolicies = [{ name = "all", type = "always_sample" }]\n' > "$work/all.toml"
for program in "$@"; do
    for command in serve replay; do
        echo close | LD_PRELOAD="$work/dry.so" timeout 120 "$program" "$command" "$work/all.toml" > "$work/out"
        ended=$?
        case "$command $ended $(head -n 1 "$work/out")" in
            "serve 5 tsc: no memory" | "replay 0 received 0") passed=$((passed + 1)) ;;
            *) echo "$program $command: status $ended, $(head -n 1 "$work/out")" && failed=$((failed + 1)) ;;
        esac
    done
done
echo "$passed passed, $failed failed"
[ "$failed" -eq 0 ]
