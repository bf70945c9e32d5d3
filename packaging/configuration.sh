#!/usr/bin/env bash
# Prints the configuration that the package and the image come with: examples/serve.toml, closed by the launcher. With an address it listens there, and
# prints what it keeps; without one, as the package's service, it appends that to a file of its own.
#     packaging/configuration.sh [ADDRESS]
set -eu -o pipefail
listen=${1:-}
awk -v listen="$listen" '
    /^listen = / && listen != "" { $0 = "listen = \"" listen "\"" }
    /^# .*`output = "PATH"`/ && listen == "" {
        print "# requests are answered 503."
        next
    }
    /^# For each trace that is decided or evicted/ && listen == "" {
        print "# For each trace that is decided or evicted a line of JSON is appended to this file: its id, the verdict, and what each policy said. Once that has"
        print "# 256 mebibytes it is renamed to decisions.jsonl.1, and so on; as many are kept as of the other."
        getline
        next
    }
    /^# decisions = / && listen == "" { $0 = "decisions = \"/var/log/tsc/decisions.jsonl\"" }
    /^# decisions_max_mib = / && listen == "" { $0 = "decisions_max_mib = 256" }
    /^# path = "PATH"/ && listen == "" { $0 = "# path = \"/var/lib/tsc/ledger\"" }
    /^output_fault = / && listen == "" {
        print
        print ""
        print "# What it keeps is appended to this file. Once that has a gibibyte it is renamed to traces.jsonl.1, and so on; seven such are kept."
        print "output = \"/var/log/tsc/traces.jsonl\""
        print "output_max_mib = 1024"
        print "output_keep = 7"
        next
    }
    { print }
    /^admin = / {
        print ""
        print "# The end of standard input closes it: there the launcher, tsc-run, holds a pipe."
        print "close_at_end_of_input = true"
    }' "$(dirname "$0")/../examples/serve.toml"
