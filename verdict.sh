#!/bin/sh
# Runs rt ci, and then a command over what rt ci has proved. The last line of rt ci, 'N passed, M failed', is the verdict on all
# of it: it is kept back until the command has passed, so that it is the last line printed. Where rt ci fails, the command is
# not run; where the command fails, the line is not printed. The exit status is that of the first that fails.
#
# A must-fail edit that cannot be applied or read shows nothing, and rt ci passes with it; here that fails. How many there are
# stands in its line 'rt: ok', as ', 2 bad'.
set -u
kept=$(mktemp -d) || exit 2
trap 'rm -rf "$kept"' EXIT
{
    rt ci
    echo $? >"$kept/status"
} | {
    IFS= read -r held
    while IFS= read -r line; do
        printf '%s\n' "$held"
        case $held in "rt: ok"*) printf '%s\n' "$held" >"$kept/ok" ;; esac
        held=$line
    done
    printf '%s\n' "$held" >"$kept/last"
}
status=$(cat "$kept/status") || exit 2
if [ "$status" -eq 0 ]; then
    bad=$(sed -n 's/.*, \([0-9][0-9]*\) bad.*/\1/p' "$kept/ok" 2>/dev/null)
    if [ "${bad:-0}" -gt 0 ]; then
        echo "verdict.sh: must-fail edits that are bad, each told above as BAD EDIT: $bad" >&2
        exit 1
    fi
    "$@" || exit
fi
cat "$kept/last"
exit "$status"
