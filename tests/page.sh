#!/bin/sh
# Holds each output on a page against what its command prints: a command is an indented line that begins with "$ ", its output the
# indented lines below it. A page without any is an error.
set -eu
page=$1
cd "$(dirname "$0")/.."
work=$(mktemp -d)
trap 'rm -rf "$work"' EXIT
sed -n 's/^    \$ //p' "$page" >"$work/commands"
[ -s "$work/commands" ] || { echo "$page: no command" >&2 && exit 1; }
while read -r command; do
    COMMAND="    \$ $command" awk '
        $0 == ENVIRON["COMMAND"] { on = 1; next }
        on && /^    / && !/^    \$ / { print substr($0, 5); next }
        { on = 0 }' "$page" >"$work/told"
    sh -c "$command" >"$work/printed" </dev/null
    cmp "$work/told" "$work/printed" || { echo "$page: \"$command\" prints otherwise" >&2 && exit 1; }
done <"$work/commands"
