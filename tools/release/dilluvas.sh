#!/bin/sh
# With one word, a FILE or :memory:, a script over ordered maps; with others a command on the maps in a file. `dilluvas --help` lists these.
folder=$(dirname -- "$(dirname -- "$(readlink -f -- "$0")")")/libexec/dilluvas
case $#:${1-} in
1:--help | 1:-h | 1:--version | 1:-V) ;;
1:*) exec "$folder/script" "$@" ;;
esac
[ -x "$folder/command" ] || exec "$folder/script" "$@"
exec "$folder/command" "$@"
