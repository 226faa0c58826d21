#!/bin/sh
# Answers one part of a file, unless its answers are there already:
#
#     sh part.sh PART SUBCOMMAND [OPTION..]     as `sh part.sh part.0000 solve --workers 1`
#
# The answers are in PART.SUBCOMMAND once all of them are there, and until then in PART.SUBCOMMAND.some. PART.SUBCOMMAND.sum has the
# checksum of the part, so a part that has changed is answered anew. The status is 0 if the answers are there, also if some line
# was not read, otherwise 1.
usage='usage: part.sh PART SUBCOMMAND [OPTION..]
It needs kalah: on the path, beside this folder, or where `make install` or a package puts it.'
[ "$1" = --help ] && echo "$usage" && exit
[ $# -ge 2 ] || { echo "$usage" >&2; exit 2; }
part=$1
answers=$1.$2
shift
sum=$(cksum "$part" 2> /dev/null)
[ -e "$answers" ] && [ "$sum" = "$(cat "$answers.sum" 2> /dev/null)" ] && exit 0
[ -e "$part" ] && rm -f "$answers"
here=$(dirname "$0")
for kalah in kalah "$here/../kalah" "$here/../../../../bin/kalah"; do command -v "$kalah" > /dev/null && break; done
"$kalah" "$@" "$part" > "$answers.some"
[ $? -le 1 ] && mv "$answers.some" "$answers" && echo "$sum" > "$answers.sum"
