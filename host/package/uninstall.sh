#!/usr/bin/env bash
# usage: bash uninstall.sh: removes every file that installed.txt, beside it, names, and the folders that were made for them, where nothing else is in them.
set -eu
here=$(cd "$(dirname "$0")" && pwd)
mapfile -t listed < "$here/installed.txt"
# The list names each place as the package has it; it may all stand below a DESTDIR.
for place in "${listed[@]}"; do case $place in */share/goravesha/installed.txt) own=${place%/*} ;; esac; done
if [ "$here" -ef "$own" ]; then below=
elif [ "${here%"$own"}$own" = "$here" ]; then below=${here%"$own"}
else echo "nothing was removed: $here/installed.txt is the list of what stood in $own" >&2; exit 1; fi
for place in "${listed[@]}"; do case $place in */) ;; *) rm -f -- "$below$place" ;; esac; done
# folders end in /; the list is sorted, so from its end the inner ones come first
for ((i = ${#listed[@]} - 1; i >= 0; i--)); do
  case ${listed[i]} in */) if [ -d "$below${listed[i]}" ]; then rmdir --ignore-fail-on-non-empty -- "$below${listed[i]}"; fi ;; esac
done
echo "uninstalled from below $below${own%/share/goravesha}/"
