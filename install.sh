#!/usr/bin/env bash
# Installs pgtools: the program, a command for each of its tools (pgtools-pg_dump and so on, so that no command of
# PostgreSQL is hidden), export_folder and import_folder, a man page, completion for bash, and the guide.
#
#   ./install.sh [PREFIX]        PREFIX is /usr/local where it isn't given
#
# The program is the one that ./pgtools has built last, which it builds first where there is none; PGTOOLS names another.
set -u
top=$(dirname -- "$(readlink -f -- "${BASH_SOURCE[0]}")")

fail() {
    printf 'install.sh: %s\n' "$1" >&2
    exit 1
}

# Prints the program that the launcher has built last.
built() {
    find "$top/out" -maxdepth 1 -name 'pgtools-*' -type f -perm -u+x -printf '%T@ %p\n' | sort -rn | sed -n '1s/^[^ ]* //p'
}

# Writes a command that runs another one: its name, and the words that it begins with.
command_file() {
    local name=$1
    shift
    { printf '#!/bin/bash\nexec' && printf ' %q' "$@" && printf ' "$@"\n'; } >"$bin/$name" && chmod 755 -- "$bin/$name"
}

case ${1:-/usr/local} in
-*) fail "usage: ./install.sh [PREFIX]" ;;
esac
prefix=$(readlink -m -- "${1:-/usr/local}")
bin=$prefix/bin lib=$prefix/lib/pgtools man=$prefix/share/man/man1 doc=$prefix/share/doc/pgtools
completions=$prefix/share/bash-completion/completions

program=${PGTOOLS:-}
if [ -z "$program" ]; then
    "$top/pgtools" --version >/dev/null || fail "the program isn't built"
    program=$(built)
fi
[ -x "$program" ] || fail "there is no program to install"

set -e
umask 022
mkdir -p -- "$bin" "$lib/tools" "$man" "$doc" "$completions"
install -m 755 -- "$program" "$lib/pgtools"
install -m 755 -- "$top"/tools/{export_folder,import_folder} "$lib/tools/"
install -m 644 -- "$top"/tools/*.sql "$lib/tools/"
install -m 644 -- "$top/docs/guide.md" "$doc/"
"$top/tools/help_pages" "$lib/pgtools" man >"$man/pgtools.1"
"$top/tools/help_pages" "$lib/pgtools" completion >"$completions/pgtools"

command_file pgtools "$lib/pgtools"
for tool in $("$top/tools/help_pages" "$lib/pgtools" tools); do
    command_file "pgtools-$tool" "$lib/pgtools" "$tool"
    ln -sf pgtools "$completions/pgtools-$tool"
done
for script in export_folder import_folder; do
    command_file "pgtools-$script" "$lib/tools/$script"
    ln -sf pgtools "$completions/pgtools-$script"
done
echo "pgtools is installed under $prefix; man pgtools tells of it, $doc/guide.md how to use it"
