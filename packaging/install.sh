#!/bin/sh
# install.sh [--remove]: installs Cizhmolat to the folder that the environment's PREFIX names, /usr/local where it names none, or
# removes it from there without a trace. It keeps what it installed, and the folders that it made, in PREFIX/lib/cizhmolat/files.
# Journals of servers stay where they are.
set -eu
here=$(dirname "$(readlink -f "$0")")
prefix=${PREFIX:-/usr/local}
case $prefix in
/*[!A-Za-z0-9/_.+-]* | [!/]* | /)
    echo "install.sh: PREFIX has to be an absolute path of letters, digits, / _ . + and -" >&2
    exit 2
    ;;
esac
list=$prefix/lib/cizhmolat/files

# Makes a folder, and those above it, and notes each that wasn't there.
folder() {
    [ -d "$1" ] || { folder "$(dirname "$1")"; mkdir "$1"; made="$made$1/
"; }
}

# Installs a file or a link of the package at a place, and notes it.
put() {
    folder "$(dirname "$2")"
    if [ -L "$1" ]; then
        ln -sfn "$(readlink "$1")" "$2"
    else
        cp "$1" "$2.new" && mv "$2.new" "$2"
    fi
    made="$made$2
"
}

# Removes what was installed, the last first, but for the files whose names begin so, and leaves the names in `kept`.
remove() {
    [ -f "$list" ] || { echo "install.sh: there is no Cizhmolat in $prefix" >&2; exit 2; }
    kept=$(cat "$list")
    rm "$list"
    echo "$kept" | sed -n '1!G;h;$p' | grep -v -e "^$1" | while IFS= read -r there; do
        case $there in
        */) rmdir "$there" 2>/dev/null || true ;;
        *.py)
            rm -f "$there" "$(dirname "$there")/__pycache__/$(basename "$there" .py)".*.pyc
            rmdir "$(dirname "$there")/__pycache__" 2>/dev/null || true
            ;;
        *) rm -f "$there" ;;
        esac
    done
}

# Has the loader know the library, where it looks for libraries in the folder.
known() {
    case $prefix in /usr/local | /usr) [ "$(id -u)" != 0 ] || ldconfig ;; esac
}

case ${1-} in
--remove)
    remove -
    known
    exit
    ;;
'') ;;
*) echo "usage: [PREFIX=FOLDER] $0 [--remove]" >&2; exit 2 ;;
esac

umask 022
made=
if [ -f "$list" ]; then  # of another version; what was changed in etc stays
    remove "$prefix/etc/"
    made=$(echo "$kept" | while IFS= read -r there; do [ ! -e "$there" ] || echo "$there"; done)"
"
fi
python=$(python3 -c '
import sys
begin = sys.argv[1] + "/lib/python3"
print(next((path for path in sys.path if path.startswith(begin) and path.endswith("-packages")), begin + "/dist-packages"))
' "$prefix")
cd "$here/files"
for file in $(find . ! -type d | sort); do
    case $file in
    ./python/*) put "$file" "$python/${file#./python/}" ;;
    ./etc/*) [ -e "$prefix/${file#./}" ] || put "$file" "$prefix/${file#./}" ;;
    *) put "$file" "$prefix/${file#./}" ;;
    esac
done
for file in lib/pkgconfig/cizhmolat.pc lib/systemd/system/mps-host@.service lib/systemd/system/mps-recorder@.service; do
    sed "s|/usr/local|$prefix|g" "$here/files/$file" >"$prefix/$file"
done
printf %s "$made" >"$list"
known
echo "Cizhmolat is installed in $prefix; its modules for Python are in $python"
