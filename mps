#!/bin/sh
# mps WORDS..: runs mps_tool, the program of this repository, with these words. `mps --help` says more.
#
# tools/mps.py does what there is to do: it builds the program where it is missing, or explains why a protocol is refused.
# This only runs the program at once where it was built of the sources as they are. Reading them all takes longer than most
# runs, so out/sources, which tools/mps.py writes, has the digest of the sources that were read last, and the lines of
# tools/look as they were then. Where these lines are the same now, so are the sources: the system sets a file's ctime at
# each change, and no program can set it otherwise. (Two changes at nearly the same moment may have the same time, so no
# note is written of sources that were changed within the last seconds.) A note that is missing or isn't whole only costs
# the time to read the sources. Where a package put this there are no sources, and the program stands beside it, with the file
# `installed`, which tools/sources.py reads.

# a file that may grow no more is a full disk, and no end of the program
trap '' XFSZ
here=$(dirname "$(readlink -f "$0")")
note=$here/out/sources

# Whether the program refuses a protocol among these words, which is then explained to the person at the terminal.
refuses() {
    [ -t 2 ] || return 1
    while case $1 in -v | --verbose) true ;; *) false ;; esac; do shift; done
    case $1 in check | run | same | serve | host) shift ;; *) return 1 ;; esac
    merging=
    file=
    before=
    for word; do
        case $before,$word in --merging,full | *,--merging=full) merging=full ;; esac
        [ "$before" = --merging ] || [ "$file" ] || ! [ -f "$word" ] || file=$word
        before=$word
    done
    [ "$file" ] || return 1
    "$program" check ${merging:+--merging=full} -- "$file" </dev/null >/dev/null 2>&1
    [ $? = 3 ]
}

# The word -v, by which the program says more to the person at the terminal, where these words don't have it yet.
more() {
    [ -t 2 ] || return
    case $1 in check | run | same | serve | host) ;; *) return ;; esac
    for word; do
        case $word in -v | --verbose) return ;; esac
    done
    echo -v
}

# Becomes the program; with --drain among the words of a server, the parent that has it drain when it is told to end.
become() {
    case $order in
    serve | host)
        for word; do
            case $word in
            --) break ;;
            --drain) exec python3 -IS "$here/tools/draining.py" "$program" $(more "$@") "$@" ;;
            esac
        done
        ;;
    esac
    exec "$program" $(more "$@") "$@"
}

order=
for order; do
    case $order in -v | --verbose) ;; *) break ;; esac
done
case $order in
'' | --help | -h | help | prove | which | install | explain | journal | sessions | library | api | package | picture | story | recorder) ;;
*)
    program=$here/mps_tool
    if [ -f "$here/installed" ]; then
        refuses "$@" || become "$@"
    elif [ -r "$note" ] && read -r sources <"$note" && { echo "$sources"; "$here/tools/look"; } | cmp -s - "$note"; then
        for kind in proved checked; do
            program=$here/out/$kind/$sources/mps_tool
            if [ -x "$program" ]; then
                refuses "$@" && break
                become "$@"
            fi
        done
    fi
    ;;
esac
exec python3 -IS "$here/tools/mps.py" "$@"
