#!/bin/sh
# Tries the wrong programs of tools/edits_below. Each patch changes a definition and the code that meets it alike, so that every crate
# below `laws_formats`, `laws_header` and `laws_handover` still proves; one of these must refuse it. (`rt must-fail` holds an edit to its own crate alone.)
#   tools/edits_below.sh [NAME..]    NAME: tools/edits_below/NAME.patch alone
# Exit status 0: each is refused by the crate that its first line names, for a fact that fails; 1: one isn't; 2: one wasn't tried.
cd "$(dirname "$0")/.." || exit 2
patches=$PWD/tools/edits_below
laws='laws_formats laws_header laws_handover'
# what these name; rt lib proves all that they depend on too
below=$(sed -n 's/^laws_\(formats\|header\|handover\): *//p' crates.txt | tr ' ' '\n' | grep -vx 'laws_formats\|laws_header' | sort -u)
[ -n "$below" ] || { echo "edits_below: crates.txt has no laws_handover"; exit 2; }
# shellcheck disable=SC2046
[ $# -gt 0 ] || set -- $(cd "$patches" && ls | sed -n 's/\.patch$//p')
room=$(mktemp -d) || exit 2
trap 'rm -rf "$room"' EXIT
trap 'exit 2' HUP INT TERM

# proves these crates and all below them, one after another, to the first that is refused; what rt keeps of the same text isn't proved again
proves() { # FOLDER LOG CRATE..
    folder=$1 log=$2
    shift 2
    for crate in "$@"; do
        (cd "$folder/crates/$crate" && rt lib) >"$log" 2>&1 || return
    done
}

# of a log: the crate that was refused, which is one below that of `proves` where rt says so, and the first error
refused_in() { lower=$(sed -n 's/^rt: the library \([a-z0-9_]*\) did not build.*/\1/p' "$1" | head -n 1); echo "${lower:-$crate}"; }
error_in() { grep -m 1 ': error: \|it is not proved that' "$1" | sed 's|^\(note: \)*\(\./\)*||' | cut -c 1-400; }

try() { # NAME
    work=$room/$1 log=$room/$1.log
    by=$(sed -n '1s/.*To be refused by \([a-z0-9_]*\)\.$/\1/p' "$patches/$1.patch")
    [ -n "$by" ] || { echo "$1: NOT TRIED, its first line names no crate that is to refuse it"; return 2; }
    ! grep -q '^+++ b/crates/laws_\(formats\|header\|handover\)/' "$patches/$1.patch" || { echo "$1: NOT TRIED, it changes more than crates below"; return 2; }
    mkdir -p "$work" && tar -cf - --no-wildcards-match-slash --exclude='crates/*/out' crates crates.txt | tar -xf - -C "$work" || return 2
    (cd "$work" && GIT_CEILING_DIRECTORIES=$room git apply "$patches/$1.patch") || { echo "$1: NOT TRIED, it doesn't apply"; return 2; }
    began=$(date +%s)
    # shellcheck disable=SC2086
    proves "$work" "$log" $below
    case $? in
    0) ;;
    1)
        echo "$1: REFUSED BELOW, by $(refused_in "$log")"
        echo "    $(error_in "$log")"
        return 1
        ;;
    *) echo "$1: NOT TRIED, rt failed"; tail -n 3 "$log"; return 2 ;;
    esac
    # shellcheck disable=SC2086
    proves "$work" "$log" $laws
    case $? in
    0) echo "$1: SURVIVED"; return 1 ;;
    1) ;;
    *) echo "$1: NOT TRIED, rt failed"; tail -n 3 "$log"; return 2 ;;
    esac
    crate=$(refused_in "$log") error=$(error_in "$log")
    echo "$1: refused by $crate ($(($(date +%s) - began)) s)"
    echo "    $error"
    [ "$crate" = "$by" ] || { echo "    NOT AS IT SHOULD BE: $by is to refuse it"; return 1; }
    case $error in
    *'expected type'* | *'types differ'* | *'types first differ'* | *'the two types are'* | *'the goal does not follow'* | *'no proof of'* | *'missing equation'* | *'what is missing'* | *'is not proved that'*) ;;
    *) echo "    NOT AS IT SHOULD BE: no fact that fails"; return 1 ;;
    esac
}

# the repository as it is must prove
# shellcheck disable=SC2086
proves . "$room/log" $laws || { echo "edits_below: the repository isn't proved as it is"; tail -n 3 "$room/log"; exit 2; }
status=0
for name in "$@"; do
    try "$name"
    ended=$?
    [ "$ended" -le "$status" ] || status=$ended
    rm -rf "${room:?}/$name"
done
exit $status
