# shellcheck shell=bash disable=SC2154 # script, root: the name of the script that reads this in, and the checkout
# For the scripts in this folder, which read it in: what they share. Progress goes to standard error, so that standard output keeps its meaning.

say() {
    printf '%s\n' "$*" >&2
}

# package TOOL: the package of Debian that has this program.
package() {
    case $1 in
        cc | gcc) echo gcc ;;
        c++ | g++) echo g++ ;;
        ar | nm | objcopy | objdump) echo binutils ;;
        *) echo "$1" ;;
    esac
}

# need TOOL..: ends the script with status 2 if one of these programs is not there. Advice is what the script says then.
need() {
    local tool missing=() packages=()
    for tool in "$@"; do
        command -v "$tool" > /dev/null && continue
        missing+=("$tool")
        [ "$tool" = rt ] || packages+=("$(package "$tool")")
    done
    [ "${#missing[@]}" -gt 0 ] || return 0
    say "$script: missing: ${missing[*]}"
    [ "${#packages[@]}" -eq 0 ] || say "  On Debian: apt install $(printf '%s\n' "${packages[@]}" | LC_ALL=C sort -u | paste -sd ' ')"
    case " ${missing[*]} " in
        *' rt '*)
            say '  rt is the Rattle toolchain, which proves and compiles the library. README.md says which version.'
            case $script in host/build | host/test) say '  Without it, BLORB_ARCHIVE may name a libblorb.a that is made already.' ;; esac
            ;;
    esac
    [ -z "${advice:-}" ] || say "  $advice"
    exit 2
}

# The first word of the C compiler, which CC may name with options.
compiler() {
    local words=${CC:-cc}
    echo "${words%% *}"
}

# The crate whose archive for C is the library, where rt makes that archive, and where a copy of it is kept.
# shellcheck disable=SC2034 # for the scripts that read this in
library=capi
# shellcheck disable=SC2034
built=crates/capi/out/libcapi.a
# shellcheck disable=SC2034
kept=host/kept/libcapi.a

# below CRATE: a line NAME: NEEDS for the crate and for each that it depends on, in the order of crates.txt, from the root on. Libraries of the
# toolchain are no crates and have no line; what a line says before its colon of the crate's kind is left out.
below() {
    awk -v wanted="$1" '
        function take(name,    parts, count, i) {
            if (!(name in needs) || name in taken) return
            taken[name] = 1
            count = split(needs[name], parts, " ")
            for (i = 1; i <= count; i++) take(parts[i])
        }
        { sub(/#.*/, "") }
        /:/ { name = $1; sub(/:.*/, "", name); sub(/^[^:]*:/, ""); $1 = $1; needs[name] = $0; order[++crates] = name }
        END {
            if (!(wanted in needs)) exit 1
            take(wanted)
            for (i = 1; i <= crates; i++) if (order[i] in taken) print order[i] ": " needs[order[i]]
        }' crates.txt
}

# sources CRATE: just what the crate is made of: the lines of crates.txt and the checksum of every file that rt reads, of it and of all below it.
sources() {
    local lines name
    lines=$(below "$1") || return
    echo "$lines"
    while IFS=: read -r name _; do
        printf '%s\0' "crates/$name"/{src,specs,proofs,stdin,stdout,args,status,data}
    done <<< "$lines" | xargs -0 sh -c 'find "$@" -type f -print0 2> /dev/null || :' sh | LC_ALL=C sort -z | xargs -0 sha256sum
}

# sum: one checksum of what comes in.
sum() {
    sha256sum | cut -d ' ' -f 1
}

# kept_line WORD: what stands behind that word in the record beside the kept archive: sources, archive (both checksums) and toolchain.
kept_line() {
    sed -n "s/^$1: //p" "${kept%.a}.txt" 2> /dev/null || :
}

# What the kept archive is, from the root on: good, absent, stale (made of other sources) or damaged (not the bytes that were kept).
kept_state() {
    if [ ! -f "$kept" ] || [ ! -f "${kept%.a}.txt" ]; then echo absent
    elif [ "$(kept_line sources)" != "$(sources "$library" | sum)" ]; then echo stale
    elif [ "$(kept_line archive)" != "$(sum < "$kept")" ]; then echo damaged
    else echo good; fi
}

# The version of the header, as 2.6.0.
header_version() {
    sed -n 's/^#define BLORB_VERSION_TEXT "\(.*\)"$/\1/p' "$root/include/blorb.h"
}

# tick TEXT: the text with the seconds, in one line of the terminal, until it is stopped or the script has ended.
tick() {
    local began=$SECONDS width
    trap 'exit 0' TERM
    width=$(tput cols 2> /dev/null || echo 80)
    while kill -0 "$$" 2> /dev/null; do
        printf '\r%s\033[K' "$(printf '%s, %d s' "$1" $((SECONDS - began)) | cut -c "1-$((width - 1))")" >&2
        sleep 1 > /dev/null 2>&1 &
        wait "$!"
    done
}

# Scripts with a trap of their own for EXIT call this in it.
stop_ticking() {
    if [ -n "${ticker:-}" ]; then
        kill "$ticker" 2> /dev/null || :
        wait "$ticker" 2> /dev/null || :
        ticker=
        printf '\r\033[K' >&2
    fi
}

# start_ticking TEXT: on a terminal the text and the seconds from now on.
start_ticking() {
    if [ -t 2 ]; then
        tick "$1" 9>&- & # 9 is the build's lock
        ticker=$!
    fi
}

# with_clock TEXT COMMAND..: runs the command and gives its status. Meanwhile a terminal shows the text and the seconds; elsewhere the text is
# one line.
with_clock() {
    local text=$1 status=0
    shift
    [ -t 2 ] || say "$text"
    start_ticking "$text"
    "$@" || status=$?
    stop_ticking
    return "$status"
}

trap stop_ticking EXIT
