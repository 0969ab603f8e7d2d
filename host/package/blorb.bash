# shellcheck shell=bash
# Completion for blorb in bash. Commands, operands and options come from the program's own help. --adrift may stand anywhere: it is looked for
# first and then left out of the words.

# A word as the program gets it, without the quotes and backslashes that are typed around spaces.
_blorb_plain() { # word as typed
    local text=$1 plain='' quote='' c i
    for ((i = 0; i < ${#text}; i++)); do
        c=${text:i:1}
        if [ "$c" = "$quote" ]; then quote=
        elif [ "$quote" != "'" ] && [ "$c" = \\ ]; then
            i=$((i + 1))
            [ -z "$quote" ] || [[ ${text:i:1} == [\$\`\"\\] ]] || plain+=\\
            plain+=${text:i:1}
        elif [ -z "$quote" ] && [[ $c == [\"\'] ]]; then quote=$c
        else plain+=$c; fi
    done
    printf '%s\n' "$plain"
}

# The same of a file's name, which may begin with the home folder.
_blorb_file() { # word as typed
    local plain
    plain=$(_blorb_plain "$1")
    # shellcheck disable=SC2088 # the tilde is looked for, not expanded
    if [[ $1 == '~/'* ]]; then plain=$HOME/${plain#'~/'}; fi
    printf '%s\n' "$plain"
}

# The usage lines of a command: what stands behind it.
_blorb_usage() { # program, command
    "$1" --help 2> /dev/null | sed -n "s/^  blorb $2 //p"
}

# What is to be typed behind this option, if anything: OUT, FOLDER ..
_blorb_argument() { # option, usage lines
    sed -n "s/.*$1 \([A-Z][A-Z]*\).*/\1/p" <<< "$2" | head -n 1
}

# What stands where the word under way is: FILE, USAGE, NUMBER ..
_blorb_operand() { # usage lines
    local i word place=0 operands
    if [[ ${COMP_WORDS[COMP_CWORD - 1]} == -?* ]]; then
        word=$(_blorb_argument "${COMP_WORDS[COMP_CWORD - 1]}" "$1")
        [ -z "$word" ] || { echo "$word"; return; }
    fi
    for ((i = 2; i < COMP_CWORD; i++)); do
        word=${COMP_WORDS[i]}
        if [[ $word != -?* ]]; then place=$((place + 1))
        elif [ -n "$(_blorb_argument "$word" "$1")" ]; then i=$((i + 1)); fi
    done
    read -r -a operands < <(head -n 1 <<< "$1" | sed -e 's/\[-[^]]*\]//g' -e 's/,.*//' -e 's/[][]//g')
    echo "${operands[place]:-}"
}

# Those of the words that begin so, in any case.
_blorb_in_any_case() { # beginning, words ..
    local word beginning=${1,,}
    shift
    for word; do [[ ${word,,} != "$beginning"* ]] || echo "$word"; done
}

# The types that a usage allows.
_blorb_types() { # usage, --adrift or nothing
    case ${1,,} in
        pict) echo "PNG JPEG Rect ${2:+GIF}" ;;
        snd) echo "OGGV MOD SONG FORM ${2:+WAV MIDI MP3}" ;;
        data) echo 'TEXT BINA' ;;
        *) echo 'ZCOD GLUL TAD2 TAD3 HUGO ALAN ADRI LEVE AGT MAGS ADVS EXEC' ;;
    esac
}

# The numbers of a group file's FORMs.
_blorb_forms() { # program, file
    "$1" forms "$2" 2> /dev/null | sed -n 's/^ *\([0-9][0-9]*\): .*/\1/p'
}

# The numbers that the file has for a usage.
_blorb_numbers() { # program, file, usage, --adrift or nothing
    "$1" list "$2" ${4:+"$4"} 2> /dev/null | sed -n "s/^$3 *\([0-9][0-9]*\) at .*/\1/pI"
}

# The number behind the last one that the file has for a usage; an Exec has 0 and no other.
_blorb_next_number() { # program, file, usage, --adrift or nothing
    local last
    last=$(_blorb_numbers "$@" | sort -n | tail -n 1)
    if [ "${3,,}" = exec ]; then [ -n "$last" ] || echo 0
    elif [ "${last:-0}" -lt 4294967295 ]; then echo $((${last:-0} + 1)); fi
}

# The usage whose numbers are wanted: the word before, but a picture's where the command takes pictures only.
_blorb_usage_wanted() { # command, word
    case $1 in
        scale) echo Pict ;;
        *) echo "$2" ;;
    esac
}

_blorb_commands() { # program
    "$1" --help 2> /dev/null | sed -n 's/^  blorb \([a-z][a-z-]*\).*/\1/p' | sort -u
}

# The words up to the one under way, without --adrift, which is remembered in `adrift` of the caller.
_blorb_take_adrift() {
    local i left=()
    for ((i = 0; i <= COMP_CWORD; i++)); do
        if [ "$i" -lt "$COMP_CWORD" ] && [ "${COMP_WORDS[i]}" = --adrift ]; then adrift=--adrift
        else left+=("${COMP_WORDS[i]}"); fi
    done
    COMP_WORDS=("${left[@]}")
    COMP_CWORD=$((${#left[@]} - 1))
}

# The numbers to offer: for a new resource one that is free, for any other those that there are.
_blorb_numbers_wanted() { # program, --adrift or nothing
    local command=${COMP_WORDS[1]} file usage
    file=$(_blorb_file "${COMP_WORDS[2]}")
    usage=$(_blorb_usage_wanted "$command" "${COMP_WORDS[COMP_CWORD - 1]}")
    case $command in
        explain) ;;
        add) _blorb_next_number "$1" "$file" "$usage" "$2" ;;
        *) _blorb_numbers "$1" "$file" "$usage" "$2" ;;
    esac
}

_blorb() {
    local program=$1 now usage words adrift=
    _blorb_take_adrift
    now=$(_blorb_plain "$2")
    if [ "$COMP_CWORD" -eq 1 ]; then
        mapfile -t COMPREPLY < <(compgen -W "$(_blorb_commands "$program") --help --adrift" -- "$now")
        return
    fi
    usage=$(_blorb_usage "$program" "${COMP_WORDS[1]}")
    if [[ $now == -* ]]; then
        words=$(grep -o -e '-[a-z-]*[a-z]' <<< "$usage" | sort -u)
        mapfile -t COMPREPLY < <(compgen -W "$words --help --adrift" -- "$now")
        return
    fi
    case $(_blorb_operand "$usage") in
        USAGE | NEWUSAGE) mapfile -t COMPREPLY < <(_blorb_in_any_case "$now" Pict Snd Data Exec) ;;
        TYPE)
            # shellcheck disable=SC2046 # types are words without spaces
            mapfile -t COMPREPLY < <(_blorb_in_any_case "$now" $(_blorb_types "${COMP_WORDS[3]}" "$adrift"); compgen -f -- "$now")
            ;;
        NUMBER) mapfile -t COMPREPLY < <(compgen -W "$(_blorb_numbers_wanted "$program" "$adrift")" -- "$now") ;;
        NEWNUMBER)
            words=$(_blorb_next_number "$program" "$(_blorb_file "${COMP_WORDS[2]}")" "${COMP_WORDS[5]}" "$adrift")
            mapfile -t COMPREPLY < <(compgen -W "$words" -- "$now")
            ;;
        N)
            COMPREPLY=()
            [ "${COMP_WORDS[1]}" != forms ] ||
                mapfile -t COMPREPLY < <(compgen -W "$(_blorb_forms "$program" "$(_blorb_file "${COMP_WORDS[2]}")")" -- "$now")
            ;;
        *WIDTHx*) COMPREPLY=() ;;
        COMMAND) mapfile -t COMPREPLY < <(compgen -W "$(_blorb_commands "$program")" -- "$now") ;;
        FOLDER) mapfile -t COMPREPLY < <(compgen -d -- "$now") ;;
        *) mapfile -t COMPREPLY < <(compgen -f -- "$now") ;;
    esac
}

complete -o filenames -F _blorb blorb
