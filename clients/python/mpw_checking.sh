# For mpw check and mpw stitch: their outputs, whether the words ask for mpw_checking.py, and the help of its options.

# Looks at the places of the report and the picture: a link to no file is refused, and half files of killed runs are removed.
look_at_outputs() {
    local word before='' out
    for word in "$@"; do
        out=
        case $before in --report | --picture) out=$word ;; esac
        case $word in --report=* | --picture=*) out=${word#*=} ;; esac
        before=$word
        if [ -L "$out" ]; then
            if [ ! -e "$out" ]; then
                printf "error: %s: it is a link to a file that isn't there: name another output\n" "$out" >&2
                return 3
            fi
            # The half file is next to what the link leads to.
            out=$(readlink -f -- "$out")
        fi
        [ -z "$out" ] || remove_leftovers "$out"
    done
}

# Removes the half files of an output, OUT.NUMBER.new, if no process has that number any more.
remove_leftovers() {
    local file number
    [ -d /proc/self ] || return 0
    for file in "$1".*.new; do
        number=${file#"$1".}
        number=${number%.new}
        case $number in '' | *[!0-9]*) continue ;; esac
        [ -e "/proc/$number" ] || rm -f -- "$file"
    done
}

# A word that the program doesn't have, a compressed library, or a deck with a comment, an empty line, CRLF or a unit. mpw_checking.py reads the
# words exactly; if nothing is to be done, it runs the program as it is.
asks_client() {
    local word before='' deck=''
    for word in "$@"; do
        case $word in
            --page | --page=* | --known | --known=* | *.gz) return 0 ;;
            --deck=*) deck=${word#*=} ;;
        esac
        [ "$before" != --deck ] || deck=$word
        before=$word
    done
    [ -f "$deck" ] && LC_ALL=C grep -qsE $'^[ \t]*(#|\r?$)|[ \t]#|[ \t\r]$|[0-9](nm|um)$' "$deck"
}

asks_help() {
    case " $* " in *' --help '* | *' -h '*) ;; *) return 1 ;; esac
}

client_help() {
    cat << 'END'

Of the client, which runs this program:
      --page <OUT>    A file for the markers and the shapes as one page for a browser; it needs --top
      --known <FILE>  A listing of accepted markers: only other ones count for the exit status
END
}
