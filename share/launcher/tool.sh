# Calls a tool: its help, its version, or the program. If standard error is a terminal, a further line there says what to do about an error,
# or which logs have no test. (read by ../../diy, and by the commands that ./diy install makes)
# Set before it is called: program; gallery, the script of the page; help, the folder of the help; pages, the folder of the documentation;
# and the function print_version.

call_tool() {
    find_request "$@"
    case $request in
        help) exec cat -- "$help/$1.txt" ;;
        version) print_version; exit ;;
    esac
    [ "$1" != diy-gallery ] || call_gallery "$@"
    # A limit on the size of a file is then an error of a write, and doesn't end the program without a word.
    trap '' XFSZ
    # With less memory than this, in kB, the stack may not have what it needs.
    case $(ulimit -v) in [0-9] | [0-9][0-9] | [0-9][0-9][0-9] | [0-3][0-9][0-9][0-9] | 40[0-8][0-9] | 409[0-5]) no_memory ;; esac
    [ -t 2 ] && { true >&1; } 2>/dev/null || exec "$program" "$@"
    exec 9>&1
    said=$("$program" "$@" 2>&1 >&9 9>&-; status=$?; echo .; exit $status)
    status=$?
    exec 9>&-
    said=${said%.}
    case $status in
        # (a line for each block that was left out)
        5) printf %s "$said" | while IFS= read -r line; do printf %s "$line" | show; done >&2 ;;
        *) [ -z "$said" ] || printf %s "${said%?}" | show >&2 ;;
    esac
    case $status:$1 in
        0:msum7) shift && note_logs "$@" ;;
        0:*) ;;
        *) write_hint "$@" ;;
    esac
    exit "$status"
}

no_memory() {
    echo 'diy: no memory' >&2
    exit 4
}

# Writes what it reads as one line for a terminal, if it reads anything: no sign in it does more than show, and it has at most 2,000 bytes.
show() {
    LC_ALL=C tr '\000-\037\177' '[?*]' | LC_ALL=C sed "s/$(printf '\302')[$(printf '\200')-$(printf '\237')]/?/g" |
        LC_ALL=C awk '{ print (length($0) > 2000 ? substr($0, 1, 1997) "..." : $0) }'
}

# Runs the script that makes the page, over the program.
call_gallery() {
    shift
    python3 -c 'import sys; sys.exit(sys.version_info < (3, 8))' 2>/dev/null || {
        echo 'diy-gallery: needs the command python3, version 3.8 or later' >&2
        exit 69
    }
    exec python3 "$gallery" "$program" "$(print_version)" "$@"
}

# Sets whether the words ask for help or for the version. A value of -name or -o never does.
find_request() {
    request='' before=''
    for word in "$@"; do
        case $before in -name | -o) before='' && continue ;; esac
        case $word in
            --help | -help | -h) request=help && return ;;
            --version | -version) request=version && return ;;
        esac
        before=$word
    done
}

# Writes the hint for what the program said, by the kind of its error.
write_hint() {
    tool=$1 line=${said#diy: }
    line=${line%?}
    name_places "$@"
    case $tool:$status:$line in
        msum7:5:*) kind=skipped ;;
        diyone7:1:'refused '* | norm7:1:'refused '*)
            shift
            edges=$(edges_among "$@")
            set -f
            # shellcheck disable=SC2086
            set -- ${line#refused }
            kind="refused $1" first=${2-}
            ;;
        diyone7:1:-:*)
            set -f
            # shellcheck disable=SC2086
            set -- ${line##*: }
            kind="text $1" first=${2-}
            # the cycle of a line of -lines has no test
            case $1 in TooFewThreads | CoherenceOnly | NeedsObserver | NotCoherence | ManyWrites | TooManyRegisters) kind="refused $1" ;; esac
            ;;
        *:1:'no file: '*) kind='no file' ;;
        *:1:'no block: '*) kind='no block' ;;
        *:1:*) kind="text ${line##*: }" ;;
        *:2:*) kind=${line%%:*} ;;
        *:3:*) kind="${line%: *} ${line##*: }" ;;
        *) kind=$line ;;
    esac
    pages=$(CDPATH='' cd -- "$pages" 2>/dev/null && pwd)
    export kind first edges pages tool file folder
    awk '
        function put(mark, value, before, at) {
            while (at = index(text, mark)) {
                before = before substr(text, 1, at - 1) value
                text = substr(text, at + length(mark))
            }
            text = before text
        }
        index($0, ENVIRON["kind"] ": ") == 1 {
            text = substr($0, length(ENVIRON["kind"]) + 3)
            count = split(ENVIRON["edges"], edges)
            put("%edge", edges[ENVIRON["first"] + 1])
            put("%next", edges[(ENVIRON["first"] + 1) % (count ? count : 1) + 1])
            put("%first", ENVIRON["first"])
            put("%tool", ENVIRON["tool"])
            put("%pages", ENVIRON["pages"])
            put("%file", ENVIRON["file"])
            put("%folder", ENVIRON["folder"])
            printf "%s", "hint: " text
        }' "$help/kinds" | show >&2
}

# Sets the file that can't be read, as far as the words of a call show it, and the folder into which it writes.
name_places() {
    shift
    file='a file that was named' folder='the current folder' before=''
    for word in "$@"; do
        case $before in
            -o) folder=$word before='' && continue ;;
            -arch | -name | -obs | -edges | -size | -nprocs | -accesses | -after | -from) before='' && continue ;;
        esac
        case $word in
            -*) before=$word ;;
            *) [ "$file" != 'a file that was named' ] || { [ ! -d "$word" ] && { [ ! -e "$word" ] || [ -r "$word" ]; }; } || file=$word ;;
        esac
    done
}

# Prints the edges among the words of diyone7 or norm7.
edges_among() {
    before=''
    for word in "$@"; do
        case $before in -arch | -name | -obs | -o) before='' && continue ;; esac
        case $word in
            -*) before=$word ;;
            *) printf '%s ' "$word" ;;
        esac
    done
}

# Says which of the logs that msum7 has read have no test: no line that begins one (docs/LOGS.md). What is no file can't be read again.
note_logs() {
    while [ "${1-}" = -skip ] || [ "${1-}" = -table ]; do shift; done
    [ $# -gt 0 ] || set -- /dev/stdin
    count=$#
    for log in "$@"; do
        shift
        [ ! -f "$log" ] || set -- "$@" "$log"
    done
    [ $# -gt 0 ] || return
    begin=$(printf '^[ \t]*Test[ \t]+[^ \t]+[ \t]+(Allowed|Forbidden|Required)[ \t]*\r?$')
    lacking=$(LC_ALL=C grep -aLE "$begin" -- "$@" 2>/dev/null)
    [ -n "$lacking" ] || return
    case $count:$(printf '%s\n' "$lacking" | wc -l) in
        1:*) said='1 log, no test in it' ;;
        "$count:$count") said="$count logs, no test in them" ;;
        *) said="$count logs, no test in $(printf '%s\n' "$lacking" | sed '$!s/$/,/' | tr '\n' ' ')" ;;
    esac
    echo "note: ${said% } (a test begins with a line such as Test SB Allowed)" >&2
}
