# ./diy try TOOL WORDS..: calls a tool by a program that isn't proved. `rt try` compiles it, with checks as it runs. It is kept by the sum
# of its sources, so that the next call answers at once.
# (read by ../../diy)

try_tool() {
    [ $# -gt 0 ] || misused 'try needs a tool, such as ./diy try diyone7 -arch X86 PodWR Fre PodWR Fre'
    case $1 in --help | -help | -h) show_usage ;; esac
    require_tool "$1"
    shift
    find_request "$tool" "$@"
    [ -n "$request" ] || find_tried
    call_tool "$tool" "$@"
}

# Sets the program: one that is kept, or a new one.
find_tried() {
    command -v rt >/dev/null 2>&1 || fail 70 "trying needs the Rattle kit's command rt"
    kept=$top/crates/diy_main/out/tried
    program=$kept/$(sum_of_sources)
    [ -x "$program" ] || compile
    print_version() {
        echo 'one that nobody has proved yet'
    }
    echo 'diy: the answer comes from a program that nobody has proved yet' >&2
}

# The sum of all that the program is compiled from, and of the kit.
sum_of_sources() {
    {
        rt version
        cd "$top" && find crates crates.txt HANDLES \( -name out -o -name must-fail \) -prune -o -type f \
            \( -name '*.rt' -o -name '*.antt' -o -name crates.txt -o -name HANDLES \) -exec sha256sum {} + | LC_ALL=C sort -k 2
    } | sha256sum | cut -c 1-32
}

# Compiles the program by `rt try`, which runs it at once: for the sum of a log that is a named pipe. While it waits for this log its file
# is copied.
compile() {
    echo 'diy: compiling the program, which takes a minute or two' >&2
    copier='' room=$(mktemp -d) || exit 70
    trap '[ -z "$copier" ] || kill "$copier" 2>/dev/null; rm -rf -- "$room"' EXIT
    mkfifo "$room/log" && mkdir -p "$kept" && [ -w "$kept" ] || fail 73 "$kept can't be written"
    { find "$room" -type f -perm -u=x ! -name copy -exec cp {} "$room/copy" \; ; } >"$room/log" &
    copier=$!
    watched /dev/null try_sum 2>"$room/said"
    kill "$copier" 2>/dev/null
    wait "$copier"
    copier=''
    case $("$room/copy" norm7 -arch X86 -from SB 2>/dev/null) in
        'SB: '*) ;;
        *)
            cat "$room/said" >&2
            fail 70 "the program can't be compiled, or isn't found where rt runs it"
            ;;
    esac
    mv "$room/copy" "$program.$$" && mv "$program.$$" "$program" || fail 73 "$program can't be written"
    # (what other sources made goes)
    find "$kept" -type f ! -name "${program##*/}*" -exec rm -f {} +
    rm -rf "$room"
    trap - EXIT
}

try_sum() {
    cd "$top/crates/diy_main" && TMPDIR=$room exec rt try -- msum7 "$room/log"
}
