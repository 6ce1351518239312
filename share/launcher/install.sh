# ./diy install: the files of an installation, and what makes these. (read by ../../diy; uninstall takes them away)

# The files of an installation, a line each: mode, place below the prefix, what makes it, and of what.
files() {
    echo "755 libexec/diy-proved/diy_main copy $program"
    echo "755 libexec/diy-proved/uninstall copy $top/share/launcher/uninstall"
    echo "644 libexec/diy-proved/tool.sh copy $top/share/launcher/tool.sh"
    echo "644 libexec/diy-proved/version version"
    echo "755 libexec/diy-proved/edges copy $top/share/completions/edges"
    echo "644 libexec/diy-proved/help/kinds copy $top/share/help/kinds"
    echo "755 libexec/diy-proved/gallery/gallery copy $top/share/gallery/gallery"
    for file in page.css page.js; do
        echo "644 libexec/diy-proved/gallery/$file copy $top/share/gallery/$file"
    done
    for tool in $commands; do
        echo "755 bin/$tool command $tool"
        echo "644 libexec/diy-proved/help/$tool.txt copy $top/share/help/$tool.txt"
        echo "644 share/man/man1/$tool.1 copy $top/share/man/man1/$tool.1"
        echo "644 share/bash-completion/completions/$tool copy $top/share/completions/bash"
        echo "644 share/fish/vendor_completions.d/$tool.fish copy $top/share/completions/fish"
    done
    for place in "$top"/share/lists/*; do
        echo "644 share/diy-proved/lists/${place##*/} copy $place"
    done
    echo "644 share/man/man7/diy-edges.7 copy $top/share/man/man7/diy-edges.7"
    echo "644 share/zsh/site-functions/_diy_proved copy $top/share/completions/zsh"
    echo "644 share/doc/diy-proved/copyright copyright"
    echo "644 share/doc/diy-proved/README.md copy $top/README.md"
    for page in $pages_of_tools; do
        echo "644 share/doc/diy-proved/$page.md copy $pages/$page.md"
    done
    for file in "$pages"/guide/*.log "$pages"/pictures/*.svg; do
        echo "644 share/doc/diy-proved/${file#"$pages"/} copy $file"
    done
}

# The pages for users of the tools, as against those for readers of the code.
pages_of_tools='GUIDE WORDS EDGES NAMES LISTING TESTS INSTRUCTIONS EXECUTIONS LOGS FROM-HERDTOOLS MEANING'

content() {
    case $1 in
        copy) cat -- "$2" ;;
        version) version ;;
        copyright)
            cat <<TEXT
Tools for litmus tests, made from the repository of diy-proved. The file libexec/diy-proved/version says from which commit.

The repository states no licence: choosing one is up to its owner. Until then nobody else has been given the right to copy, change or
distribute it, and an archive such as Debian's can't take it.
TEXT
            ;;
        command)
            cat <<TEXT
#!/bin/sh
# The tool $2 of the proved program, which is in a folder beside this one's. Made by ./diy
self=\$0
case \$self in */*) ;; *) self=./\$self ;; esac
while [ -h "\$self" ]; do
    to=\$(readlink -- "\$self")
    case \$to in /*) self=\$to ;; *) self=\${self%/*}/\$to ;; esac
done
prefix=\${self%/*}/..
own=\$prefix/libexec/diy-proved
program=\$own/diy_main help=\$own/help pages=\$prefix/share/doc/diy-proved gallery=\$own/gallery/gallery
print_version() {
    cat "\$own/version"
}
. "\$own/tool.sh"
call_tool $2 "\$@"
TEXT
            ;;
    esac
}

# Sets what is known of the tree: the commit, its day and its second, and the rest of a line if something in the tree isn't committed.
read_commit() {
    commit='' day='' second=0 changed=''
    [ -e "$top/.git" ] || return 0
    said=$(git -C "$top" log -1 --date=short --format='%H %cd %ct' 2>/dev/null) || return 0
    commit=${said%% *} second=${said##* } day=${said#* }
    day=${day% *}
    [ -z "$(git -C "$top" status --porcelain -- diy share crates crates.txt docs README.md VERSION)" ] || changed=', with changes that are not committed'
}

# Says which commit the program was proved from, and by which kit: that of the build, or the one that is here where something else built it.
version() {
    read_commit
    kit=$top/crates/diy_main/out/kit
    if [ -n "$(find "$kit" -newer "$program" 2>/dev/null)" ]; then kit=$(cat -- "$kit"); else kit=$(rt version 2>/dev/null); fi
    [ -n "$commit" ] || commit='no commit is known'
    echo "diy-proved, ${day:+commit }$commit${day:+ of $day}$changed"
    echo "proved by ${kit:-a kit that is not known}"
}

# Makes a folder and those above it, and notes which were made, the deepest first.
make_folder() {
    [ -d "$1" ] && return 0
    case ${1%/*} in '') ;; *) make_folder "${1%/*}" || return 1 ;; esac
    mkdir -- "$1" 2>/dev/null || return 1
    made="$1$line_feed$made"
}

# Removes the folders of a list that are empty.
remove_folders() {
    while IFS= read -r folder; do
        [ -z "$folder" ] || rmdir -- "$folder" 2>/dev/null || :
    done <<LIST
$1
LIST
}

# Ends an installation that can't be done, with nothing left of it.
give_up() {
    trap '' INT TERM HUP
    while IFS= read -r place; do
        [ -z "$place" ] || rm -f -- "$prefix/$place$ending"
    done <<LIST
$new
LIST
    remove_folders "$made"
    echo "diy: $1; nothing is changed" >&2
    exit 73
}

# Writes all files beside their places, and then gives them their names, so that a failure leaves nothing half.
install_all() {
    list=$prefix/libexec/diy-proved/installed ending=.diy-new
    made='' new='' old=''
    [ ! -e "$list" ] || old=$(cat -- "$list" 2>/dev/null) || give_up "$list can't be read"
    while read -r mode place kind of; do
        [ ! -d "$prefix/$place" ] || give_up "$prefix/$place is a folder"
        [ -e "$prefix/$place" ] || [ -L "$prefix/$place" ] || continue
        case "$line_feed$old$line_feed" in
            *"${line_feed}f $place$line_feed"*) ;;
            *) give_up "$prefix/$place is there and isn't from an installation of these tools" ;;
        esac
    done <<LIST
$(files)
LIST
    trap 'give_up "it was stopped"' INT TERM HUP
    while read -r mode place kind of; do
        make_folder "$prefix/${place%/*}" || give_up "no folder can be made for $prefix/$place"
        new="$new$place$line_feed"
        { content "$kind" "$of" >"$prefix/$place$ending" && chmod "$mode" "$prefix/$place$ending"; } 2>/dev/null ||
            give_up "$prefix/$place can't be written"
    done <<LIST
$(files)
LIST
    folders=$made$(printf '%s\n' "$old" | sed -n 's/^d //p')
    new="${list#"$prefix"/}$line_feed$new"
    {
        printf '%s' "$new" | sed 's/^/f /' && printf '%s\n' "$folders" | sed '/./!d; s/^/d /'
    } 2>/dev/null >"$list$ending" && [ -s "$list$ending" ] || give_up "$list can't be written"
    trap '' INT TERM HUP
    while IFS= read -r place; do
        [ -z "$place" ] || mv -f -- "$prefix/$place$ending" "$prefix/$place" || {
            echo "diy: $prefix/$place can't be replaced; ./diy uninstall takes away what is there" >&2
            exit 73
        }
    done <<LIST
$new
LIST
    # what an older installation had and this one hasn't
    printf '%s\n' "$old" | sed -n 's/^f //p' | while IFS= read -r place; do
        case "$line_feed$new" in
            *"$line_feed$place$line_feed"*) ;;
            *) rm -f -- "$prefix/$place" ;;
        esac
    done
    echo "diy: the commands are in $prefix/bin"
    case ":${PATH-}:" in
        *":$prefix/bin:"*) ;;
        *) echo "diy: the PATH doesn't name that folder" ;;
    esac
    # (where the package bash-completion looks for them)
    case ":${XDG_DATA_HOME:-${HOME-}/.local/share}:${XDG_DATA_DIRS:-/usr/local/share:/usr/share}:" in
        *":$prefix/share:"*) ;;
        *) echo "diy: completions for bash need a line in ~/.bashrc: . '$prefix/share/bash-completion/completions/diyone7'" ;;
    esac
}
