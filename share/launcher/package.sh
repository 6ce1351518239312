# ./diy package: writes archives of what ./diy install makes, for whoever has no kit. Made again from the same commit they have the same
# bytes. (read by ../../diy, after install.sh)

# Ends a package that can't be made, with nothing left of it.
no_package() {
    echo "diy: $1; no package is written" >&2
    exit 73
}

package() {
    [ -d "$1" ] || no_package "there is no folder $1"
    folder=$1
    tar --version 2>/dev/null | grep -q 'GNU tar' || no_package 'packages need GNU tar'
    room=$(mktemp -d) || exit 70
    ending=.diy-new tree=$room/tree new=''
    trap 'rm -rf -- "$room"; remove_new' EXIT
    trap 'exit 130' INT TERM HUP
    umask 022
    read_commit
    second=${SOURCE_DATE_EPOCH:-$second}
    read_number

    while read -r mode place kind of; do
        mkdir -p "$tree/${place%/*}" && content "$kind" "$of" >"$tree/$place" && chmod "$mode" "$tree/$place" ||
            no_package "$tree/$place can't be written"
    done <<LIST
$(files)
LIST
    # (the list from which uninstall and a later ./diy install know the files and folders; no folder is in the archive, so that those of a
    # prefix stay as they are)
    list=$tree/libexec/diy-proved/installed
    : >"$list"
    (cd "$tree" && find . -type f | sed 's|^\./||' | LC_ALL=C sort) >"$room/names"
    (cd "$tree" && sed 's/^/f /' "$room/names" && find . -depth -mindepth 1 -type d | sed 's|^\./|d |' | LC_ALL=C sort -r) >"$room/list" &&
        mv "$room/list" "$list"
    find "$tree" -exec touch -h -d "@$second" {} + || no_package 'the files get no time'

    archive=diy-proved-$number-linux-x86-64.tar.gz
    tar --format=ustar --owner=0 --group=0 --numeric-owner -C "$tree" -T "$room/names" -cf "$room/tar" &&
        gzip -n -9 -c "$room/tar" >"$room/$archive" || no_package "$archive can't be written"
    give "$archive"
    command -v dpkg-deb >/dev/null 2>&1 || return 0
    archive=diy-proved_${number}_amd64.deb
    debian "$room/$archive" || no_package "$archive can't be written"
    give "$archive"
}

# Sets the number of the version: that of the file VERSION, and the day, the time and the commit. Of two commits the later one has the later
# number, and the version itself has one that is later still.
read_number() {
    number=$(cat "$top/VERSION" 2>/dev/null)
    number=${number:-0.1}~git$(date -u -d "@$second" +%Y%m%d.%H%M)${commit:+.$(printf %.8s "$commit")}${changed:+.changed}
}

# Makes a Debian package. Its commands have the ending -proved, so that those of herdtools7 can be there too; where these aren't, the names
# without it are alternatives, which lead to them.
debian() (
    set -e
    usr=$room/debian/usr control=$room/debian/DEBIAN
    # (as other commands of Debian know who makes a package)
    maintainer="${DEBFULLNAME:-diy-proved} <${DEBEMAIL:-diy-proved@localhost}>"
    mkdir -p "$control" && mv "$tree" "$usr"
    # (dpkg knows the files, and zsh of Debian looks for completions elsewhere)
    rm "$usr/libexec/diy-proved/installed" "$usr/libexec/diy-proved/uninstall"
    mv "$usr/share/zsh/site-functions" "$usr/share/zsh/vendor-completions"
    # shellcheck disable=SC2086
    sed -i "1s/\$/$(printf ' %s-proved' $commands)/" "$usr/share/zsh/vendor-completions/_diy_proved"
    for tool in $commands; do
        mv "$usr/bin/$tool" "$usr/bin/$tool-proved"
        mv "$usr/share/man/man1/$tool.1" "$usr/share/man/man1/$tool-proved.1"
        mv "$usr/share/bash-completion/completions/$tool" "$usr/share/bash-completion/completions/$tool-proved"
        mv "$usr/share/fish/vendor_completions.d/$tool.fish" "$usr/share/fish/vendor_completions.d/$tool-proved.fish"
    done
    {
        echo "diy-proved ($number) unstable; urgency=medium"
        printf '\n  * %s\n' 'Made from the commit that diyone7-proved --version names.'
        printf '\n -- %s  %s\n' "$maintainer" "$(LC_ALL=C date -u -R -d "@$second")"
    } >"$usr/share/doc/diy-proved/changelog"
    mkdir -p "$usr/share/lintian/overrides"
    overrides >"$usr/share/lintian/overrides/diy-proved"
    gzip -9n "$usr"/share/man/man?/* "$usr/share/doc/diy-proved/changelog"
    size=$(du -sk --apparent-size "$usr" | cut -f 1)
    cat >"$control/control" <<TEXT
Package: diy-proved
Version: $number
Architecture: amd64
Maintainer: $maintainer
Installed-Size: $size
Section: devel
Priority: optional
Depends: libc6 (>= $(needs))
Recommends: python3 (>= 3.8)
Suggests: graphviz
Description: makes litmus tests from cycles of edges, by a proved program
 A litmus test is a small concurrent program that shows whether a machine may
 reorder memory accesses. These tools make such tests for x86, Power, AArch64,
 RISC-V and ARM from cycles of edges, in the format of herdtools7, and list,
 name and sort cycles, sum the logs of runs, and check executions. No tool here
 runs a test.
 .
 It is proved what a printed test says about its cycle. The program was proved
 from the source that its option --version names.
TEXT
    maintainer_script install >"$control/postinst"
    maintainer_script remove >"$control/prerm"
    (cd "$room/debian" && find usr -type f | LC_ALL=C sort | xargs md5sum) >"$control/md5sums"
    find "$room/debian" -type d -exec chmod 755 {} +
    chmod 644 "$control"/* && chmod 755 "$control/postinst" "$control/prerm"
    find "$room/debian" -exec touch -h -d "@$second" {} +
    SOURCE_DATE_EPOCH=$second dpkg-deb --root-owner-group -Zgzip --build "$room/debian" "$1" >/dev/null
)

# Prints the script of the package that makes the alternatives, or removes them.
maintainer_script() {
    echo '#!/bin/sh'
    echo 'set -e'
    case $1 in
        install) echo 'if [ "$1" = configure ]; then' ;;
        remove) echo 'if [ "$1" = remove ]; then' ;;
    esac
    for tool in $commands; do
        case $1 in
            remove) echo "    update-alternatives --remove $tool /usr/bin/$tool-proved" ;;
            install)
                echo "    update-alternatives --install /usr/bin/$tool $tool /usr/bin/$tool-proved 10 \\"
                echo "        --slave /usr/share/man/man1/$tool.1.gz $tool.1.gz /usr/share/man/man1/$tool-proved.1.gz \\"
                echo "        --slave /usr/share/bash-completion/completions/$tool $tool.bash \\"
                echo "        /usr/share/bash-completion/completions/$tool-proved \\"
                echo "        --slave /usr/share/fish/vendor_completions.d/$tool.fish $tool.fish \\"
                echo "        /usr/share/fish/vendor_completions.d/$tool-proved.fish"
                ;;
        esac
    done
    echo 'fi'
}

# Prints what lintian is to pass over, with the reasons.
overrides() {
    cat <<TEXT
# The program is as it was proved and compiled by the kit, byte for byte, so that anybody can compare it.
diy-proved: unstripped-binary-or-object [usr/libexec/diy-proved/diy_main]
diy-proved: hardening-no-fortify-functions [usr/libexec/diy-proved/diy_main]
# The repository names no owner and no licence: to choose one is up to its owner.
diy-proved: copyright-without-copyright-notice
# These are what the option --help prints.
diy-proved: package-contains-documentation-outside-usr-share-doc [usr/libexec/diy-proved/help/*]
TEXT
    [ -n "${DEBEMAIL-}" ] || cat <<TEXT
# Nobody is named as the maintainer. Whoever makes the package for others sets DEBFULLNAME and DEBEMAIL.
diy-proved: bogus-mail-host Maintainer diy-proved@localhost
diy-proved: bogus-mail-host-in-debian-changelog *
TEXT
}

# The version of the C library that the program needs.
needs() {
    LC_ALL=C grep -aoE 'GLIBC_[0-9]+\.[0-9]+' "$program" | sed 's/GLIBC_//' | sort -u -t . -k 1,1n -k 2,2n | tail -n 1
}

# Puts an archive into the folder, at once.
give() {
    new=$folder/$1$ending
    cp -- "$room/$1" "$new" 2>/dev/null && mv -f -- "$new" "$folder/$1" || no_package "$folder/$1 can't be written"
    echo "diy: the package is $folder/$1"
}

remove_new() {
    [ -z "$new" ] || rm -f -- "$new"
}
