#!/usr/bin/env bash
# Installs the program that was built, with its scripts, man pages, completions and puzzles, or the library for other
# programs; or packs both.
#
#     tools/install.sh ROOT                       installs the program into ROOT/bin and ROOT/share
#     tools/install.sh --library ROOT [PREFIX]    installs the library into ROOT/lib and ROOT/include
#     tools/install.sh --remove ROOT              removes what was installed there, and folders that were made for it
#     tools/install.sh --pack FOLDER              packs the program, with the pages, into a .tar.gz and, if dpkg-deb is
#                                                 there, a .deb; the library then into two more
#
# The program is crates/nonograde/out/nonograde, or the one that NONOGRADE names, and the library that of out/library,
# or of the folder that NONOGRADE_LIBRARY names. PREFIX is where nonograde.pc looks for the library, ROOT if it isn't
# given. ROOT/share/nonograde/installed lists what was installed and which folders were made. Packed files have the date
# SOURCE_DATE_EPOCH, in seconds, or else that of the newest changes in CHANGELOG.md. Status 0: done. 1: something can't
# be read or written. 2: the command line is refused.
. "$(dirname "$0")/common.sh"
cd "$tools/.." || exit 1
umask 022
list=share/nonograde/installed
library=${NONOGRADE_LIBRARY:-out/library}

# Prints what is installed of the program: the mode of each file, the file, and its place below the root, with tabs
# between.
files() {
    local file
    printf '755\t%s\tbin/nonograde\n' "$program"
    for file in bin/* man/*.[1-9] puzzles/* puzzles/traps/*; do
        [ -f "$file" ] || continue
        case $file in
            bin/*) printf '755\t%s\t%s\n' "$file" "$file" ;;
            man/*) printf '644\t%s\tshare/man/man%s/%s\n' "$file" "${file##*.}" "${file##*/}" ;;
            *) printf '644\t%s\tshare/doc/nonograde/%s\n' "$file" "$file" ;;
        esac
    done
    printf '644\tcompletions/%s\tshare/%s\n' nonograde.bash bash-completion/completions/nonograde \
        _nonograde zsh/site-functions/_nonograde nonograde.fish fish/vendor_completions.d/nonograde.fish
}

# Prints the files of the library in the same form. A link has the mode `link`, and its target in place of a file.
library_files() {
    printf '644\t%s\t%s\n' "$library/libnonograde.a" lib/libnonograde.a "$library/libnonograde.so.0" lib/libnonograde.so.0 \
        include/nonograde.h include/nonograde.h "$room/nonograde.pc" lib/pkgconfig/nonograde.pc
    printf 'link\tlibnonograde.so.0\tlib/libnonograde.so\n'
}

# Prints the contents of nonograde.pc, for a prefix and the folder of the library.
pkg_config() {
    cat <<END
prefix=$1
libdir=$2
includedir=\${prefix}/include

Name: nonograde
Description: Solver and grader of nonograms
Version: $(sed -n 's/^#define NONOGRADE_VERSION "\(.*\)"$/\1/p' include/nonograde.h)
Libs: -L"\${libdir}" -lnonograde
Cflags: -I"\${includedir}"
END
}

# Makes a folder with those above it, and adds each that it made to `placed`.
make_folders() {
    [ ! -d "$1" ] || return 0
    make_folders "$(dirname "$1")" && mkdir -- "$1" && placed+=("$1")
}

# Puts a file, or a link, into its place.
put_one() {
    if [ "$1" = link ]; then
        ln -sfT -- "$2" "$3"
    else
        install -T -m "$1" -- "$2" "$3"
    fi
}

# Puts the files that a command prints into a root, and adds each to `placed`.
put() {
    local mode file place
    while IFS=$'\t' read -r mode file place; do
        make_folders "$(dirname "$1/$place")" && put_one "$mode" "$file" "$1/$place" || return
        placed+=("$1/$place")
    done < <("$2")
}

# Installs the files that a command prints into a root, and lists what was done, even if only a part was.
install_into() {
    local placed=() status
    make_folders "$1/${list%/*}" || exit 1
    put "$1" "$2"
    status=$?
    realpath -ms --relative-to="$1" -- "${placed[@]}" >>"$1/$list" &&
        awk '!seen[$0]++' "$1/$list" >"$1/$list.new" && mv -- "$1/$list.new" "$1/$list" || exit 1
    exit $status
}

# Installs the program into a root.
install_program() {
    [ -x "$program" ] || fail "there is no program to install: run make"
    install_into "$1" files
}

# Installs the library into a root, for a prefix.
install_library() {
    local prefix=${2/#'~/'/$HOME/}
    [ -f "$library/libnonograde.so.0" ] || fail "there is no library to install: run make library"
    open_room
    pkg_config "$(realpath -ms -- "$prefix")" "\${prefix}/lib" >"$room/nonograde.pc" || exit 1
    install_into "$1" library_files
}

# Removes what was installed in a root: what its list has, from the end, or else the files of today.
remove() {
    local place places=() room='' status=0
    mapfile -t places < <({ files && library_files; } | cut -f 3 | while IFS= read -r place; do
        [ -d "$1/$place" ] || echo "$place"
    done && cat "$1/$list" 2>/dev/null)
    for ((place = ${#places[@]} - 1; place >= 0; place--)); do
        [ "${places[place]}" != "${list%/*}" ] || rm -f -- "$1/$list" || status=1
        remove_one "$(realpath -ms -- "$1/${places[place]}")" || status=1
    done
    exit $status
}

# Removes a file, or a folder if it is empty.
remove_one() {
    if [ -d "$1" ] && [ ! -L "$1" ]; then
        rmdir --ignore-fail-on-non-empty -- "$1"
    else
        rm -f -- "$1"
    fi
}

# Ends with a sentence about what is missing.
fail() {
    echo "install.sh: $1" >&2
    exit 1
}

# Prints what a Debian package says of itself, with fields of its own, a line each: its name, its root, its section,
# what its description adds.
control() {
    cat <<END
Package: $1
Version: $version
Architecture: $(dpkg --print-architecture)
Maintainer: the maintainers of nonograde <nonograde@localhost>
Installed-Size: $(du -sk --apparent-size "$2/usr" | cut -f 1)
$5
Section: $3
Priority: optional
Description: solver and grader of nonograms$4
 It says of black-and-white nonograms whether they have no, one or several
 solutions, and grades what solving takes; one puzzle, or thousands at once.
END
}

# Prints the changelog in Debian's form.
changelog() {
    cat <<END
nonograde ($version) unstable; urgency=medium

  * CHANGELOG.md lists what has changed.

 -- the maintainers of nonograde <nonograde@localhost>  $(date -uRd "@$epoch")
END
}

# Gives everything below a folder the modes and the date of a package.
normalize() {
    chmod -R u=rwX,go=rX "$1" && find "$1" -exec touch -hd "@$epoch" {} +
}

# Takes the symbols out of a program, if there is a tool for it: Debian wants none in packages. Further words are those
# of the tool.
strip_symbols() {
    ! hash strip 2>/dev/null || strip "${@:2}" -- "$1"
}

# Packs a .deb of a root into a folder: the folder, the root, and what `control` takes after these.
pack_root() {
    local folder=$1 root=$2 package=$3
    mkdir -p "$root/DEBIAN" "$root/usr/share/doc/$package" &&
        changelog | gzip -9n >"$root/usr/share/doc/$package/changelog.gz" &&
        (cd "$root" && find usr -type f -print0 | sort -z | xargs -0 md5sum) >"$root/DEBIAN/md5sums" &&
        control "$package" "$root" "${@:4}" >"$root/DEBIAN/control" &&
        normalize "$root" &&
        SOURCE_DATE_EPOCH=$epoch dpkg-deb --root-owner-group --build "$root" \
            "$folder/${package}_${version}_$(dpkg --print-architecture).deb"
}

# Packs a .deb of $room/$name into a folder.
pack_debian() {
    local root=$room/debian
    mkdir "$root" && mv "$room/$name" "$root/usr" && gzip -9n "$root"/usr/share/man/man?/* &&
        pack_root "$1" "$root" nonograde misc '' "Depends: $libc
Suggests: parallel"
}

# Packs the library into a folder, as Debian has libraries: a .deb for programs that were built with it, and one for
# building programs.
pack_library() {
    local built=$room/built dev=$room/dev shared=$room/shared placed=() lib
    lib=usr/lib/$(cc -print-multiarch) &&
        pkg_config /usr "\${prefix}/${lib#usr/}" >"$room/nonograde.pc" &&
        put "$built" library_files &&
        strip_symbols "$built/lib/libnonograde.a" --strip-debug --enable-deterministic-archives &&
        mkdir -p "$shared/DEBIAN" "$shared/$lib" "$dev/usr/lib" &&
        mv "$built/lib/libnonograde.so.0" "$shared/$lib" &&
        mv "$built/lib" "$dev/$lib" && mv "$built/include" "$dev/usr" &&
        echo 'activate-noawait ldconfig' >"$shared/DEBIAN/triggers" &&
        echo 'libnonograde 0 libnonograde0' >"$shared/DEBIAN/shlibs" &&
        pack_root "$1" "$shared" libnonograde0 libs ' - shared library' "Source: nonograde
Depends: $libc
Multi-Arch: same" &&
        pack_root "$1" "$dev" libnonograde-dev libdevel ' - development files' "Source: nonograde
Depends: libnonograde0 (= $version)
Multi-Arch: same"
}

# Packs into a folder.
pack() {
    local version name pages epoch libc placed=()
    [ -x "$program" ] || fail "there is no program to pack: run make"
    version=$("$program" --version) || exit 1
    version=${version#* }
    name=nonograde-$version
    epoch=${SOURCE_DATE_EPOCH:-$(date -ud "$(grep -om 1 -E '[0-9]{4}-[0-9]{2}-[0-9]{2}' CHANGELOG.md)" +%s)}
    [[ $epoch =~ ^[0-9]+$ ]] || refuse "SOURCE_DATE_EPOCH isn't a number of seconds"
    open_room
    pages=$room/$name/share/doc/nonograde
    mkdir -p -- "$1" && put "$room/$name" files && strip_symbols "$room/$name/bin/nonograde" &&
        cp -r README.md CHANGELOG.md CONTRIBUTING.md docs "$pages" || exit 1
    normalize "$room/$name" &&
        tar -C "$room" --sort=name --owner=0 --group=0 --numeric-owner -I 'gzip -9n' -cf "$room/packed" "$name" &&
        cp "$room/packed" "$1/$name.tar.gz" || exit 1
    hash dpkg-deb dpkg 2>/dev/null || { echo 'install.sh: without dpkg-deb, no .deb is packed' >&2; return; }
    libc="libc6 (>= $(getconf GNU_LIBC_VERSION | cut -d ' ' -f 2))"
    pack_debian "$1" || exit 1
    if [ -f "$library/libnonograde.so.0" ]; then
        pack_library "$1"
    else
        echo 'install.sh: without a library, none is packed: run make library' >&2
    fi
}

case "$#:$*" in
    2:--remove\ ?*) remove "${2/#'~/'/$HOME/}" ;;
    2:--pack\ ?*) pack "$2" ;;
    1:[!-]*) install_program "${1/#'~/'/$HOME/}" ;;
    [23]:--library\ ?*) install_library "${2/#'~/'/$HOME/}" "${3-$2}" ;;
    1:--help) print_head ;;
    *) refuse 'a folder is wanted' ;;
esac
