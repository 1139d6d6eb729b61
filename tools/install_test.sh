#!/usr/bin/env bash
# Tests tools/install.sh and what `make install`, `make install-library`, `make uninstall` and `make dist` do with it:
# which files they put where, with which modes, what they remove, what they refuse, and that packages are the same bytes
# twice, run from an empty folder and pass lintian but for tools/lintian-tags.txt. Builds the examples of
# docs/library.md with the library that was installed, and installs what `make wheel` makes into an empty environment.
# The program is the one that `rt ci` left in crates/nonograde/out, or the one that NONOGRADE names; the library is that
# of out/library, or of the folder that NONOGRADE_LIBRARY names. It needs make, man-db, dpkg-deb, lintian, compilers for
# C, C++ and Rust, pkg-config, and Debian's python3 with venv. It never runs rt. Its last line is `N passed, M failed`.
. "$(dirname "$0")/common.sh"
program=$(realpath "$program")
[ -x "$program" ] || refuse "there is no $program"
library=$(realpath "${NONOGRADE_LIBRARY:-$tools/../out/library}")
[ -f "$library/libnonograde.so.0" ] || refuse "there is no $library/libnonograde.so.0"
unset NONOGRADE NONOGRADE_LIBRARY PKG_CONFIG_PATH LD_LIBRARY_PATH MANPATH MAKEFLAGS MAKELEVEL MFLAGS SOURCE_DATE_EPOCH DESTDIR PREFIX
open_room
kit=$(realpath "$(command -v rt)" 2>/dev/null)
kit=${kit%/bin/rt}
top=$(realpath "$tools/..") PATH=$PATH:/usr/sbin
built=crates/nonograde/out/nonograde

# Counts whether a text is the expected one: a name for it, what is expected, the text.
same() {
    count "$1" "$([ "$2" = "$3" ] || diff <(echo "$2") <(echo "$3"))"
}

# Copies what is installed or packed, with one source older than the program and the library, into a new folder.
make_clone() {
    local part
    mkdir -p "$1/crates/program/src" "$1/crates/nonograde/out" "$1/out"
    for part in Makefile README.md CHANGELOG.md CONTRIBUTING.md bin docs include man completions puzzles python tools; do
        cp -r "$top/$part" "$1" || exit
    done
    cp -r "$library" "$1/out/library" || exit
    touch -d 2001-01-01 "$1/crates/program/src/stop.rt"
    cp "$program" "$1/$built"
}

# Prints the files that are to be installed, a line each: the mode, the place, and the source in the clone.
wanted_files() {
    local file
    echo "755 bin/nonograde $built"
    for file in pack pick shards slurm; do
        echo "755 bin/nonograde-$file bin/nonograde-$file"
        echo "644 share/man/man1/nonograde-$file.1 man/nonograde-$file.1"
    done
    echo '644 share/man/man1/nonograde.1 man/nonograde.1'
    echo '644 share/man/man5/nonograde.5 man/nonograde.5'
    echo '644 share/bash-completion/completions/nonograde completions/nonograde.bash'
    echo '644 share/fish/vendor_completions.d/nonograde.fish completions/nonograde.fish'
    echo '644 share/zsh/site-functions/_nonograde completions/_nonograde'
    find puzzles -type f -printf '644 share/doc/nonograde/%p %p\n'
}

# Compares what is in a root with what is to be installed: a name for it, the root.
compare_root() {
    local place source
    same "the files of $1" "$(wanted_files | cut -d ' ' -f 1,2 | sort)" \
        "$(cd "$2" && find . -type f ! -path ./share/nonograde/installed -printf '%m %P\n' | sort)"
    same "the folders' modes of $1" 755 "$(find "$2" -type d -printf '%m\n' | sort -u)"
    while read -r _ place source; do
        cmp -s "$source" "$2/$place" || echo "$place"
    done < <(wanted_files) >differing
    same "the contents of $1" '' "$(cat differing)"
}

# Counts whether a command ends with a status and with a line on standard error: a name, the status, the line,
# the command.
refuses() {
    local name=$1 status=$2 line=$3 ended
    shift 3
    "$@" >printed 2>said
    ended=$?
    same "$name" "$status, $line" "$ended, $(grep -xF -- "$line" said || head -n 3 said)"
}

# Installs into folders of many kinds, and removes that again.
install_and_remove() {
    local root="$room/a root" stage=$room/stage
    (umask 077 && make -s install DESTDIR="$stage" PREFIX="$root") >said 2>&1
    same 'make install' '0 ' "$? $(cat said)"
    compare_root 'a root below DESTDIR, with umask 077' "$stage$root"
    count 'nothing is installed outside DESTDIR' "$([ ! -e "$root" ] || echo "there is $root")"
    same 'the machine in what is installed' '' "$(grep -rlF "$room" "$stage" | grep -v '/bin/nonograde$')"
    make -s install DESTDIR="$stage" PREFIX="$root"
    make -s uninstall DESTDIR="$stage" PREFIX="$root" >said 2>&1
    same 'make uninstall after two installs' '0 ' "$? $(cat said)"
    count 'make uninstall leaves nothing' "$([ ! -e "$stage" ] || find "$stage")"

    mkdir -p "$root/share/man/man1" "$root/bin" && echo mine >"$root/bin/mine"
    make -s install PREFIX="$root"
    count 'the program runs where it was installed' "$("$root/bin/nonograde" --version | grep -v '^nonograde ')"
    same 'man pages are found' "$root/share/man/man1/nonograde.1 $root/share/man/man5/nonograde.5" \
        "$(man -M "$root/share/man" -w 1 nonograde) $(man -M "$root/share/man" -w 5 nonograde)"
    touch "$root/share/fish/mine"
    make -s uninstall PREFIX="$root"
    same 'what make uninstall leaves: what was there, and what is not its own' \
        "$(printf '%s\n' . ./bin ./bin/mine ./share ./share/fish ./share/fish/mine ./share/man ./share/man/man1)" \
        "$(cd "$root" && find . | sort)"
    make -s uninstall PREFIX="$root" >said 2>&1
    same 'make uninstall of what is not there' '0 ' "$? $(cat said)"
    # shellcheck disable=SC2088
    HOME="$room/home" tools/install.sh '~/.local'
    compare_root 'a home that the shell did not put in' "$room/home/.local"
    rm -r "$root" "${room:?}/home"
}

# Refuses command lines, roots that can't be written, and a program that isn't there.
refuse_to_install() {
    local words
    for words in '' '--remove' '--pack' '--nothing x' 'x y' '-x' 'x y z'; do
        # shellcheck disable=SC2086
        refuses "the words '$words'" 2 'install.sh: a folder is wanted' tools/install.sh $words
    done
    same '--help' 'Installs the program' "$(tools/install.sh --help | head -c 20)"
    echo >file
    refuses 'a root in a file' 1 "mkdir: cannot create directory 'file': File exists" tools/install.sh file/x
    refuses 'a folder for packages in a file' 1 "mkdir: cannot create directory 'file': Not a directory" \
        tools/install.sh --pack file/x
    mkdir -p part/bin/nonograde
    tools/install.sh part >printed 2>said
    same 'a folder in the place of the program' 1 $?
    tools/install.sh --remove part >printed 2>said
    same 'what is left of an install that failed' "part part/bin part/bin/nonograde" "$(find part | sort | paste -sd ' ')"
    rm -r file part
    mv $built kept
    refuses 'no program to install' 1 'install.sh: there is no program to install: run make' tools/install.sh root
    refuses 'no program to pack' 1 'install.sh: there is no program to pack: run make' tools/install.sh --pack root
    mv kept $built
    SOURCE_DATE_EPOCH=today refuses 'an odd date' 2 "install.sh: SOURCE_DATE_EPOCH isn't a number of seconds" tools/install.sh --pack root
    count 'nothing is installed by what is refused' "$([ ! -e root ] || find root)"
}

# Installs when sources are newer than the program: `rt` is a stand-in that builds it, or isn't there.
install_newer_sources() {
    local said='make: the program is older than its sources; building it needs rt' path
    mkdir -p stand-in without
    # shellcheck disable=SC2016
    printf '#!/bin/sh\necho "rt $*" >>"%s/ran"\necho "#!/bin/sh" >out/nonograde\ntouch -d 2002-01-01 out/nonograde\n' "$PWD" >stand-in/rt
    chmod +x stand-in/rt
    path=$PWD/stand-in:$PATH
    : >ran
    PATH=$path make -s install PREFIX="$room/new"
    same 'a program newer than its sources is not built' '' "$(cat ran)"
    touch -d 2030-01-01 crates/program/src/stop.rt
    for file in bash make install mkdir dirname realpath awk mv find sh cat cut; do
        ln -sf "$(command -v $file)" without
    done
    rm -r "$room/new"
    refuses 'newer sources without rt' 2 "$said" env PATH="$PWD/without" make -s install PREFIX="$room/new"
    count 'newer sources without rt install nothing' "$([ ! -e "$room/new" ] || find "$room/new")"
    touch -d 2003-01-01 crates/program/src/stop.rt && touch -d 2002-06-01 $built
    PATH=$path make -s install PREFIX="$room/new"
    same 'newer sources are built' 'rt run -- survey' "$(cat ran)"
    same 'what was built is installed' '#!/bin/sh' "$(head -c 9 "$room/new/bin/nonograde")"
    PATH=$path make -s install PREFIX="$room/new"
    same 'newer sources are built once' 1 "$(wc -l <ran)"
    touch -d 2001-01-01 crates/program/src/stop.rt && cp "$program" $built
    rm -r "$room/new" stand-in without ran
}

# Prints the files of the library that are to be installed: the mode or `link`, and the place below the root, whose
# folder for libraries is named.
library_files() {
    echo '644 include/nonograde.h'
    printf "644 $1/%s\n" libnonograde.a libnonograde.so.0 pkgconfig/nonograde.pc
    echo "link $1/libnonograde.so"
}

# Prints the files and links in a root, as `library_files` does.
found_files() {
    (cd "$1" && find . \( -type f ! -path ./share/nonograde/installed -printf '%m %P\n' \) -o \( -type l -printf 'link %P\n' \)) | sort
}

# Installs the library into folders of many kinds, and removes it again.
install_and_remove_library() {
    local root="$room/a root" stage=$room/stage said='make: the library is older than its sources; building it needs rt'
    (umask 077 && make -s install-library DESTDIR="$stage" PREFIX="$root") >said 2>&1
    same 'make install-library' '0 ' "$? $(cat said)"
    same 'the files of the library' "$(library_files lib | sort)" "$(found_files "$stage$root")"
    same 'the library' '' "$(cd "$stage$root/lib" && for file in *.a *.so *.so.0; do cmp "$file" "$library/$file"; done 2>&1)"
    same 'where the link leads' libnonograde.so.0 "$(readlink "$stage$root/lib/libnonograde.so")"
    same 'the prefix for pkg-config' "prefix=$root" "$(head -n 1 "$stage$root/lib/pkgconfig/nonograde.pc")"
    make -s install install-library DESTDIR="$stage" PREFIX="$root" >said 2>&1
    same 'make install-library a second time' '0 ' "$? $(cat said)"
    make -s uninstall DESTDIR="$stage" PREFIX="$root" >said 2>&1
    same 'make uninstall of both' '0 ' "$? $(cat said)"
    count 'make uninstall leaves nothing of both' "$([ ! -e "$stage" ] || find "$stage")"
    HOME="$room/home" make -s install-library PREFIX='~/.local'
    same 'a home in nonograde.pc' "prefix=$room/home/.local" "$(head -n 1 "$room/home/.local/lib/pkgconfig/nonograde.pc")"
    rm "$room/home/.local/share/nonograde/installed"
    HOME="$room/home" make -s uninstall PREFIX='~/.local'
    same 'make uninstall without its list' '' "$(found_files "$room/home")"
    rm -r "${room:?}/home"
    mv out/library kept
    refuses 'no library to install' 1 'install.sh: there is no library to install: run make library' tools/install.sh --library root
    refuses 'no library to pack' 0 'install.sh: without a library, none is packed: run make library' tools/install.sh --pack packed
    same 'what is packed without a library' 2 "$(find packed -type f | wc -l)"
    mv kept out/library && rm -r packed
    mkdir without && for file in make install mkdir find sh; do ln -s "$(command -v $file)" without; done
    touch -d 2030-01-01 crates/program/src/stop.rt
    refuses 'a library older than its sources, without rt' 2 "$said" env PATH="$PWD/without" make -s install-library PREFIX="$root"
    touch -d 2001-01-01 crates/program/src/stop.rt && rm -r without
}

# Prints the first example in a language of the page on the library.
example_in() {
    awk -v begin="\`\`\`$1" '$0 == begin { on = 1; next } /^```$/ && on { exit } on' docs/library.md
}

# Prints what the page says that the example in C, C++ or Rust prints: its number, from 1.
example_prints() {
    awk -v wanted="$1" '/^    \$ \.\/two$/ { seen++; next } seen == wanted && /^$/ { empty = empty "\n"; next }
        seen == wanted && !/^    / { exit } seen == wanted { printf "%s%s\n", empty, substr($0, 5); empty = "" }' docs/library.md
}

# Builds the page's examples with the library in a root, as the page does, and runs them.
build_examples() {
    local root="$room/a root" words number=0 language file compiler
    make -s install-library PREFIX="$root"
    mkdir examples
    while read -r language file compiler; do
        number=$((number + 1))
        example_in "$language" >"examples/$file"
        words=$(PKG_CONFIG_PATH="$root/lib/pkgconfig" pkg-config --cflags --libs nonograde)
        [ "$language" != rust ] || words=$(PKG_CONFIG_PATH="$root/lib/pkgconfig" pkg-config --libs nonograde)
        (cd examples && eval "$compiler -o two $file $words") >said 2>&1
        same "the example in $language is built" '0 ' "$? $(cat said)"
        same "the example in $language" "$(example_prints $number)" "$(LD_LIBRARY_PATH="$root/lib" examples/two)"
        same "the library of the example in $language" "$root/lib/libnonograde.so.0" \
            "$(LD_LIBRARY_PATH="$root/lib" ldd examples/two | sed -n 's/.*libnonograde.* => \(.*\) (.*/\1/p')"
        rm examples/two
    done <<<'c two.c cc -std=c11 -Wall -Wextra -Werror
cpp two.cpp c++ -std=c++17 -Wall -Wextra -Werror
rust two.rs rustc -D warnings'
    cc -I "$root/include" -o examples/two examples/two.c "$root/lib/libnonograde.a"
    same 'the example with the static library' "$(example_prints 1)" "$(examples/two)"
    same 'the version for pkg-config' "$(examples_version "$root")" "$(PKG_CONFIG_PATH="$root/lib/pkgconfig" pkg-config --modversion nonograde)"
    make -s uninstall PREFIX="$root"
    rm -r examples
}

# The version in the header that is installed in a root.
examples_version() {
    sed -n 's/^#define NONOGRADE_VERSION "\(.*\)"$/\1/p' "$1/include/nonograde.h"
}

# Prints what is wrong with the list of files in a wheel: each has its digest and its length there.
check_record() {
    python3 - "$1" <<'END'
import base64, csv, hashlib, sys, zipfile

wheel = zipfile.ZipFile(sys.argv[1])
[record] = [name for name in wheel.namelist() if name.endswith(".dist-info/RECORD")]
wanted = []
for name in wheel.namelist():
    digest = base64.urlsafe_b64encode(hashlib.sha256(wheel.read(name)).digest()).decode().rstrip("=")
    wanted.append([name, "", ""] if name == record else [name, f"sha256={digest}", str(wheel.getinfo(name).file_size)])
found = list(csv.reader(wheel.read(record).decode().splitlines()))
print("" if found == wanted else f"{found} in place of {wanted}")
END
}

# Makes the wheel twice, once as pip does, and installs it into an empty environment.
try_wheel() {
    local wheel wanted
    make -s wheel >said 2>&1
    wheel=$(echo out/*.whl)
    same 'make wheel' "0 $wheel" "$? $(cat said)"
    same 'the name of the wheel' "out/nonograde-$(examples_version .)-py3-none-linux_x86_64.whl" "$wheel"
    count 'the list in the wheel' "$(check_record "$wheel")"
    /usr/bin/python3 -m venv empty && empty/bin/pip -q --no-input --no-cache-dir wheel --no-index -w again ./python >said 2>&1
    same 'the wheel by pip' '0 ' "$? $(cat said; cmp "$wheel" again/*.whl 2>&1)"
    empty/bin/pip -q --no-input --no-cache-dir install --no-index "$wheel" >said 2>&1
    same 'the wheel is installed' '0 ' "$? $(cat said)"
    example_in python >example.py
    wanted=$(awk '/^It prints$/ { seen = 1 } seen && /^```$/ { fences++; next } fences == 1 { print } fences == 2 { exit }' docs/library.md)
    same 'the example in an empty environment' "$wanted" "$(empty/bin/python -I example.py 2>&1)"
    same 'what is installed' "$(printf '%s\n' __init__.py libnonograde.so py.typed)" \
        "$(cd empty/lib/python*/site-packages/nonograde && find . -type f ! -path '*/__pycache__/*' -printf '%P\n' | sort)"
    same 'the version of the wheel' "$(examples_version .)" "$(empty/bin/pip show nonograde 2>/dev/null | sed -n 's/^Version: //p')"
    same 'paths of this machine in the wheel' '' \
        "$(grep -rlF -e "$top" -e "$room" -e "${kit:-$room}" empty/lib/python*/site-packages/nonograde --include='*.py' --include='*.so')"
    rm -r empty again example.py
}

# Packs twice, from clones with other modes and dates, and at other dates.
pack_twice() {
    local epoch
    make -s dist >said 2>&1
    same 'make dist' 0 $?
    cp -r out first
    find . -name '*.md' -exec touch -d 2011-11-11 {} +
    chmod -R go= docs puzzles man
    (umask 077 && make -s dist) >said 2>&1
    same 'the same bytes twice' '' "$(diff -r first out)"
    epoch=$(date -ud "$(grep -om 1 -E '[0-9]{4}-[0-9]{2}-[0-9]{2}' CHANGELOG.md)" +%s)
    same 'the date of packed files' "$(date -ud "@$epoch" '+%Y-%m-%d %H:%M')" \
        "$(TZ=UTC tar -tvzf out/*.tar.gz | awk '{ print $4, $5 }' | sort -u)"
    same 'the owner of packed files' 0/0 "$(tar --numeric-owner -tvzf out/*.tar.gz | awk '{ print $2 }' | sort -u)"
    same 'the owner in the .deb' root/root "$(dpkg-deb -c out/nonograde_*.deb | awk '{ print $2 }' | sort -u)"
    same 'the order of packed files' "$(tar -tzf out/*.tar.gz | sed 's/\/$//' | tr / '\1' | sort)" \
        "$(tar -tzf out/*.tar.gz | sed 's/\/$//' | tr / '\1')"
    SOURCE_DATE_EPOCH=1000000000 tools/install.sh --pack dated >said 2>&1
    same 'SOURCE_DATE_EPOCH' '2001-09-09 01:46' "$(TZ=UTC tar -tvzf dated/*.tar.gz | awk '{ print $4, $5 }' | sort -u)"
    rm -r first dated
}

# Packs where there is no dpkg.
pack_without_dpkg() {
    local file
    mkdir without
    find /usr/bin /bin -maxdepth 1 ! -name 'dpkg*' -exec ln -sf -t without {} + 2>/dev/null
    refuses 'no dpkg' 0 'install.sh: without dpkg-deb, no .deb is packed' env PATH="$PWD/without" tools/install.sh --pack tarball
    same 'what is packed without dpkg' "$(cd out && echo *.tar.gz)" "$(ls tarball)"
    same 'the .tar.gz without dpkg' '' "$(cmp tarball/*.tar.gz out/*.tar.gz 2>&1)"
    rm -r without tarball
}

# Compares the files of the packages, and what the .deb says of itself.
compare_packages() {
    local folder=$1 needed
    same 'the files of the .tar.gz' "$({
        wanted_files | cut -d ' ' -f 1,2
        for file in README.md CHANGELOG.md CONTRIBUTING.md docs/*; do
            echo "644 share/doc/nonograde/$file"
        done
    } | sort)" "$(cd "package/$folder" && find . -type f -printf '%m %P\n' | sort)"
    same 'the modes of packed folders' 755 "$(find package -mindepth 1 -type d -printf '%m\n' | sort -u)"
    same 'the man pages of the .deb' \
        "$(printf 'usr/share/man/%s.gz\n' man1/nonograde{-pack,-pick,-shards,-slurm,}.1 man5/nonograde.5)" \
        "$(cd package/debian && find usr/share/man -type f | sort)"
    gzip -d package/debian/usr/share/man/man?/*.gz
    zcat package/debian/usr/share/doc/nonograde/changelog.gz >printed
    same 'the changelog of the .deb' "nonograde ($(dpkg-deb -f out/nonograde_*.deb Version)) unstable; urgency=medium" "$(head -n 1 printed)"
    rm package/debian/usr/share/doc/nonograde/changelog.gz
    same 'the two packages' '' "$(diff -r "package/$folder" package/debian/usr)"
    same 'the version of the package' "$(bin_of "$folder" --version)" "nonograde $(dpkg-deb -f out/nonograde_*.deb Version)"
    same 'the fields of the .deb' 'Package Version Architecture Maintainer Installed-Size Depends Suggests Section Priority Description' \
        "$(dpkg-deb -f out/nonograde_*.deb | grep -oE '^[A-Z][A-Za-z-]+' | paste -sd ' ')"
    needed=$(grep -aoE 'GLIBC_[0-9]+\.[0-9]+' "package/$folder/bin/nonograde" | cut -d _ -f 2 | sort -V | tail -n 1)
    same 'what the .deb depends on' "libc6 (>= $(getconf GNU_LIBC_VERSION | cut -d ' ' -f 2))" "$(dpkg-deb -f out/nonograde_*.deb Depends)"
    same 'its C library is new enough' 0 "$(dpkg --compare-versions "$(dpkg-deb -f out/nonograde_*.deb Depends | grep -oE '[0-9.]+\)' | tr -d ')')" ge "$needed"; echo $?)"
}

# Compares the files of the library's packages, and what they say of themselves.
compare_library_packages() {
    local lib version
    lib=usr/lib/$(cc -print-multiarch)
    version=$(examples_version .)
    dpkg-deb -x out/libnonograde0_*.deb package/shared
    dpkg-deb -x out/libnonograde-dev_*.deb package/dev
    same 'the files of libnonograde0' "644 $lib/libnonograde.so.0
644 usr/share/doc/libnonograde0/changelog.gz" "$(found_files package/shared)"
    same 'the files of libnonograde-dev' "$({
        library_files "$lib" | sed 's/ include/ usr\/include/' | grep -v 'so\.0$'
        echo 644 usr/share/doc/libnonograde-dev/changelog.gz
    } | sort)" "$(found_files package/dev)"
    same 'what libnonograde-dev depends on' "libnonograde0 (= $version)" "$(dpkg-deb -f out/libnonograde-dev_*.deb Depends)"
    same 'the version of libnonograde0' "$version" "$(dpkg-deb -f out/libnonograde0_*.deb Version)"
    same 'the exports of libnonograde0' "$(printf 'nonograde_%s\n' buffer_size check close convert extend grade lines report solve version)" \
        "$(nm -D --defined-only "package/shared/$lib/libnonograde.so.0" | awk '{ print $3 }' | sort)"
    cp -r package/shared/. package/dev/. package/both && example_in c >two.c
    (
        export PKG_CONFIG_SYSROOT_DIR=$PWD/package/both PKG_CONFIG_LIBDIR=$PWD/package/both/$lib/pkgconfig
        export PKG_CONFIG_ALLOW_SYSTEM_CFLAGS=1 PKG_CONFIG_ALLOW_SYSTEM_LIBS=1
        eval "cc -o two two.c $(pkg-config --cflags --libs nonograde)"
    ) >said 2>&1
    same 'the example with libnonograde-dev' "$(example_prints 1)" "$(LD_LIBRARY_PATH=$PWD/package/both/$lib ./two; cat said)"
    rm two two.c
}

# The program of the .tar.gz.
bin_of() {
    "package/$1/bin/nonograde" "${@:2}"
}

# Runs the program from its package, unpacked into an empty folder.
try_package() {
    local packed folder expected
    packed=$(echo out/*.tar.gz)
    folder=$(basename "$packed" .tar.gz)
    mkdir package
    tar -xzf "$packed" -C package
    dpkg-deb -x out/nonograde_*.deb package/debian
    compare_packages "$folder"
    mkdir package/both && compare_library_packages
    same 'what the program needs' libc.so.6 "$(ldd "package/$folder/bin/nonograde" | awk '$2 == "=>" { print $1 }')"
    same 'paths of this machine in the package' '' \
        "$(grep -rlF -e "$top" -e "$room" -e "${kit:-$room}" package)"
    expected=$($built survey <puzzles/collection.txt)
    same 'the program of the package' "$expected" \
        "$(cd "package/$folder/share/doc/nonograde" && ../../../bin/nonograde survey <puzzles/collection.txt)"
    same 'the shards of the package' "$expected" \
        "$(cd "package/$folder/share/doc/nonograde" && ../../../bin/nonograde-shards puzzles/collection.txt 2>"$room/said")"
    same 'the man page of a script' "$(man -l man/nonograde.1 2>&1)" "$(man -M "package/$folder/share/man" nonograde-pick 2>&1)"
    same 'the man page of the package' "$(man -l man/nonograde.1 2>&1)" "$(man -M "package/$folder/share/man" 1 nonograde 2>&1)"
    same 'the formats of the package' "$(man -l man/nonograde.5 2>&1)" "$(man -M "package/$folder/share/man" 5 nonograde 2>&1)"
}

# Compares lintian's tags of each .deb with those that the file allows. Each of these has a reason above it.
run_lintian() {
    local tag allowed
    lintian --allow-root out/*.deb >printed 2>said
    same 'lintian runs' '' "$(grep -vE '^(running with root|N: |W: .*root)' said)"
    allowed=$(grep -E '^[a-z]' tools/lintian-tags.txt)
    while IFS= read -r tag; do
        count "lintian: $tag" "$(grep -qxF "$(cut -d ' ' -f 3 <<<"$tag")" <<<"$allowed" || echo 'tools/lintian-tags.txt does not allow it')"
    done < <(grep -E '^[EW]: ' printed)
    for tag in $allowed; do
        count "the tag $tag" "$(grep -qE "^[EW]: nonograde[^:]*: $tag( |\$)" printed || echo "lintian doesn't find it any more")"
    done
    same 'tags without a reason' '' "$(awk -v RS= '!/^#/ { print }' tools/lintian-tags.txt)"
}

make_clone "$room/clone"
cd "$room/clone" || exit
install_and_remove
refuse_to_install
install_newer_sources
install_and_remove_library
build_examples
try_wheel
pack_twice
pack_without_dpkg
try_package
run_lintian
finish
