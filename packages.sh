#!/usr/bin/env bash
# Makes Debian packages, for machines without the toolchain: `spki`, the program; `libspki-c0.2`, the shared library, named after its soname;
# `libspki-dev`, what C programs are compiled with; `spki-cert`, the command for those who hold keys; `spki-authd`, the daemon that decides for a
# web server. `apt-get install ./spki_*.deb` installs one. Beside them are SHA256SUMS and the list of all files inside, in SPDX 2.3.
# Equal sources, programs and libraries give equal octets. All times are that of the last commit, or SOURCE_DATE_EPOCH, in seconds since 1970.
# --maintainer says who answers for the packages; without it DEBFULLNAME and DEBEMAIL do. --arm64 makes packages of the library for ARM too, from
# the folder aarch64-unknown-linux-gnu beside LIBRARY, or built. --postgres builds the daemon with the driver for lists in PostgreSQL, which is in
# golang-github-lib-pq-dev. Needs Debian's dpkg, binutils, gcc, golang-go and python3.
# Usage: ./packages.sh [--maintainer 'NAME <ADDRESS>'] [--arm64] [--postgres] [FOLDER [PROGRAM [LIBRARY]]]
#        the packages go to FOLDER, or here; the rest is as for install.sh
#        ./packages.sh --help
set -euo pipefail
export LC_ALL=C
umask 022
here=$(realpath "$(dirname "$0")")
maintainer=${DEBFULLNAME:+${DEBEMAIL:+$DEBFULLNAME <$DEBEMAIL>}} arm= driver=()
while [[ ${1:-} == --* && $1 != --help ]]; do
    case $1 in
        --maintainer) maintainer=${2:?a maintainer is \'NAME <ADDRESS>\'}; shift ;;
        --arm64) arm=aarch64-unknown-linux-gnu ;;
        --postgres) driver=(-modfile=postgres.mod -tags spki_postgres) ;;
        *) echo "packages.sh: $1 is no option" >&2; exit 2 ;;
    esac
    shift
done
for word in "$@"; do
    if [[ $word == -h || $word == --help ]]; then
        sed -n '2,/^set /s/^# \?//p' "$0"
        exit
    elif [[ $word == -* || $# -gt 3 ]]; then
        echo "packages.sh: options are before FOLDER, and after it at most PROGRAM and LIBRARY: ./packages.sh --help" >&2
        exit 2
    fi
done
for tool in dpkg-deb go readelf; do
    command -v $tool > /dev/null || { echo "packages.sh: there is no $tool" >&2; exit 1; }
done
if [[ ! $maintainer =~ ^[^\<\>[:cntrl:]]+' <'[^\<\>@[:space:]]+@[^\<\>@[:space:]]+'>'$ ]]; then
    echo "packages.sh: who answers for the packages? Give --maintainer 'NAME <ADDRESS>', or set DEBFULLNAME and DEBEMAIL" >&2
    exit 2
fi
SOURCE_DATE_EPOCH=${SOURCE_DATE_EPOCH:-$(git -C "$here" log -1 --format=%ct)} ||
    { echo "packages.sh: $here is no clone: set SOURCE_DATE_EPOCH to the time of the sources, in seconds since 1970" >&2; exit 2; }
export SOURCE_DATE_EPOCH
target=$(realpath -m "${1:-.}")
program=${2:+$(realpath "$2")} library=${3:+$(realpath "$3")}
version=$(< "$here/VERSION")
architecture=$(dpkg --print-architecture)
# (the name of the package of the shared library)
shared=libspki-c${version%.*}
# The folder for what is made here: a folder for each package, and in `made` what goes to the target.
room=$(mktemp -d)
trap 'rm -rf "$room"' EXIT
mkdir "$room/made"

# libraries_of ARCHITECTURE: prints the folder of the libraries of a Debian architecture, below /usr. Fails for one that no library is made for.
libraries_of() {
    case $1 in
        amd64) echo lib/x86_64-linux-gnu ;;
        arm64) echo lib/aarch64-linux-gnu ;;
        *) echo "packages.sh: the library is not made for $1" >&2; return 1 ;;
    esac
}

# libc_of FILE: prints what the package of this program or shared library depends on: the C library, from the version on that it needs. Fails if
# anything else is linked.
libc_of() {
    local others newest
    others=$(readelf -dW "$1" | sed -n 's/.*(NEEDED).*\[\(.*\)\]/\1/p' | grep -vE '^(libc\.so\.6|libresolv\.so\.2|ld-linux.*)$' || true)
    [[ -z $others ]] || { echo "packages.sh: $1 is linked with ${others//$'\n'/, }" >&2; return 1; }
    newest=$(readelf -VW "$1" | grep -oE 'GLIBC_[0-9.]+' | sort -uV | tail -n 1 | cut -d _ -f 2)
    echo "libc6${newest:+ (>= $newest)}"
}

# strip_file TOOLS OPTION FILE: takes out of a program or a library what is only for debuggers. TOOLS is how the name of `strip` begins, such as
# aarch64-linux-gnu- or nothing, and OPTION is one of `strip`. The section .comment stays, which says by which logic the file was proved.
strip_file() {
    local tools=$1 option=$2 file=$3
    "${tools}strip" "$option" "$file"
}

# put MODE FILE PACKAGE PLACE: puts a file of this repository into the folder of a package.
put() {
    install -D -m "$1" "$here/$2" "$room/$3/$4"
}

# package NAME ARCHITECTURE SECTION FIELDS SHORT LONG: makes a package of the folder NAME in $room, in `made`. FIELDS are further lines of
# its control file, as Depends, SHORT is its description in one line, and LONG in more, of which all but the first begin with a space. Its size is
# counted as Debian counts: KiB of each file, rounded up, and 1 for each folder and link.
package() {
    local name=$1 architecture=$2 section=$3 fields=$4 short=$5 long=$6 folder=$room/$1 size
    install -d "$folder/DEBIAN" "$folder/usr/share/doc/$name"
    echo "No license is given yet: it is for the owner to choose." > "$folder/usr/share/doc/$name/copyright"
    gzip -9nc "$room/changelog" > "$folder/usr/share/doc/$name/changelog.gz"
    [[ ! -d $folder/usr/share/man ]] || find "$folder/usr/share/man" -type f -exec gzip -9n {} +
    size=$(find "$folder" -name DEBIAN -prune -o -printf '%y %s\n' | awk '{ sum += $1 == "f" ? int(($2 + 1023) / 1024) : 1 } END { print sum }')
    cat > "$folder/DEBIAN/control" << END
Package: $name
Source: spki
Version: $version
Architecture: $architecture
Maintainer: $maintainer
Installed-Size: $size
$fields
Section: $section
Priority: optional
Description: $short
 $long
END
    (cd "$folder" && find . -name DEBIAN -prune -o -type f -printf '%P\0' | sort -z | xargs -0 md5sum > DEBIAN/md5sums)
    find "$folder" -exec touch -h -d "@$SOURCE_DATE_EPOCH" {} +
    dpkg-deb --root-owner-group --threads-max=1 --build "$folder" "$room/made/${name}_${version}_$architecture.deb"
}

# package_library ARCHITECTURE STATIC TOOLS: makes the two packages of the library for an architecture, of the static library STATIC and of the shared
# one beside it. The headers and the files for pkg-config and CMake are those in $room/all, which were installed for the architecture of this machine.
# TOOLS is how the name of `strip` begins, as for `strip_file`.
package_library() {
    local architecture=$1 static=$2 tools=$3 own place depends
    own=$(libraries_of "$(dpkg --print-architecture)") place=usr/$(libraries_of "$1")
    rm -rf "${room:?}/$shared" "$room/libspki-dev"
    install -D -m 644 "${static%.a}.so" "$room/$shared/$place/libspki_c.so.${version%.*}"
    install -D -m 644 "$static" "$room/libspki-dev/$place/libspki_c.a"
    ln -s "libspki_c.so.${version%.*}" "$room/libspki-dev/$place/libspki_c.so"
    cp -R "$room/all/usr/include" "$room/libspki-dev/usr"
    cp -R "$room/all/usr/$own"/{cmake,pkgconfig} "$room/libspki-dev/$place"
    sed -i "s|^prefix=.*|prefix=/usr|; s|$own|${place#usr/}|g" "$room/libspki-dev/$place"/{cmake/spki,pkgconfig}/*
    strip_file "$tools" --strip-unneeded "$room/$shared/$place/libspki_c.so.${version%.*}"
    strip_file "$tools" --strip-debug "$room/libspki-dev/$place/libspki_c.a"
    install -d "$room/$shared/DEBIAN"
    echo "activate-noawait ldconfig" > "$room/$shared/DEBIAN/triggers"
    echo "libspki_c ${version%.*} $shared (>= ${version%.*})" > "$room/$shared/DEBIAN/shlibs"
    depends=$(libc_of "$room/$shared/$place/libspki_c.so.${version%.*}")
    package "$shared" "$architecture" libs "Multi-Arch: same
Depends: $depends" "decide requests by access lists and certificates, shared library" \
        "The library answers what the program spki answers, from memory to memory, by
 the rules of RFC 2693. Programs that are linked with it need this package."
    package libspki-dev "$architecture" libdevel "Multi-Arch: same
Depends: $shared (= $version), libc6-dev" "decide requests by access lists and certificates, from C and C++" \
        "The headers, the static library and what pkg-config and CMake read. A program
 that is linked with the static library needs no other package where it runs."
}

# build_daemon LIBRARY PROGRAM: builds the daemon as PROGRAM over a static library, both absolute paths. No path of this machine gets into it. (The
# hash in the flags is there so that Go builds anew for another library.)
build_daemon() {
    local flags
    flags="-g -O2 -DSPKI_OF_LIBRARY_$(sha256sum < "$1" | cut -c 1-64)"
    (cd "$here/apps/spki-authd" && GOFLAGS=-mod=mod GOPROXY=off GOENV=off GOWORK=off GOTOOLCHAIN=local CGO_ENABLED=1 CGO_CFLAGS=$flags \
        CGO_LDFLAGS="'-L$(dirname "$1")'" go build "${driver[@]}" -trimpath -buildvcs=false -buildmode=pie \
        -ldflags '-s -w -buildid= -linkmode=external -extldflags "-Wl,-z,relro -Wl,-z,now"' -o "$2" .)
}

# place_in_doc FILE: prints the place of a page or an example below the daemon's folder of documents.
place_in_doc() {
    local place=${1#apps/spki-authd/}
    echo "${place#docs/}"
}

# Builds the daemon over $library, and makes its package: the program, its units, its pages and examples, and its scripts. What only runs an example
# on loopback, scripts and loopback.conf, is left out.
package_daemon() {
    local units=() unit page depends
    install -d "$room/spki-authd/usr/bin" "$room/spki-authd/lib/systemd/system" "$room/spki-authd/DEBIAN"
    build_daemon "$library" "$room/spki-authd/usr/bin/spki-authd"
    for unit in "$here"/apps/spki-authd/*.{service,socket}; do
        [[ -e $unit ]] || continue
        units+=("${unit##*/}")
        sed 's|/usr/local/bin/|/usr/bin/|g' "$unit" > "$room/spki-authd/lib/systemd/system/${unit##*/}"
    done
    for page in apps/spki-authd/{,servers/}*.md docs/OPERATING.md examples/{nginx,caddy,haproxy,apache}/*; do
        [[ ! -e $page || $page == *.sh || $page == */loopback.conf ]] || put 644 "$page" spki-authd "usr/share/doc/spki-authd/$(place_in_doc "$page")"
    done
    # (the command of the README that builds a daemon keeps its path)
    sed -i 's|/usr/local/bin/spki-authd -|/usr/bin/spki-authd -|' "$room/spki-authd/usr/share/doc/spki-authd"/*.md
    put 644 docs/spki-authd.8 spki-authd usr/share/man/man8/spki-authd.8
    install -d "$room/spki-authd/etc/spki-authd"
    for script in postinst prerm postrm; do
        sed "s|@UNITS@|${units[*]}|" "$here/packaging/spki-authd.$script" > "$room/spki-authd/DEBIAN/$script"
        chmod 755 "$room/spki-authd/DEBIAN/$script"
    done
    depends=$(libc_of "$room/spki-authd/usr/bin/spki-authd")
    package spki-authd "$architecture" httpd "Depends: $depends, adduser, init-system-helpers (>= 1.54~)
Recommends: spki-cert
Suggests: nginx | caddy | haproxy | apache2" "decide requests to a web server by access lists and certificates" \
        "A daemon that says, before each request to nginx, Caddy, HAProxy, Apache, Envoy
 or Traefik, whether the key of the client's TLS certificate may do it, by the
 rules of RFC 2693. It is not started before it is configured."
}

cd "$here"
"$here/packaging/describe.py" changelog "$maintainer" > "$room/changelog"
LIBDIR=$(libraries_of "$architecture") "$here/install.sh" "$room/all/usr" ${program:+"$program"} ${library:+"$library"}
library=${library:-$here/crates/spki_c/out/libspki_c.a}
install -d "$room"/{spki,spki-cert}/usr/{bin,share/man/man1} "$room/spki-cert/DEBIAN"
for name in spki spki-cert; do
    mv "$room/all/usr/bin/$name" "$room/$name/usr/bin"
    mv "$room/all/usr/share/man/man1/$name.1" "$room/$name/usr/share/man/man1"
done
mv "$room/all/usr/share/spki-cert" "$room/spki-cert/usr/share"
# (the installed command looks into the folder of this architecture's libraries, and the package is for all)
put 755 apps/spki-cert/spki-cert spki-cert usr/bin/spki-cert
strip_file "" --strip-all "$room/spki/usr/bin/spki"
depends=$(libc_of "$room/spki/usr/bin/spki")
package spki "$architecture" utils "Depends: $depends" "decide requests by access lists and certificates (SPKI)" \
    "The program reads one question, in nested lists, and answers yes or no by the
 rules of RFC 2693. That it does so is proved."
package_library "$architecture" "$library" ""
if [[ $arm ]]; then
    [[ ${3:-} ]] || "$here/crates/spki_c/archive.py" --target "$arm"
    package_library arm64 "${library%/*}/$arm/libspki_c.a" aarch64-linux-gnu-
fi
for script in postinst prerm; do
    put 755 "packaging/spki-cert.$script" spki-cert "DEBIAN/$script"
done
package spki-cert all utils "Depends: python3 (>= 3.10), python3-cryptography
Recommends: $shared, python3-bcrypt" "make, sign, show, explain and end certificates (SPKI)" \
    "The command spki-cert makes certificates with the keys of OpenSSH and PEM, and
 says why a request is granted or not, for which it needs the shared library."
package_daemon
"$here/packaging/describe.py" contents "$maintainer" "$room"/made/*.deb > "$room/made/spki_$version.spdx.json"
(cd "$room/made" && sha256sum -- * > ../SHA256SUMS)
mkdir -p "$target"
install -m 644 "$room"/made/* "$room/SHA256SUMS" "$target"
