#!/usr/bin/env bash
# Builds the proved program and the libraries for C programs, and installs them under a prefix, with the headers of the libraries for C and
# C++, the files for pkg-config and CMake, the manual pages and `spki-cert`, the command for those who hold keys. Needs the toolchain's `rt` in
# the path and a C compiler, unless PROGRAM and LIBRARY are given. If the loader looks into the folder of the libraries, it is told of them by
# ldconfig, which only root may run; otherwise the last line says what to do.
# --uninstall removes the files that this version installs, and leaves the folders, but for those of compiled modules.
# LIBDIR is the folder of the libraries below the prefix, if it is not `lib`, such as lib/x86_64-linux-gnu.
# Each file is whole when it is put in its place. Interrupted, this script leaves old files and new ones, and perhaps one whose name ends in .new.
# Usage: ./install.sh [PREFIX [PROGRAM [LIBRARY]]]        the default prefix is /usr/local; libspki_c.so is beside the LIBRARY
#        ./install.sh --uninstall [PREFIX]
#        ./install.sh --help
set -euo pipefail
uninstalls= most=3
if [[ ${1:-} == --uninstall ]]; then
    uninstalls=yes most=1
    shift
fi
# (all words are tested before anything is built)
for word in "$@"; do
    if [[ $word == -h || $word == --help ]]; then
        sed -n '2,/^set /s/^# \?//p' "$0"
        exit
    elif [[ $word == -* || $# -gt $most ]]; then
        echo "usage: ./install.sh [PREFIX [PROGRAM [LIBRARY]]], ./install.sh --uninstall [PREFIX] or ./install.sh --help" >&2
        exit 2
    fi
done
prefix=$(realpath -m "${1:-/usr/local}")
program=${2:+$(realpath "$2")}
library=${3:+$(realpath "$3")}
cd "$(dirname "$0")"
version=$(< VERSION)
soname=libspki_c.so.${version%.*}
# (this folder and the next one are below the prefix)
libraries=$(realpath -ms --relative-to=/ "/${LIBDIR:-lib}")
cmake=$libraries/cmake/spki
# The modules of spki-cert, and those that it shares with services in Python.
modules=(apps/spki-cert/spki_cert_tool/{*.py,py.typed} bindings/python/spki{,_http,_verify}/{*.py,py.typed})

# module_place MODULE: prints the place of a module of spki-cert under the prefix, for its path in this repository: the packages are put beside one
# another, without the folders apps/spki-cert and bindings/python.
module_place() {
    local path=${1#apps/spki-cert/}
    echo "share/spki-cert/${path#bindings/python/}"
}

# Tells the loader of the libraries, if it looks into their folder and this is root. Otherwise says how a program finds the shared one. (awk reads all
# lines: if it ended at the one that is looked for, ldconfig would fail.)
tell_loader() {
    local path=$PATH:/sbin:/usr/sbin
    if ! PATH=$path ldconfig -v -N -X 2> /dev/null |
            awk -v line="$prefix/$libraries:" 'index($0, line) == 1 { is_there = 1 } END { exit !is_there }'; then
        echo "the loader does not look into $prefix/$libraries: name the folder in /etc/ld.so.conf.d/ or in LD_LIBRARY_PATH, or link with libspki_c.a"
    elif [[ $EUID == 0 ]]; then
        PATH=$path ldconfig
        echo "the loader knows $prefix/$libraries/$soname"
    else
        echo "the loader does not know $prefix/$libraries/$soname yet: run ldconfig as root"
    fi
}

if [[ $uninstalls ]]; then
    places=(bin/spki "$libraries/libspki_c.a" "$libraries/$soname" "$libraries/libspki_c.so" "$libraries/pkgconfig/spki.pc"
        "$cmake"/spki-config{,-version}.cmake
        include/spki.{h,hpp} share/man/man1/spki.1
        bin/spki-cert share/man/man1/spki-cert.1)
    for module in "${modules[@]}"; do
        places+=("$(module_place "$module")")
    done
    for place in "${places[@]}"; do
        if [[ -e $prefix/$place || -L $prefix/$place ]]; then
            rm -f "$prefix/$place"
            echo "removed $prefix/$place"
        fi
    done
    rm -rf "$prefix"/share/spki-cert/{,spki_cert_tool,spki,spki_http,spki_verify}/__pycache__
    exit
fi

# put MODE FILE PLACE: puts a file at a place under the prefix, at once, and says so.
put() {
    install -D -m "$1" "$2" "$prefix/$3.new"
    mv -fT "$prefix/$3.new" "$prefix/$3"
    echo "installed $prefix/$3"
}

(umask 022 && mkdir -p "$prefix") 2> /dev/null && [[ -w $prefix ]] ||
    { echo "install.sh: $prefix cannot be written: name another PREFIX, or run it as root" >&2; exit 1; }
if [[ -z $program ]]; then
    command -v rt > /dev/null || { echo "rt is not in the path: it builds the program" >&2; exit 1; }
    (cd crates/spki && rt run -- check < ../../examples/delegation.sexp)
    program=crates/spki/out/spki
fi
if [[ -z $library ]]; then
    crates/spki_c/archive.py
    library=crates/spki_c/out/libspki_c.a
fi
# (before the first file is installed, so that no new one is beside an old one)
for file in "$program" "$library" "${library%.a}.so"; do
    [[ -f $file ]] || { echo "install.sh: there is no $file" >&2; exit 1; }
done
put 755 "$program" bin/spki
put 644 "$library" "$libraries/libspki_c.a"
put 644 "${library%.a}.so" "$libraries/$soname"
ln -sfn "$soname" "$prefix/$libraries/libspki_c.so"
echo "installed $prefix/$libraries/libspki_c.so"
put 644 <(cat << END
prefix=${prefix// /\\ }
libdir=\${prefix}/$libraries
includedir=\${prefix}/include

Name: spki
Description: a proved checker of requests by access lists and certificates (SPKI, RFC 2693)
Version: $version
Libs: -L\${libdir} -lspki_c
Cflags: -I\${includedir}
END
) "$libraries/pkgconfig/spki.pc"
put 644 crates/spki_c/spki.h include/spki.h
put 644 crates/spki_c/spki.hpp include/spki.hpp
put 644 <(cat << END
# The targets spki::spki, the shared library, and spki::static, the static one.
# (/lib may be a link to /usr/lib, so the links are followed first)
get_filename_component(spki_here "\${CMAKE_CURRENT_LIST_DIR}" REALPATH)
get_filename_component(spki_prefix "\${spki_here}/$(sed 's#[^/]*#..#g' <<< "$cmake")" ABSOLUTE)
if(NOT TARGET spki::spki)
  add_library(spki::spki SHARED IMPORTED)
  set_target_properties(spki::spki PROPERTIES IMPORTED_LOCATION "\${spki_prefix}/$libraries/$soname" IMPORTED_SONAME "$soname"
                        INTERFACE_INCLUDE_DIRECTORIES "\${spki_prefix}/include")
  add_library(spki::static STATIC IMPORTED)
  set_target_properties(spki::static PROPERTIES IMPORTED_LOCATION "\${spki_prefix}/$libraries/libspki_c.a"
                        INTERFACE_INCLUDE_DIRECTORIES "\${spki_prefix}/include")
endif()
END
) "$cmake/spki-config.cmake"
put 644 <(cat << END
# A version with the same first two numbers, and not an older one, will do.
set(PACKAGE_VERSION $version)
if(PACKAGE_FIND_VERSION VERSION_LESS_EQUAL PACKAGE_VERSION AND PACKAGE_FIND_VERSION VERSION_GREATER_EQUAL ${version%.*})
  set(PACKAGE_VERSION_COMPATIBLE TRUE)
endif()
if(PACKAGE_FIND_VERSION VERSION_EQUAL PACKAGE_VERSION)
  set(PACKAGE_VERSION_EXACT TRUE)
endif()
END
) "$cmake/spki-config-version.cmake"
put 644 docs/spki.1 share/man/man1/spki.1
put 644 docs/spki-cert.1 share/man/man1/spki-cert.1
# (the command looks for the library in lib, unless LIBDIR says otherwise)
put 755 <(sed "s|\"lib\" if IS_INSTALLED|\"$libraries\" if IS_INSTALLED|" apps/spki-cert/spki-cert) bin/spki-cert
for module in "${modules[@]}"; do
    put 644 "$module" "$(module_place "$module")"
done
tell_loader
