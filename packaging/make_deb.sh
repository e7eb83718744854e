#!/usr/bin/env bash
# Builds the Debian packages of a program and a library that are built: packaging/make_deb.sh PROGRAM LIBRARY FOLDER [ARM64]
#
# LIBRARY is the folder that `make lib` fills, ARM64 that of `make lib ARCH=arm64`. FOLDER gets, of what the install targets of the
# Makefile install: rds, librds0, librds0-dbgsym, librds-dev, python3-librds and rds-monitor, and with ARM64 the three of the library
# for arm64 too. The names are printed, a line each. The version is the program's own; the date is SOURCE_DATE_EPOCH, or else that
# of the last commit, so that the same tree, program and library make the same packages.
# Needs dpkg-dev, strip and make; python3-argparse-manpage and python3-shtab; for arm64 Debian's binutils-aarch64-linux-gnu.
set -euo pipefail
export LC_ALL=C
umask 022

complain() {
  echo "make_deb: $1" >&2
  exit 1
}

[[ $# == 3 || $# == 4 ]] || { echo 'usage: packaging/make_deb.sh PROGRAM LIBRARY FOLDER [ARM64]' >&2; exit 2; }
[[ -f $1 && -x $1 ]] || complain "$1 is no program"
for it in "$2" "${@:4}"; do [[ -f $it/librds.so.0 && -f $it/librds.a ]] || complain "there is no library in $it"; done
[[ -d $3 ]] || complain "there is no folder $3"
for tool in dpkg dpkg-architecture dpkg-deb dpkg-shlibdeps strip objcopy gzip make; do
  command -v "$tool" >/dev/null || complain "there is no $tool here"
done
program=$(realpath "$1")
library=$(realpath "$2")
folder=$(realpath "$3")
for_arm64=${4:+$(realpath "$4")}
cd "$(dirname "$0")/.."

maintainer='Paxolidu maintainers <maintainers@users.noreply.paxolidu.example>'
version=$("$program" --version) && version=${version#rds }-1
SOURCE_DATE_EPOCH=${SOURCE_DATE_EPOCH:-$(git log -1 --format=%ct 2>/dev/null || date +%s)}
# dpkg-deb takes the times of the files from it, too
export SOURCE_DATE_EPOCH
work=$(mktemp -d)
trap 'rm -rf "$work"' EXIT

# installed TARGET NAME VARIABLE..: the Makefile's target into the folder of a package, by paths without blanks
installed() { env -u MAKEFLAGS -u MAKELEVEL make -s "$1" DESTDIR="$work/$2" PREFIX=/usr "${@:3}"; }

# needed FILE..: what these files need, as dpkg-shlibdeps names it
needed() {
  mkdir -p "$work/debian"
  printf 'Source: rds\n\nPackage: rds\nArchitecture: any\n' > "$work/debian/control"
  (cd "$work" && dpkg-shlibdeps -O "$@" 2>/dev/null) | sed -n 's/^shlibs:Depends=//p'
}

# documents NAME FILE..: what each package has below share/doc
documents() {
  local doc=$work/$1/usr/share/doc/$1
  install -D -m 644 -t "$doc" packaging/copyright "${@:2}"
  gzip -9n < CHANGELOG.md > "$doc/changelog.gz"
  gzip -9n > "$doc/changelog.Debian.gz" <<ENTRY
rds ($version) unstable; urgency=medium

  * See changelog.gz.

 -- $maintainer  $(date -u -R -d "@$SOURCE_DATE_EPOCH")
ENTRY
}

# size FOLDER: in KiB, as dpkg-gencontrol counts it: each file and link by itself, and 1 for a folder, whose size is the file system's
size() { find "$1" -printf '%y %s\n' | awk '{sum += $1 == "d" ? 1 : int(($2 + 1023) / 1024)} END {print sum}'; }

# package NAME ARCHITECTURE SECTION FIELDS DESCRIPTION: builds it of its folder, and prints its name
package() {
  local root=$work/$1 file=$folder/$1_${version}_$2.deb
  install -d "$root/DEBIAN"
  { printf 'Package: %s\nSource: rds\nVersion: %s\nSection: %s\nPriority: optional\nArchitecture: %s\n' "$1" "$version" "$3" "$2"
    printf 'Maintainer: %s\nInstalled-Size: %s\n' "$maintainer" "$(size "$root/usr")"
    printf '%s\nDescription: %s\n' "$4" "$5"; } > "$root/DEBIAN/control"
  (cd "$root" && find usr -type f -exec md5sum {} + | sort) > "$root/DEBIAN/md5sums"
  find "$root" -exec touch -h -d "@$SOURCE_DATE_EPOCH" {} +
  dpkg-deb --root-owner-group -Zxz --build "$root" "$file" >/dev/null
  rm -rf "$root"
  echo "$file"
}

about='Radio Data System (RDS, IEC 62106) recordings'

# ---- the library: library ARCHITECTURE FOLDER TRIPLET TOOLS

library() {
  local lib=$work/lib name=librds0 libdir=/usr/lib/$3 id
  rm -rf "$lib" && mkdir "$lib"
  "$4"strip --strip-unneeded -o "$lib/librds.so.0" "$2/librds.so.0"
  "$4"strip --strip-debug --enable-deterministic-archives -o "$lib/librds.a" "$2/librds.a"
  installed install-lib librds-dev LIBRARY="$lib" LIBDIR="$libdir" PAGES_NEEDED=1
  install -d "$work/$name$libdir"
  mv "$work/librds-dev$libdir/librds.so.0" "$work/$name$libdir/"
  # as Debian has libraries
  chmod 644 "$work/$name$libdir/librds.so.0"

  id=$("$4"readelf -n "$2/librds.so.0" | sed -n 's/^ *Build ID: //p')
  install -d "$work/$name-dbgsym/usr/lib/debug/.build-id/${id:0:2}"
  "$4"objcopy --only-keep-debug "$2/librds.so.0" "$work/$name-dbgsym/usr/lib/debug/.build-id/${id:0:2}/${id:2}.debug"
  chmod 644 "$work/$name-dbgsym/usr/lib/debug/.build-id/${id:0:2}/${id:2}.debug"
  mkdir -p "$work/$name-dbgsym/usr/share/doc"
  ln -s "$name" "$work/$name-dbgsym/usr/share/doc/$name-dbgsym"
  package "$name-dbgsym" "$1" debug "Depends: $name (= $version)
Build-Ids: $id" "debug symbols for librds0"

  documents "$name"
  install -d "$work/$name/DEBIAN"
  # each name needs the version that first had it; a program built against another name than these needs this version
  { echo "librds.so.0 $name #MINVER#"
    sed -n 's/^RDS_\([0-9.]*\) {/\1/p; s/^ *\(rds_[a-z_]*\);/ \1/p' lib/rds.map |
      awk '/^[0-9]/ {node = $1; print " RDS_" node "@RDS_" node " " node; next} {print " " $1 "@RDS_" node " " node}'; } \
    > "$work/$name/DEBIAN/symbols"
  echo "librds 0 $name (>= ${version%-*})" > "$work/$name/DEBIAN/shlibs"
  echo 'activate-noawait ldconfig' > "$work/$name/DEBIAN/triggers"
  package "$name" "$1" libs "Multi-Arch: same
Depends: libc6 (>= 2.14)" "decoder of $about, shared library
 Decodes demodulated RDS bits into sync acquisitions, groups with their
 corrected and uncorrectable blocks, and sync losses. It encodes groups, too.
 The decoder's code is proved to meet its definitions."

  documents librds-dev docs/LIBRARY.md
  install -D -m 644 -t "$work/librds-dev/usr/share/doc/librds-dev/examples" bindings/c/*.c
  gzip -9n "$work"/librds-dev/usr/share/man/man3/*.3
  package librds-dev "$1" libdevel "Multi-Arch: same
Depends: $name (= $version)" "decoder of $about, development files
 The header, the static library, manual pages, examples, and the files for
 pkg-config and CMake, for programs in C and C++."
}

triplet() { dpkg-architecture -a"$1" -qDEB_HOST_MULTIARCH 2>/dev/null; }
library amd64 "$library" "$(triplet amd64)" ''
[[ -z $for_arm64 ]] || library arm64 "$for_arm64" "$(triplet arm64)" aarch64-linux-gnu-

# ---- Python

installed install-python python3-librds PYTHON_DIR=/usr/lib/python3/dist-packages
documents python3-librds
package python3-librds all python "Depends: python3 (>= 3.9), librds0 (>= $version)
Recommends: python3-numpy" "decoder of $about, Python module
 The module librds decodes recordings and live streams of RDS bits, into
 Python values or numpy arrays."

installed install-monitor rds-monitor ZSH_COMPLETIONS=/usr/share/zsh/vendor-completions PYTHON_TOO= PAGES_NEEDED=1
gzip -9n "$work"/rds-monitor/usr/share/man/man1/*.1
documents rds-monitor
# The service is off until it is enabled.
install -D -m 644 -t "$work/rds-monitor/usr/lib/systemd/system" packaging/rds-monitor-watch.service
install -D -m 644 packaging/rds-monitor.sysusers "$work/rds-monitor/usr/lib/sysusers.d/rds-monitor.conf"
install -D -m 644 -t "$work/rds-monitor/usr/share/doc/rds-monitor/examples" packaging/stations.toml packaging/alerts.yml
gzip -9n < monitor/WATCHING.md > "$work/rds-monitor/usr/share/doc/rds-monitor/WATCHING.md.gz"
for it in postinst prerm; do install -D -m 755 "packaging/rds-monitor.$it" "$work/rds-monitor/DEBIAN/$it"; done
package rds-monitor all hamradio "Depends: python3 (>= 3.9), python3-numpy, python3-librds (= $version) | rds (= $version)
Recommends: rds, libjs-d3, python3-jinja2
Suggests: parallel, python3-pandas, python3-pyfftw, python3-scipy, python3-soundfile, python3-tomli, python3-zstandard, rtl-sdr" "tables, databases and alarms from $about
 Says what a station sent and how well it was received: block errors,
 outages, contents, SQLite, JSON, a check for monitoring systems. It turns an
 FM multiplex or IQ samples into RDS bits."

# ---- the program

mkdir "$work/bin"
strip -o "$work/bin/rds" "$program"
installed install-program rds PROGRAM="$work/bin/rds" ZSH_COMPLETIONS=/usr/share/zsh/vendor-completions
gzip -9n "$work/rds/usr/share/man/man1/rds.1"
documents rds README.md
install -D -m 644 -t "$work/rds/usr/share/doc/rds/docs" docs/{FORMATS,USING,RECIPES,TROUBLES}.md \
  docs/{LIBRARY,ACCURACY,COMPARISON,PERFORMANCE,GLOSSARY}.md
package rds amd64 hamradio "Depends: $(needed "$program")
Recommends: rds-monitor" "decoder of $about
 Decodes demodulated RDS bits into a listing: sync acquisitions, groups with
 their corrected and uncorrectable blocks, sync losses and totals, from files
 or live. It encodes groups, too.
 .
 The program needs a processor with SSE4.2 and POPCNT (x86-64-v2)."
