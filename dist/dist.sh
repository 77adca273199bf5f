#!/usr/bin/env bash
# dist.sh [OUT]: makes of the programs swsd and sws, as the gate has built them, a tarball and a Debian package with the systemd unit and
# its settings, the script swsd-run, the recipes for TLS and for several machines, and the pages on both programs, in OUT (dist/out).
# SHA256SUMS there has the checksums of both, and PROVED in both the line of the kit with which all was proved, the commit, and the
# checksum of each program.
#
#     rt ci swsd sws_main      builds the programs, where they aren't there
#     dist/dist.sh
#
# The same programs, commit and kit give the same bytes, whoever makes them and when: all times are that of the commit, or
# SOURCE_DATE_EPOCH where that is set. bench/package.py tries both, and looks whether the bytes are the same.
set -eu
umask 022
export LC_ALL=C
top=$(cd "$(dirname "$(readlink -f "${BASH_SOURCE[0]}")")/.." && pwd)
out=${1:-$top/dist/out}
version=1.0
maintainer='the SWS project <sws@users.noreply.zonqeri.example>'
declare -A built=([swsd]=$top/crates/swsd/out/swsd [sws]=$top/crates/sws_main/out/sws_main)
export SOURCE_DATE_EPOCH=${SOURCE_DATE_EPOCH:-$(git -C "$top" log -1 --format=%ct 2>/dev/null || echo 0)}

for name in "${!built[@]}"; do
    if [ ! -x "${built[$name]}" ]; then
        printf 'dist: %s is not there. Build it: rt ci swsd sws_main\n' "${built[$name]}" >&2
        exit 1
    fi
done
room=$(mktemp -d)
trap 'rm -rf "$room"' EXIT

# A copy of the file, with nothing of its times and rights.
copy() {
    local rights=$1 from=$2 to=$3
    mkdir -p "$(dirname "$to")"
    install -m "$rights" "$from" "$to"
}

# The files below a folder that both have, as they lie on a machine.
put_files() {
    local root=$1 name doc=$1/usr/share/doc/swsd
    for name in swsd sws; do
        copy 755 "${built[$name]}" "$root/usr/bin/$name"
    done
    copy 755 "$top/dist/swsd-run" "$root/usr/bin/swsd-run"
    copy 644 "$top/dist/swsd.service" "$root/lib/systemd/system/swsd.service"
    copy 644 "$top/dist/swsd.default" "$root/etc/default/swsd"
    copy 644 "$top/dist/index.html" "$root/usr/share/swsd/index.html"
    for name in "$top"/docs/SWSD.md "$top"/docs/SWS.md; do
        copy 644 "$name" "$doc/${name##*/}"
    done
    for name in "$top"/dist/tls/* "$top"/dist/several/*; do
        copy 644 "$name" "$doc/${name#"$top"/dist/}"
    done
    {
        printf 'proved with: %s\n' "$(rt version 2>/dev/null || echo 'a kit that is not here')"
        printf 'commit: %s\n' "$(git -C "$top" rev-parse HEAD 2>/dev/null || echo unknown)"
        (cd "$root/usr/bin" && sha256sum sws swsd swsd-run)
    } >"$doc/PROVED"
}

# Sets all times below a folder to the one of the package.
settle() {
    find "$1" -exec touch -hd "@$SOURCE_DATE_EPOCH" {} +
}

# The tarball has all in one folder, with the programs at its top.
make_tarball() {
    local root=$1 to=$2 flat=$room/swsd-$version
    mkdir "$flat"
    cp -r "$root"/usr/bin/* "$root/lib/systemd/system/swsd.service" "$root"/usr/share/doc/swsd/* "$flat/"
    cp "$root/etc/default/swsd" "$flat/swsd.default"
    settle "$flat"
    tar -C "$room" --sort=name --format=gnu --numeric-owner --owner=0 --group=0 -c "swsd-$version" | gzip -9n >"$to"
}

# What a package has beside: its copyright, its changes, and what lintian is to know of it.
put_words() {
    local doc=$1/usr/share/doc/swsd
    copy 644 "$top/dist/debian/copyright" "$doc/copyright"
    copy 644 "$top/dist/debian/lintian-overrides" "$1/usr/share/lintian/overrides/swsd"
    printf 'swsd (%s) stable; urgency=medium\n\n  * As of the commit that PROVED names.\n\n -- %s  %s\n' \
        "$version" "$maintainer" "$(date -u -R -d "@$SOURCE_DATE_EPOCH")" | gzip -9n >"$doc/changelog.gz"
}

# A page of the manual, of lines that stand for themselves: manual ROOT NAME WHAT <TEXT
manual() {
    mkdir -p "$1/usr/share/man/man1"
    {
        printf '.TH %s 1 "" "%s %s"\n.SH NAME\n%s \\- %s\n.SH DESCRIPTION\n.nf\n' "${2^^}" "$2" "$version" "$2" "$3"
        sed "s/\\\\/\\\\e/g; s/-/\\\\-/g; s/^[.']/\\\\\&&/"
        printf '.fi\n.SH FILES\n/usr/share/doc/swsd/SWSD.md, /usr/share/doc/swsd/SWS.md\n'
    } | gzip -9n >"$1/usr/share/man/man1/$2.1.gz"
}

# The pages of the three programs: their help, and the head of the script.
put_manual() {
    manual "$1" swsd 'serves a folder by HTTP until it is told to stop' <"$top/scripts/swsd.txt"
    (. "$top/scripts/words.sh" && sws_usage) | manual "$1" sws 'one run of a static web server, to be looked at closely'
    sed -n 's/^# //p; /^set /q' "$top/dist/swsd-run" | manual "$1" swsd-run 'runs swsd, and stops it when it gets a signal'
}

# The oldest C library that has what the programs take from it.
libc_of() {
    (cd "$1/usr/bin" && objdump -T swsd sws 2>/dev/null) | grep -oE 'GLIBC_2\.[0-9]+' | sort -t. -k2 -n | tail -1 | cut -d_ -f2
}

# What dpkg is to know: the package itself, its settings (which it keeps where they were changed), and the sums of its files.
put_control() {
    local root=$1 libc size
    libc=$(libc_of "$root")
    # In KiB, each file and folder for itself, whatever the disk takes for it.
    size=$(find "$root" -path "$root/DEBIAN" -prune -o \( -type f -printf '%s\n' -o -printf '1\n' \) | awk '{ n += int(($1 + 1023) / 1024) } END { print n }')
    mkdir -p "$root/DEBIAN"
    install -m 755 "$top"/dist/debian/{postinst,prerm,postrm} "$root/DEBIAN/"
    echo /etc/default/swsd >"$root/DEBIAN/conffiles"
    (cd "$root" && find usr lib -type f | sort | xargs md5sum) >"$root/DEBIAN/md5sums"
    cat >"$root/DEBIAN/control" <<CONTROL
Package: swsd
Version: $version
Architecture: $(dpkg --print-architecture)
Section: httpd
Priority: optional
Depends: libc6${libc:+ (>= $libc)}
Maintainer: $maintainer
Installed-Size: $size
Description: proved static web server that stays up
 swsd serves the files below a folder by HTTP, from memory, until it is
 told to stop. What it sends out of them is proved. sws is the same server
 for so many connections, with its other commands.
CONTROL
    chmod 644 "$root"/DEBIAN/{conffiles,md5sums,control}
}

mkdir -p "$out"
root=$room/root
put_files "$root"
tarball=swsd-$version-$(uname -m).tar.gz
make_tarball "$root" "$out/$tarball"
made=("$tarball")
if command -v dpkg-deb >/dev/null; then
    put_words "$root"
    put_manual "$root"
    put_control "$root"
    settle "$root"
    package=swsd_${version}_$(dpkg --print-architecture).deb
    # One thread, as the bytes of xz differ by whether there are more.
    DPKG_DEB_THREADS_MAX=1 dpkg-deb --root-owner-group -Zxz --build "$root" "$out/$package" >/dev/null
    made+=("$package")
else
    printf 'dist: no dpkg-deb here, so no package was made\n' >&2
fi
(cd "$out" && sha256sum "${made[@]}" >SHA256SUMS && cat SHA256SUMS)
