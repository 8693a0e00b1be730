#!/bin/sh
# Makes a Debian package of the program.
#
#     packaging/deb.sh [FOLDER]     (where the package goes; the present folder when left out)
#
# It has the program, its manual page and completions, a systemd unit, documents, examples, the licences, and a file BUILD with
# checksums and the line of `rt version`. PROGRAM names a program that was built before; else it is proved and built.
set -eu
top=$(cd "$(dirname "$0")/.." && pwd)
here=$top/packaging
to=${1:-.}
work=$(mktemp -d)
trap 'rm -rf "$work"' EXIT
. "$top/bench/build.sh"
club_program

said=$("$program" version)
version=$(printf '%s\n' "$said" | sed -n 's/^bridge_club \([0-9][0-9.]*\),.*/\1/p')
[ -n "$version" ] && printf '%s\n' "$said" | grep -qF "$(rt version)" || {
    echo "the program says another version or another kit than it was proved with: $said" >&2
    exit 1
}
tree=$work/bridge-club_${version}_amd64
docs=$tree/usr/share/doc/bridge-club
install -D "$program" "$tree/usr/bin/bridge_club"
strip --strip-unneeded "$tree/usr/bin/bridge_club"
usage() { # KIND, FILE: what usage.py prints
    mkdir -p "$(dirname "$tree/$2")"
    python3 "$here/usage.py" "$program" "$1" > "$tree/$2"
}
usage manual usr/share/man/man1/bridge_club.1
gzip -9n "$tree/usr/share/man/man1/bridge_club.1"
usage bash usr/share/bash-completion/completions/bridge_club
usage zsh usr/share/zsh/vendor-completions/_bridge_club
usage fish usr/share/fish/vendor_completions.d/bridge_club.fish
install -D -m 644 "$here/bridge-club.service" "$tree/lib/systemd/system/bridge-club.service"
install -D -m 644 "$here/bridge-club.default" "$tree/etc/default/bridge-club"
for document in README.md docs/CLUB.md docs/NETWORK.md docs/FORMATS.md docs/DISK.md docs/RULES.md docs/PROMISES.md; do
    install -D -m 644 "$top/$document" "$docs/$(basename "$document")"
done
for example in evening.txt mitchell.txt howell_3_tables.txt howell_4_tables.txt howell_5_tables.txt howell_6_tables.txt; do
    install -D -m 644 "$top/examples/$example" "$docs/examples/$example"
done
sed -n '/^```nginx$/,/^```$/p' "$top/docs/NETWORK.md" | sed '/^```/d' > "$docs/examples/nginx.conf"
[ -s "$docs/examples/nginx.conf" ]
{
    printf 'Format: https://www.debian.org/doc/packaging-manuals/copyright-format/1.0/\n\nFiles: *\nCopyright: the authors of bridge_club\n'
    printf 'License: Apache-2.0 or Expat\n\nLicense: Apache-2.0\n On Debian systems the text stands in /usr/share/common-licenses/Apache-2.0.\n\nLicense: Expat\n'
    sed -e 's/^$/./' -e 's/^/ /' "$top/LICENSE-MIT"
} > "$docs/copyright"
date=$(git -C "$top" log -1 --format=%aD 2> /dev/null || date -R)
maintainer='Bridge Club Server <server@bridge-club.org>'
{
    printf 'bridge-club (%s) unstable; urgency=medium\n\n' "$version"
    sed -n "/^## $version/,/^## /p" "$top/CHANGELOG.md" | sed -n 's/^- //p' | while read -r change; do printf '%s\n' "$change" | fold -s -w 74 | sed -e '1s/^/  * /' -e '2,$s/^/    /' -e 's/ *$//'; done
    printf '\n -- %s  %s\n' "$maintainer" "$date"
} > "$docs/changelog"
gzip -9n "$docs/changelog"
{
    printf 'version %s\nproved with %s\n' "$version" "$(rt version)"
    (cd "$tree" && sha256sum usr/bin/bridge_club)
} > "$docs/BUILD"

mkdir "$tree/DEBIAN"
cat > "$tree/DEBIAN/control" << END
Package: bridge-club
Version: $version
Architecture: amd64
Maintainer: $maintainer
Depends: adduser, libc6 (>= 2.34)
Section: misc
Priority: optional
Installed-Size: $(du -sk "$tree" | cut -f 1)
Description: server of a duplicate bridge pairs session
 Players bid and play in a browser; the server takes exactly the calls and
 cards that the Laws of Duplicate Bridge 2017 make regular, compares the
 scores and prints rankings and results. What was answered survives a power
 cut. Every function is proved to meet its contract.
END
echo /etc/default/bridge-club > "$tree/DEBIAN/conffiles"
for script in postinst prerm postrm; do
    install -m 755 "$here/$script" "$tree/DEBIAN/$script"
done
find "$tree" -type d -exec chmod 755 {} +
(cd "$tree" && find usr lib etc -type f -exec md5sum {} +) > "$tree/DEBIAN/md5sums"
mkdir -p "$to"
dpkg-deb --root-owner-group --build "$tree" "$to" > /dev/null
echo "$to/$(basename "$tree").deb"
