#!/bin/sh
# Installs a package in a clean root, runs the program there, and removes it. It needs root, Debian's debootstrap and lintian.
#
#     packaging/try.sh PACKAGE.deb [SUITE]     (bookworm when left out)
set -eu
package=$(cd "$(dirname "$1")" && pwd)/$(basename "$1")
suite=${2:-bookworm}
lintian --fail-on error "$package"
root=$(mktemp -d)
chmod 755 "$root"
trap 'rm -rf "$root"' EXIT
debootstrap --variant=minbase --include=adduser,man-db "$suite" "$root" > "$root.log" 2>&1 || {
    tail "$root.log" >&2
    exit 1
}
rm -f "$root.log"
cp "$package" "$root/package.deb"
within() {
    chroot "$root" env -i PATH=/usr/sbin:/usr/bin:/sbin:/bin LC_ALL=C "$@"
}
within dpkg -i /package.deb
within bridge_club version
within bridge_club plan /usr/share/doc/bridge-club/examples/evening.txt > "$root/plan"
grep -q '^Thursday-Pairs$' "$root/plan"
within su -s /bin/sh bridge-club -c 'cd /var/lib/bridge-club && bridge_club format club.disk /usr/share/doc/bridge-club/examples/evening.txt'
[ "$(within stat -c '%U %a' /var/lib/bridge-club/club.disk)" = "bridge-club 600" ]
within su -s /bin/sh bridge-club -c 'bridge_club rank /var/lib/bridge-club/club.disk' | grep -q '^FIELD 2$'
(cd "$root" && grep ' usr/bin/bridge_club$' usr/share/doc/bridge-club/BUILD | sha256sum -c)
[ ! -x "$root/usr/bin/man" ] || within man -l /usr/share/man/man1/bridge_club.1.gz > /dev/null
within dpkg --purge bridge-club
[ ! -e "$root/usr/bin/bridge_club" ] && [ -e "$root/var/lib/bridge-club/club.disk" ]
echo "installed, run and removed"
