#!/bin/sh
# Builds the package twice, as an older and a newer version, and in a clean root installs the one, upgrades it to the other,
# removes it and purges it; after each step it looks at what has to be there. Then lintian looks at it. PROGRAM as for
# build-deb.sh. It needs root, for a chroot. The clean root is made by debootstrap where that is installed and a mirror is
# reached, else of the essential packages of this machine, file by file, with their state, so that dependencies are judged.
set -eu
here=$(cd "$(dirname "$0")" && pwd)
scratch=$(mktemp -d)
root=$scratch/root
trap 'rm -rf "$scratch"' EXIT
failed=0

# WHAT COMMAND..: the command has to succeed.
expect() {
    what=$1
    shift
    if "$@" > "$scratch/said" 2>&1; then
        echo "ok: $what"
    else
        echo "WRONG: $what"
        cat "$scratch/said"
        failed=$((failed + 1))
    fi
}

not() { ! "$@"; }

# Packages of this machine that a system has to have, and those that they need.
essential() {
    dpkg-query -W -f='${Essential} ${Package}\n' | sed -n 's/^yes //p' > "$scratch/asked"
    echo passwd >> "$scratch/asked"
    xargs apt-cache depends --recurse --installed --no-recommends --no-suggests --no-conflicts --no-breaks --no-replaces \
        --no-enhances < "$scratch/asked" | sed -n 's/^\([a-z0-9][^ :]*\).*/\1/p' | sort -u
}

root_of_this_machine() {
    mkdir -p "$root/var/lib/dpkg/info" "$root/var/lib/dpkg/updates" "$root/tmp"
    for folder in bin sbin lib lib64; do
        mkdir -p "$root/usr/$folder"
        ln -s "usr/$folder" "$root/$folder"
    done
    essential > "$scratch/packages"
    while read -r package; do
        dpkg -s "$package" >> "$root/var/lib/dpkg/status" 2> "$scratch/unknown" || continue
        echo >> "$root/var/lib/dpkg/status"
        dpkg -L "$package" | grep -v '^/usr/share/\(doc\|man\|locale\|info\)/' | while read -r file; do
            if [ -f "$file" ] || [ -L "$file" ]; then echo "$file"; fi
        done
    done < "$scratch/packages" | sort -u | sed 's,^/\(bin\|sbin\|lib\|lib64\)/,/usr/\1/,; s,^/,,' > "$scratch/files"
    tar -C / -cf - --ignore-failed-read -T "$scratch/files" 2> "$scratch/left-out" | tar -C "$root" -xf - --skip-old-files
    cp -L /etc/ld.so.cache /etc/nsswitch.conf "$root/etc/"
    # The users and groups that Debian begins with.
    cp /usr/share/base-passwd/passwd.master "$root/etc/passwd"
    cp /usr/share/base-passwd/group.master "$root/etc/group"
    mkdir -p "$root/dev"
    mknod -m 666 "$root/dev/null" c 1 3
}

if command -v debootstrap > "$scratch/where" && debootstrap --variant=minbase stable "$root" > "$scratch/debootstrap" 2>&1; then
    echo "a clean root by debootstrap"
else
    rm -rf "$root"
    root_of_this_machine
    echo "a clean root of $(wc -l < "$scratch/packages") packages of this machine"
fi

VERSION=0.0.1~older sh "$here/build-deb.sh" > "$scratch/built"
older=$(ls "$here"/out/pdcgw_0.0.1~older_*.deb)
mv "$older" "$scratch/older.deb"
sh "$here/build-deb.sh" >> "$scratch/built"
newer=$(sed -n "s/.*in '\(.*\)'\.$/\1/p" "$scratch/built" | tail -n 1)
setup=$root/etc/pdcgw/setup.toml

expect "it is installed" dpkg --root="$root" -i "$scratch/older.deb"
expect "the program is there" test -x "$root/usr/bin/pdcgw"
expect "the unit is there" test -f "$root/usr/lib/systemd/system/pdcgw.service"
expect "the manual page is there" test -f "$root/usr/share/man/man8/pdcgw.8.gz"
expect "the user is there" chroot "$root" getent passwd pdcgw
expect "nobody logs in as it" grep -q '^pdcgw:.*:/nonexistent:/usr/sbin/nologin$' "$root/etc/passwd"
expect "the service is not enabled" not test -e "$root/etc/systemd/system/multi-user.target.wants/pdcgw.service"
expect "the program runs in it" chroot "$root" /usr/bin/pdcgw --version
expect "the example setup is right" chroot "$root" /usr/bin/pdcgw check --setup /etc/pdcgw/setup.toml
echo "# mine" >> "$setup"
expect "it is upgraded" dpkg --root="$root" -i "$newer"
expect "a setup that was changed stays" grep -q '^# mine$' "$setup"
expect "it is removed" dpkg --root="$root" -r pdcgw
expect "the program is gone" not test -e "$root/usr/bin/pdcgw"
expect "the setup stays" test -f "$setup"
expect "it is installed again" dpkg --root="$root" -i "$newer"
expect "it is purged" dpkg --root="$root" -P pdcgw
expect "the setup is gone" not test -e "$root/etc/pdcgw"
if command -v lintian > "$scratch/where"; then
    # Who maintains it is nobody's name yet, unless MAINTAINER gives one.
    unnamed=bogus-mail-host,bogus-mail-host-in-debian-changelog,root-in-contact
    [ -z "${MAINTAINER:-}" ] || unnamed=no-such-tag
    expect "lintian finds nothing wrong" lintian --allow-root --fail-on error,warning --suppress-tags "$unnamed" "$newer"
    cat "$scratch/said"
else
    echo "lintian is not installed: left out"
fi
man --warnings -E UTF-8 -l -Tutf8 -Z "$here/pdcgw.8" > "$scratch/page" 2> "$scratch/warnings"
expect "the manual page is right" test ! -s "$scratch/warnings"
echo "$failed wrong"
[ "$failed" = 0 ]
