#!/bin/sh
# Builds a Debian package of the program that PROGRAM names, crates/pdcgw/out/pdcgw where it names none: program, unit, manual
# page, an example setup, pages. It says where the package lies, package/out. MAINTAINER is who is named in it. It needs dpkg-deb,
# and no root.
set -eu
here=$(cd "$(dirname "$0")" && pwd)
top=$(dirname "$here")
program=${PROGRAM:-"$top/crates/pdcgw/out/pdcgw"}
maintainer=${MAINTAINER:-"The authors of pdcgw <root@$(hostname -f)>"}
version=${VERSION:-$(sed -n 's/^const VERSION: &str = "\(.*\)";$/\1/p' "$top/crates/pdcgw/src/main.rt")}
architecture=$(dpkg --print-architecture)
[ -x "$program" ] || {
    echo "$program is no program: prove and build it (rt run in crates/pdcgw), or name one by PROGRAM" >&2
    exit 1
}
root=$(mktemp -d)
trap 'rm -rf "$root"' EXIT
umask 022
chmod 755 "$root"

# FROM TO [MODE]: puts a file into the package.
put() {
    mkdir -p "$root/$(dirname "$2")"
    install -m "${3:-644}" "$1" "$root/$2"
}

put "$program" usr/bin/pdcgw 755
put "$top/docs/pdcgw.service" usr/lib/systemd/system/pdcgw.service
put "$here/setup.toml" etc/pdcgw/setup.toml
put "$here/pdcgw.8" usr/share/man/man8/pdcgw.8
put "$here/copyright" usr/share/doc/pdcgw/copyright
put "$here/lintian-overrides" usr/share/lintian/overrides/pdcgw
put "$here/changelog" usr/share/doc/pdcgw/changelog
sed -i "s/@VERSION@/$version/; s/@MAINTAINER@/$maintainer/; s/@DATE@/$(LC_ALL=C date -R)/" "$root/usr/share/doc/pdcgw/changelog"
gzip -9n "$root/usr/share/doc/pdcgw/changelog" "$root/usr/share/man/man8/pdcgw.8"
# Side by side as here, so that their links hold.
put "$top/README.md" usr/share/doc/pdcgw/README.md
put "$top/CHANGELOG.md" usr/share/doc/pdcgw/CHANGELOG.md
put "$top/LICENSE" usr/share/doc/pdcgw/LICENSE
for file in "$top"/docs/*.* "$top"/docs/setups/* "$top"/docs/integration/*; do
    put "$file" "usr/share/doc/pdcgw/${file#"$top"/}"
done
chmod 755 "$root"/usr/share/doc/pdcgw/docs/integration/*.sh

mkdir "$root/DEBIAN"
for script in postinst prerm postrm; do install -m 755 "$here/$script" "$root/DEBIAN/$script"; done
echo /etc/pdcgw/setup.toml > "$root/DEBIAN/conffiles"
(cd "$root" && find usr -type f -exec md5sum {} + | LC_ALL=C sort -k 2 > DEBIAN/md5sums)
# The libraries that the program is linked with, by their versions where dpkg-dev is installed.
mkdir "$root/debian"
printf 'Source: pdcgw\n\nPackage: pdcgw\nArchitecture: any\n' > "$root/debian/control"
libraries=$(cd "$root" && dpkg-shlibdeps -O usr/bin/pdcgw 2> debian/told | sed -n 's/^shlibs:Depends=//p') || libraries=
rm -r "$root/debian"
size=$(du -sk --exclude DEBIAN "$root" | cut -f 1)
sed "s/@VERSION@/$version/; s/@MAINTAINER@/$maintainer/; s/@ARCHITECTURE@/$architecture/; s/@SIZE@/$size/" "$here/control" \
    | sed "s/@LIBRARIES@/${libraries:-libc6}/" > "$root/DEBIAN/control"

mkdir -p "$here/out"
dpkg-deb --root-owner-group --build "$root" "$here/out/pdcgw_${version}_$architecture.deb"
