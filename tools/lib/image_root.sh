#!/bin/sh
# Makes the root of the image of a Debian in $1, by the package at /package.deb there. mmdebstrap calls it, for
# tools/image.
set -eu
root=$1
# with one number each time, since volumes keep it
echo 'index:x:10001:' >> "$root/etc/group"
echo 'index:x:10001:10001:Python package index:/var/lib/index:/usr/sbin/nologin' >> "$root/etc/passwd"
chroot "$root" dpkg --install /package.deb > /dev/null
rm "$root/package.deb"
mkdir -p "$root/etc/index-tls" "$root/run/nginx"
ln -s ../share/package-index/container/start "$root/usr/bin/index-container"
# Python writes nothing into a root that is read-only. What it compiled hangs on no time of a file, which the image
# changes.
find "$root/usr" -name __pycache__ -prune -exec rm -r {} +
chroot "$root" python3 -m compileall -q --invalidation-mode unchecked-hash /usr/lib/python3 /usr/lib/python3.*
# what tells of this run
rm -rf "$root"/var/log/* "$root"/var/lib/apt/lists/* "$root"/var/cache/apt/* "$root"/var/cache/debconf/*-old \
    "$root"/var/lib/dpkg/*-old "$root"/etc/*-
mkdir -p "$root/var/log/nginx" "$root/var/log/package-index"
chroot "$root" chown index:index /var/lib/index /var/backups/index /var/cache/nginx /var/log/package-index /run/nginx \
    /etc/index-tls
