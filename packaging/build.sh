#!/usr/bin/env bash
# Makes the Debian package of the proved programs, with the unit of the service, the page, man pages and examples: FOLDER/oaihost_VERSION_ARCHITECTURE.deb,
# whose path it writes to standard output. The programs go in byte for byte; what they need of other packages is found by dpkg-shlibdeps.
# OAIHOST and OAIHOSTD are the programs; where they are not set they are proved and built by bin/. VERSION is the version, which is else the moment of
# the last commit and its id. DEBFULLNAME and DEBEMAIL are who makes it, which is else the author of that commit. Two builds of one commit are the same.
# Packages of Debian: apt-get install debhelper
# Usage: packaging/build.sh FOLDER
set -eu
cd "$(dirname "$0")/.."
if [ $# -ne 1 ]; then
    echo "usage: packaging/build.sh FOLDER" >&2
    exit 2
fi
folder=$(realpath "$1")
for name in oaihost oaihostd; do
    variable=${name^^}
    if [ -z "${!variable:-}" ]; then
        # The first use builds the program; called without arguments it ends with the status 2.
        "bin/$name" >/dev/null || [ $? -eq 2 ]
        declare "$variable=crates/$name/out/$name"
    fi
done
VERSION=${VERSION:-0.$(TZ=UTC git log -1 --format=%cd --date=format-local:%Y%m%d%H%M%S)+g$(git rev-parse --short=7 HEAD)}
maintainer="${DEBFULLNAME:-$(git log -1 --format=%an)} <${DEBEMAIL:-$(git log -1 --format=%ae)}>"
SOURCE_DATE_EPOCH=$(git log -1 --format=%ct)
export SOURCE_DATE_EPOCH

work=$(mktemp -d)
trap 'rm -rf "$work"' EXIT
source=$work/oaihost
mkdir "$source"
cp -r packaging/debian packaging/man packaging/archive.example web "$source"
install -m 0755 "$OAIHOST" "$source/oaihost"
install -m 0755 "$OAIHOSTD" "$source/oaihostd"
sed -i "s|@MAINTAINER@|$maintainer|" "$source/debian/control"
cat >"$source/debian/changelog" <<END
oaihost ($VERSION) unstable; urgency=medium

  * The programs, page and unit of commit
    $(git rev-parse HEAD).

 -- $maintainer  $(date -R -d "@$SOURCE_DATE_EPOCH")
END
(cd "$source" && dpkg-buildpackage -b -us -uc) >"$work/log" 2>&1 || {
    tail -n 30 "$work/log" >&2
    exit 1
}
mkdir -p "$folder"
for package in "$work"/oaihost_*.deb; do
    cp "$package" "$folder"
    echo "$folder/$(basename "$package")"
done
