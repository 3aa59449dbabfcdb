#!/bin/bash
# debian.sh WORK TO: the Debian packages rdfconv (program, manual, completions, documents, examples) and librdfconv-dev (header, static
# library, pkg-config file, manual of the calls), from the parts that ./release has made in WORK.
set -euo pipefail
work=$1 to=$2
tree=$work/tree parts=$work/programs
version=$RDFCONV_VERSION-1
maintainer=$(git log -1 --format='%an <%ae>')
glibc=$(packaging/glibc.sh "$parts/rdfconv")

put() {
    install -D -m "$1" "$2" "$root/$3"
}

# A packed file, without its name and time.
put_packed() {
    mkdir -p "$(dirname "$root/$2")"
    gzip -9n <"$1" >"$root/$2"
}

# What each package has of its own: copyright and changes.
begin() {
    package=$1 root=$work/debian/$1
    put 644 packaging/debian/copyright "usr/share/doc/$package/copyright"
    put_packed "$tree/CHANGELOG.md" "usr/share/doc/$package/changelog.gz"
    {
        printf '%s (%s) stable; urgency=low\n\n' "$package" "$version"
        printf '  * Made from commit %s.\n' "$RDFCONV_COMMIT"
        printf '    changelog.gz says what is new.\n\n -- %s  %s\n' "$maintainer" "$(date -u -R -d "@$SOURCE_DATE_EPOCH")"
    } >"$work/changes"
    put_packed "$work/changes" "usr/share/doc/$package/changelog.Debian.gz"
}

# The fields that are the same in both, the sums, and the package. The words are Section, Depends and the text of Description.
finish() {
    mkdir -p "$root/DEBIAN"
    (cd "$root" && find usr -type f | sort | xargs md5sum) >"$root/DEBIAN/md5sums"
    {
        printf 'Package: %s\nVersion: %s\nArchitecture: amd64\nMaintainer: %s\n' "$package" "$version" "$maintainer"
        printf 'Installed-Size: %s\n' "$(find "$root/usr" -type f -printf '%s\n' | awk '{ n += int(($1 + 1023) / 1024) } END { print n }')"
        printf 'Section: %s\nPriority: optional\n' "$1"
        printf '%s\n' "$2"
        cat "packaging/debian/$package.description"
    } >"$root/DEBIAN/control"
    find "$root" -type d -exec chmod 755 {} +
    find "$root" -exec touch -h -d "@$SOURCE_DATE_EPOCH" {} +
    dpkg-deb --root-owner-group --threads-max=1 -Zxz --build "$root" "$to/${package}_${version}_amd64.deb" >/dev/null
}

begin rdfconv
put 755 "$parts/rdfconv" usr/bin/rdfconv
put_packed "$tree/docs/rdfconv.1" usr/share/man/man1/rdfconv.1.gz
put 644 "$tree/packaging/completions/rdfconv.bash" usr/share/bash-completion/completions/rdfconv
put 644 "$tree/packaging/completions/_rdfconv" usr/share/zsh/vendor-completions/_rdfconv
put 644 "$tree/packaging/completions/rdfconv.fish" usr/share/fish/vendor_completions.d/rdfconv.fish
put 644 "$work/FACTS" usr/share/doc/rdfconv/FACTS
put 644 "$tree/README.md" usr/share/doc/rdfconv/README.md
put 644 "$tree/SECURITY.md" usr/share/doc/rdfconv/SECURITY.md
(cd "$tree" && find docs -maxdepth 1 -type f \( -name '*.md' -o -name '*.svg' \)) | sort | while read -r page; do
    put 644 "$tree/$page" "usr/share/doc/rdfconv/$page"
done
mkdir -p "$root/usr/share/doc/rdfconv"
cp -R "$tree/examples" "$root/usr/share/doc/rdfconv/examples"
finish utils "Depends: libc6 (>= $glibc)
Suggests: parallel, pv, python3"

begin librdfconv-dev
# In a package the archive has all that is to be linked.
sed '/^   To link/,/\*\/$/c\   To link: cc FILE.c $(pkg-config --cflags --libs rdfconv) */' "$tree/examples/library/rdfconv.h" >"$work/rdfconv.h"
put 644 "$work/rdfconv.h" usr/include/rdfconv.h
put 644 "$parts/librdfconv.a" usr/lib/x86_64-linux-gnu/librdfconv.a
sed "s/@VERSION@/$RDFCONV_VERSION/" packaging/debian/rdfconv.pc >"$work/rdfconv.pc"
put 644 "$work/rdfconv.pc" usr/lib/x86_64-linux-gnu/pkgconfig/rdfconv.pc
put_packed "$tree/docs/rdfconv_convert.3" usr/share/man/man3/rdfconv_convert.3.gz
for call in rdfconv_check rdfconv_check_expecting; do
    ln -s rdfconv_convert.3.gz "$root/usr/share/man/man3/$call.3.gz"
done
put 644 "$tree/examples/library/convert.c" usr/share/doc/librdfconv-dev/examples/convert.c
put 644 "$tree/examples/library/convert.cc" usr/share/doc/librdfconv-dev/examples/convert.cc
finish libdevel "Recommends: libc6-dev, pkg-config"
