#!/bin/bash
# archives.sh WORK TO: the programs as they are, an archive of the static program with its manual, completions, documents and examples,
# and one of the crate rdfconv-sys for Rust with the static library inside. Members stand in the order of their names, without owner and time.
set -euo pipefail
work=$1 to=$2
tree=$work/tree parts=$work/programs
name=rdfconv-$RDFCONV_VERSION-linux-x86_64

pack() {
    find "$work/packed/$1" -type d -exec chmod 755 {} +
    tar -C "$work/packed" --format=ustar --sort=name --owner=0 --group=0 --numeric-owner --mtime="@$SOURCE_DATE_EPOCH" -c "$1" |
        gzip -9n >"$to/$1.tar.gz"
}

install -m 755 "$parts/rdfconv" "$to/$name-dynamic"
install -m 755 "$parts/rdfconv-static" "$to/$name-static"

inside=$work/packed/$name
mkdir -p "$inside"
install -m 755 "$parts/rdfconv-static" "$inside/rdfconv"
install -m 644 "$work/FACTS" "$tree/README.md" "$tree/CHANGELOG.md" "$tree/SECURITY.md" "$tree/docs/rdfconv.1" "$inside"
mkdir "$inside/docs"
install -m 644 "$tree"/docs/*.md "$tree"/docs/*.svg "$inside/docs"
cp -R "$tree/packaging/completions" "$inside/completions"
cp -R "$tree/examples" "$inside/examples"
pack "$name"

inside=$work/packed/rdfconv-sys-$RDFCONV_VERSION
cp -R "$tree/examples/rust" "$inside"
install -D -m 644 "$parts/librdfconv.a" "$inside/lib/librdfconv.a"
install -m 644 "$work/FACTS" "$inside"
pack "rdfconv-sys-$RDFCONV_VERSION"
