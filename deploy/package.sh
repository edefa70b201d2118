#!/bin/bash
# Makes the Debian package of the program that is kept in dist/: deploy/package.sh [OUT] puts tcdesk_VERSION_amd64.deb into the folder OUT, the folder
# out/ of the repository where none is named, and prints its path.
#
# VERSION is the second word of what the program says of itself (`tcdesk --version`, the constant VERSION in crates/tc_words/src/commands.rt); no file of
# deploy/ says it again. The folder dist/ is installed as /usr/lib/tcdesk, and its start script is the command /usr/bin/tcdesk.
# The same commit gives the same bytes, with the same dpkg-deb and gzip: all times are those of the last commit, or SOURCE_DATE_EPOCH if that is set; all
# belongs to root, and lies in order. What is not as the commit has it is packed as it stands.
# The program has to be the very one that dist/ has the digest of. Where the sources that stand here are not those that it was made of, standard error
# says so; a landing has none such. The status is 2 where there is no package.
set -u
export LC_ALL=C TZ=UTC
umask 022
top=$(cd "$(dirname "$(readlink -f "$0")")/.." && pwd) || exit 2
. "$top/tools/program.sh" || exit 2
from=$top/deploy/debian

# refuse WHY: says why there is no package, and ends.
refuse() {
    echo "package: $1" >&2
    exit 2
}

# put MODE FILE PATH: puts a file into the package.
put() {
    install -D -m "$1" "$2" "$root/$3" || exit 2
}

# packed FILE PATH: puts what stands in a file, packed without its name and time, into the package.
packed() {
    mkdir -p "$root/${2%/*}" && gzip -9nc "$1" >"$root/$2" && chmod 644 "$root/$2" || exit 2
}

# paged FILE PATH: the same of a page, whose commands and names of files are those that hold where the package is installed.
paged() {
    sed -E 's,\./tcdesk([ ;]|$),tcdesk\1,g
        s,(^|[^/])docs/(manual/)?([A-Za-z-]+)\.md,\1/usr/share/doc/tcdesk/\2\3.md.gz,g
        s,\]\(((manual/|\.\./)?[A-Za-z-]+)\.md,](\1.md.gz,g
        s,\]\(\.\./((\.\./)?)deploy/(nginx|postgres|backup|replica)/README\.md,](\1\3.md.gz,g
        s,man docs/tcdesk\.1,man tcdesk,
        s,(^|[^/])deploy/README\.md,\1/usr/share/doc/tcdesk/README.Debian.gz,g
        s,(^|[^/])deploy/(nginx|postgres|backup|replica)/README\.md,\1/usr/share/doc/tcdesk/\2.md.gz,g
        s,(^|[^/])deploy/(nginx/authority|nginx/\{|nginx`|postgres/tables|postgres/load|postgres`|replica/systemd/|replica/replica\.py|replica/[a-z]*\.sh|replica`),\1/usr/share/tcdesk/\2,g
        s,(^|[^/])deploy/backup`,\1/usr/share/doc/tcdesk/backup.md.gz`,g' "$1" >"$work/page" || exit 2
    packed "$work/page" "$2"
}

# filled FILE: prints a file of deploy/debian with the version, the maintainers, the size and the lines of NOTICE in their places.
filled() {
    sed "s/@VERSION@/$version/; s/@MAINTAINER@/$maintainer/; s/@SIZE@/${size:-}/
        /^@NOTICE@$/ { r $work/notice
            d }" "$from/$1" || exit 2
}

# The log of the package: its one version, with the head of each landing.
changelog() {
    printf 'tcdesk (%s) unstable; urgency=medium\n\n' "$version"
    sed -n 's/^## //p' "$top/docs/CHANGELOG.md" | fold -s -w 72 | sed 's/ $//; s/^/    /; s/^    \([0-9]\{4\}-\)/  * \1/'
    printf '\n -- %s  %s\n' "$maintainer" "$(date -R -d "@$SOURCE_DATE_EPOCH")"
}

# The page of the manual, where the package has what it names.
page() {
    sed -E 's,docs/((manual/)?[A-Za-z-]+)\.md,/usr/share/doc/tcdesk/\1.md.gz,g; s,examples/,/usr/share/doc/tcdesk/examples/,' "$top/docs/tcdesk.1"
}

(($# <= 1)) || refuse "one folder may be named"
out=${1:-$own}
command -v dpkg-deb >/dev/null || refuse "dpkg-deb is not installed (Debian: dpkg)"
if ! is_program "$kept"; then
    [[ -f $kept/tcdesk && -r $kept/tcdesk.built ]] || refuse "$why"
    for line in "sha256 $(sum_of "$kept/tcdesk")" "version $(version_of "$kept/tcdesk")"; do
        grep -qxF "$line" "$kept/tcdesk.built" || refuse "the program in ${kept#"$top/"} is not the one that was made, or does not run on this machine"
    done
    echo "package: $why; it is packed as it is" >&2
fi
read -r _ version _ <<<"$(version_of "$kept/tcdesk")"
[[ $version =~ ^[0-9][0-9A-Za-z.+~]*$ ]] || refuse "the program says no version: $version"
maintainer='Yuqasti maintainers <maintainers@users.noreply.yuqasti.example>'
: "${SOURCE_DATE_EPOCH:=$(git -C "$top" log -1 --format=%ct 2>/dev/null)}"
[[ $SOURCE_DATE_EPOCH =~ ^[0-9]+$ ]] || refuse "there is no commit whose time the files could have: set SOURCE_DATE_EPOCH"
export SOURCE_DATE_EPOCH
work=$(mktemp -d) || exit 2
trap 'rm -rf "$work"' EXIT
root=$work/root
doc=usr/share/doc/tcdesk

put 755 "$top/dist/tcdesk" usr/lib/tcdesk/tcdesk
put 755 "$kept/tcdesk" "usr/lib/tcdesk/${kept##*/}/tcdesk"
put 644 "$kept/tcdesk.built" "usr/lib/tcdesk/${kept##*/}/tcdesk.built"
mkdir -p "$root/usr/bin" && ln -s ../lib/tcdesk/tcdesk "$root/usr/bin/tcdesk" || exit 2
put 755 "$from/serve" usr/libexec/tcdesk/serve
put 644 "$from/tcdesk@.service" usr/lib/systemd/system/tcdesk@.service
put 755 "$top/deploy/backup/tcdesk-backup" usr/libexec/tcdesk/tcdesk-backup
for file in "$top"/deploy/backup/*.{service,timer} "$top"/deploy/replica/systemd/*.service; do put 644 "$file" "usr/lib/systemd/system/${file##*/}"; done
put 644 "$from/sysusers" usr/lib/sysusers.d/tcdesk.conf
put 644 "$from/completion" usr/share/bash-completion/completions/tcdesk
for file in "$top"/examples/*; do put 644 "$file" "$doc/examples/${file##*/}"; done
for file in "$top"/deploy/nginx/{authority.cnf,conf.d/*,html/*,njs/*,sites-available/*,snippets/*}; do put 644 "$file" "usr/share/tcdesk/${file#"$top/deploy/"}"; done
for file in "$top"/deploy/postgres/*.sql; do put 644 "$file" "usr/share/tcdesk/postgres/${file##*/}"; done
put 755 "$top/deploy/postgres/load.sh" usr/share/tcdesk/postgres/load.sh
for file in appender clock compare desk entrance entry etcd health log machine order present replica tables words; do
    put 644 "$top/deploy/replica/$file.py" "usr/share/tcdesk/replica/$file.py"
done
for file in auth certificates lab; do put 755 "$top/deploy/replica/$file.sh" "usr/share/tcdesk/replica/$file.sh"; done
for file in "$top"/deploy/replica/systemd/{*.default,*.conf}; do put 644 "$file" "usr/share/tcdesk/replica/systemd/${file##*/}"; done
page >"$work/page" && packed "$work/page" usr/share/man/man1/tcdesk.1.gz
changelog >"$work/changelog" && packed "$work/changelog" "$doc/changelog.gz"
for file in "$top"/docs/{manual/*,LINK,SCALE}.md; do paged "$file" "$doc/${file#"$top/docs/"}.gz"; done
paged "$top/deploy/README.md" "$doc/README.Debian.gz"
for file in nginx postgres backup replica; do paged "$top/deploy/$file/README.md" "$doc/$file.md.gz"; done
sed 's/^$/./; s/^/ /' "$top/NOTICE" >"$work/notice" || exit 2
filled copyright >"$work/copyright" && put 644 "$work/copyright" "$doc/copyright"

# what it takes on a disk: each file in whole kilobytes, and one for each folder
size=$(find "$root" -mindepth 1 -printf '%y %s\n' | awk '{ k += $1 == "f" ? int(($2 + 1023) / 1024) : 1 } END { print k }')
mkdir "$root/DEBIAN" && filled control >"$root/DEBIAN/control" || exit 2
(cd "$root" && find usr -type f | sort | xargs -d '\n' md5sum) >"$root/DEBIAN/md5sums" || exit 2
for file in postinst prerm postrm; do put 755 "$from/$file" "DEBIAN/$file"; done
find "$root" -exec touch -h -d "@$SOURCE_DATE_EPOCH" {} + || exit 2
mkdir -p "$out" || exit 2
dpkg-deb --root-owner-group -Zxz -z6 --build "$root" "$work/package" >"$work/said" || refuse "dpkg-deb made none: $(<"$work/said")"
mv -f "$work/package" "$out/tcdesk_${version}_amd64.deb" || exit 2
echo "$out/tcdesk_${version}_amd64.deb"
