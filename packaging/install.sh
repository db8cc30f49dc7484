#!/usr/bin/env bash
# Installs what is built, or takes it away again: install.sh install|uninstall
#
# Of the environment: PREFIX (/usr/local), DESTDIR, LIBDIR (lib), ZSHDIR (share/zsh/site-functions). It says what isn't
# built, and what make builds it by.
set -e
cd "$(dirname "$0")/.."
prefix=${PREFIX:-/usr/local} lib=${LIBDIR:-lib} zsh=${ZSHDIR:-share/zsh/site-functions}
to=$DESTDIR$prefix

# one MODE SOURCE TARGET: a file, where its source is there.
one() {
	[ ! -f "$2" ] || printf '%s\t%s\t%s\n' "$1" "$2" "$3"
}

# all MODE FOLDER SOURCE..: each by its name.
all() {
	local mode=$1 folder=$2 source
	shift 2
	for source; do
		one "$mode" "$source" "$folder/${source##*/}"
	done
}

completions() {
	one 644 "packaging/completions/$1.bash" "share/bash-completion/completions/$1"
	one 644 "packaging/completions/_$1" "$zsh/_$1"
	one 644 "packaging/completions/$1.fish" "share/fish/vendor_completions.d/$1.fish"
}

program() {
	[ -f crates/wlim/out/wlim ] || return 0
	one 755 crates/wlim/out/wlim bin/wlim
	completions wlim
	all 644 share/man/man1 $(ls out/man/man1/*.1 2> /dev/null | grep -v gateway)
	all 644 share/man/man5 out/man/man5/*.5
	all 644 share/doc/wlim README.md CHANGELOG.md docs/FORMATS.md docs/AUDITING.md LICENSE-MIT LICENSE-APACHE
	all 644 share/doc/wlim/examples examples/*.*
}

library() {
	local soname
	[ -f out/libwlim/lib/libwlim.a ] || return 0
	soname=$(sed -n 1p packaging/libwlim.abi)
	one 644 "out/libwlim/lib/$soname" "$lib/$soname"
	one 644 out/libwlim/lib/libwlim.a "$lib/libwlim.a"
	one 644 out/libwlim/include/wlim.h include/wlim.h
	all 644 share/man/man3 out/man/man3/*.3
	all 644 share/doc/libwlim-dev docs/EMBEDDING.md docs/MODEL.md
	all 644 share/doc/libwlim-dev/examples examples/libwlim/*.c examples/embed/*.[ch]
	one 755 examples/embed/protocols.sh share/doc/libwlim-dev/examples/protocols.sh
}

gateway() {
	[ -f out/gateway/wlim-gateway ] || return 0
	one 755 out/gateway/wlim-gateway bin/wlim-gateway
	completions wlim-gateway
	all 644 share/man/man1 out/man/man1/wlim-gateway.1
	all 644 lib/systemd/user gateway/systemd/*.service gateway/systemd/*.socket
	all 644 share/doc/wlim-gateway gateway/README.md gateway/candidates.png
	all 644 share/doc/wlim-gateway/examples gateway/systemd/*.conf
}

weston() {
	all 644 "$lib/weston" out/weston/10/wlim.so
	[ ! -f out/weston/10/wlim.so ] || all 644 share/doc/weston-wlim modules/weston/README.md
}

files() {
	program
	library
	gateway
	weston
}

# Our own links and what is made for the prefix.
made() {
	[ -f out/libwlim/lib/libwlim.a ] || return 0
	echo "$lib/libwlim.so"
	echo "$lib/pkgconfig/wlim.pc"
}

install_all() {
	local mode source target soname
	while IFS=$'\t' read -r mode source target; do
		install -D -m "$mode" "$source" "$to/$target"
	done
	if [ -f out/libwlim/lib/libwlim.a ]; then
		ln -sf "$(sed -n 1p packaging/libwlim.abi)" "$to/$lib/libwlim.so"
		mkdir -p "$to/$lib/pkgconfig"
		packaging/version.sh --pc "$prefix" "$lib" > "$to/$lib/pkgconfig/wlim.pc"
	fi
	# The units name the program by its whole path.
	for target in "$to"/lib/systemd/user/wlim-*.service; do
		[ ! -f "$target" ] || sed -i "s,^\(Exec[A-Za-z]*=\)/[^ ]*/bin/,\1$prefix/bin/," "$target"
	done
}

missing() {
	[ -f crates/wlim/out/wlim ] || echo "not built, so not installed: wlim (make build)"
	[ -f out/libwlim/lib/libwlim.a ] || echo "not built, so not installed: libwlim (make libwlim)"
	[ -f out/gateway/wlim-gateway ] || echo "not built, so not installed: wlim-gateway (make gateway)"
	[ -f out/weston/10/wlim.so ] || echo "not built, so not installed: the plug-in for Weston (make weston)"
	[ -f out/man/man1/wlim.1 ] || echo "not made, so not installed: the manual (make man, which needs pandoc)"
}

case $1 in
install)
	missing
	[ -n "$(files)" ] || exit 1
	files | install_all
	[ -n "$DESTDIR" ] || [ "$(id -u)" != 0 ] || ldconfig 2> /dev/null || true
	echo "installed: $(files | wc -l) files below $to"
	;;
uninstall)
	{ files | cut -f 3; made; } | while read -r target; do
		rm -f "$to/$target"
	done
	for folder in wlim/examples wlim libwlim-dev/examples libwlim-dev wlim-gateway/examples wlim-gateway weston-wlim; do
		rmdir "$to/share/doc/$folder" 2> /dev/null || true
	done
	rmdir "$to/$lib/weston" 2> /dev/null || true
	;;
*)
	echo "install.sh install|uninstall" >&2
	exit 2
	;;
esac
