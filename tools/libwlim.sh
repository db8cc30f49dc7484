#!/usr/bin/env bash
# Makes out/libwlim/ of what `rt lib` made of c_library: lib/libwlim.a, lib/libwlim.so, lib/pkgconfig/wlim.pc and
# include/wlim.h. The folder can be copied to any prefix. Holds the header against both, and the library against
# packaging/libwlim.abi, which has its soname and the version of each symbol.
set -e
cd "$(dirname "$0")/.."
made=crates/c_library/out/libc_library.a
heap="$(dirname "$(rt doc)")/c/liblibc_c.a"
to=out/libwlim
rm -rf "$to" && mkdir -p "$to/lib/pkgconfig" "$to/include" "$to/parts"
# The kit's allocator calls malloc, realloc and free. Its names stay inside.
ld -r -o "$to/parts/all.o" --whole-archive "$made" "$heap" --no-whole-archive
objcopy --wildcard --keep-global-symbol 'wlim_*' "$to/parts/all.o" "$to/parts/wlim.o"
ar rcs "$to/lib/libwlim.a" "$to/parts/wlim.o"
soname=$(python3 tools/abi.py --soname)
python3 tools/abi.py --map > "$to/parts/libwlim.map"
${CC:-cc} -shared -Wl,-soname,"$soname" -Wl,--version-script="$to/parts/libwlim.map" -Wl,-z,defs,-z,relro,-z,now \
	-o "$to/lib/$soname" "$to/parts/wlim.o"
ln -sf "$soname" "$to/lib/libwlim.so"
cp include/wlim.h "$to/include/"
rm -r "$to/parts"
packaging/version.sh --pc "\${pcfiledir}/../.." lib > "$to/lib/pkgconfig/wlim.pc"
python3 tools/header.py "$to/lib/libwlim.a"
python3 tools/header.py "$to/lib/libwlim.so"
python3 tools/abi.py "$to/lib/libwlim.so"
