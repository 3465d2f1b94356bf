# shellcheck shell=sh disable=SC2010,SC2016,SC2034,SC2046,SC2086,SC2154
# More programs of Debian's sources for guests/try-programs, which reads this file: `guests/try-programs more` runs them.
# They are built by make, configure and cmake, and five of them have threads.
packages_of_more="libde265-examples x265 squashfs-tools yajl-tools wavpack tarlz libjpeg-turbo-progs zpaq picosat
    unifdef byacc ncompress seqtk bsdiff qrencode figlet dos2unix"

# The rows of programs in C.
table_of_more='
sqfstar|squashfs-tools|sqfstar|>out.sqfs|-quiet -no-progress -processors 3 -mkfs-time 0 -mem 16M -all-root -root-mode 755 -all-time 0 -root-time 0 -no-xattrs out.sqfs|archive.tar|sqfstar -quiet -no-progress -processors 3 -mkfs-time 0 -mem 16M -all-root -root-mode 755 -all-time 0 -root-time 0 -no-xattrs out.sqfs
sort|coreutils|src/sort||--parallel=3 -S 16M|numbers|sort --parallel=3 -S 16M
cjpeg|libjpeg-turbo|build/cjpeg-static||-quality 80 -progressive|image.ppm|cjpeg -quality 80 -progressive
djpeg|libjpeg-turbo|build/djpeg-static||-ppm|image.jpg|djpeg -ppm
json_reformat|yajl|json_reformat|||data.json|json_reformat
qjs|quickjs|qjs|script.mjs|script.mjs||./qjs.host script.mjs
wavpack|wavpack|cli/wavpack||-q -h - -o -|wave.wav|wavpack -q -h - -o -
picosat|picosat|picosat|||formula|picosat
unifdef|unifdef|unifdef||-x2 -DA -UB|macros|unifdef -x2 -DA -UB
byacc|byacc|yacc|grammar.y >y.tab.c|grammar.y||byacc grammar.y
compress|ncompress|compress||-c|text|compress -c
seqtk|seqtk|seqtk|genes|seq -r genes||seqtk seq -r genes
bsdiff|bsdiff|bsdiff|text page.md >out.patch|text page.md out.patch||bsdiff text page.md out.patch
qrencode|qrencode|qrencode||-t ASCII causal||qrencode -t ASCII causal
figlet|figlet|figlet|standard.flf|-d . -f standard coz||figlet -d . -f standard coz
unix2dos|dos2unix|unix2dos|||text|unix2dos
generic_sum|mbedtls|build/programs/hash/generic_sum|text|SHA512 text||sha512sum text
'
# Those in C++.
table_of_more_cxx='
dec265|libde265|build/dec265/dec265|video.hevc >out.yuv|-q -t 3 -o out.yuv video.hevc||libde265-dec265 -q -t 3 -o out.yuv video.hevc
tarlz|tarlz|tarlz|archive.tar.lz|-n 3 -tvf archive.tar.lz||tarlz -n 3 -tvf archive.tar.lz
zpaq|zpaq|zpaq|archive.zpaq >out.text|x archive.zpaq text -to out.text -t3||zpaq x archive.zpaq text -to out.text -t3
'

build_squashfs_tools() {
    with_zlib && make -C squashfs-tools CC="$CC" XATTR_SUPPORT=0 EXTRA_CFLAGS="-I$out/t/zlib" EXTRA_LDFLAGS="-L$out/t/zlib" mksquashfs &&
        cp squashfs-tools/mksquashfs sqfstar
}
# All that is generated, and then one of the hundred programs.
build_coreutils() {
    configure_make --disable-nls && printf 'include Makefile\ngenerated: $(BUILT_SOURCES)\n' > generated.mk && make -f generated.mk generated && make src/sort
}
build_libjpeg_turbo() { cmake_for_coz -DWITH_SIMD=OFF -DENABLE_SHARED=OFF -DWITH_TURBOJPEG=OFF && make -C build cjpeg-static djpeg-static; }
build_yajl() { cmake_for_coz && make -C build json_reformat && cp build/yajl-*/bin/json_reformat .; }
# The host's program of the objects that the build makes for the host.
build_quickjs() {
    make CROSS_PREFIX=riscv64-unknown-elf- CC="$CC" CONFIG_LTO= qjs &&
        cc -O2 -D_GNU_SOURCE -DCONFIG_VERSION='"here"' -o "$inputs/qjs.host" qjs.c repl.c $(ls .obj/*.host.o | grep -v qjsc) -lm -ldl -lpthread
}
build_wavpack() { ./autogen.sh --version > /dev/null; autoreconf -i && configure_make --disable-asm && make; }
build_unifdef() { make CC="$CC" unifdef; }
build_byacc() { configure_make && make yacc; }
build_ncompress() { make CC="$CC" compress; }
build_seqtk() { with_zlib && make CC="$CC" CFLAGS="-O2 -I$out/t/zlib -L$out/t/zlib" seqtk; }
build_bsdiff() {
    unpack bzip2 && (cd "$out/t/bzip2" && build_bzip2) && $CC -O2 -I"$out/t/bzip2" -o bsdiff bsdiff.c "$out/t/bzip2/libbz2.a"
}
build_qrencode() { configure_make --without-png && make; }
# It takes two macros from a header of glibc.
build_figlet() {
    make CC="$CC" LD="$CC" CFLAGS="-O2 -D__BEGIN_DECLS= -D__END_DECLS=" figlet && cp fonts/standard.flf "$inputs/"
}
build_dos2unix() { make CC="$CC" ENABLE_NLS= unix2dos; }
build_picosat() { ./configure.sh && make CC="$CC" AR=riscv64-unknown-elf-ar RANLIB=riscv64-unknown-elf-ranlib picosat; }
build_mbedtls() { cmake_for_coz -DENABLE_TESTING=OFF && make -C build generic_sum; }
build_libde265() { cmake_for_coz -DENABLE_SDL=OFF -DDISABLE_SSE=ON && make -C build dec265; }
build_tarlz() {
    with_lzlib && ./configure CXX="$CXX" CPPFLAGS="-I$out/t/lzlib" LDFLAGS="-L$out/t/lzlib" && make
}
# Its first line has the day of the build: that of the host's program.
build_zpaq() { SOURCE_DATE_EPOCH=1609804800 make CXX="$CXX" CPPFLAGS="-Dunix -DNOJIT" zpaq; }

make_more_inputs() {
    cd "$inputs" || return 1
    [ -e made-more ] && return
    tar --sort=name --mtime=@0 --owner=0 --group=0 --numeric-owner -cf archive.tar text data.json page.md lines image.ppm
    rm -f archive.tar.lz archive.zpaq && tarlz -0 --no-solid --mtime=@0 -cf archive.tar.lz text data.json page.md lines image.ppm
    zpaq add archive.zpaq text -m10 -t1 > zpaq.log 2>&1
    awk 'BEGIN { for (i = 0; i < 140000; i++) { x = (x * 1103515245 + 12345) % 2147483648; print int(x / 65536) % 90 } }' > numbers
    x265 --log-level none --no-progress --preset ultrafast --wpp --ctu 16 --min-cu-size 8 --input video.y4m -o video.hevc
    cjpeg -quality 80 image.ppm > image.jpg
    awk 'BEGIN { print "p cnf 60 240"; for (i = 0; i < 720; i++) { x = (x * 1103515245 + 12345) % 2147483648; v = int(x / 65536)
        printf "%s%d%s", v % 2 ? "-" : "", int(v / 2) % 60 + 1, i % 3 == 2 ? " 0\n" : " " } }' > formula
    printf '%s\n' 'class Point { constructor(x, y) { this.x = x; this.y = y; } get norm() { return this.x ** 2 + this.y ** 2; } }' \
        'const all = Array.from({ length: 400 }, (_, i) => new Point(i * 31 % 97, i));' 'const m = new Map();' \
        'for (const p of all) m.set(p.x, (m.get(p.x) ?? 0n) + BigInt(p.norm) ** 5n);' \
        'console.log([...m].slice(0, 5).map(([k, v]) => `${k}: ${v}`).join("\n"), "abcabc".replace(/(?<=a)b/g, "x"), JSON.stringify(all[7]));' > script.mjs
    printf '%s\n' '#ifdef A' 'int a;' '#else' 'int not_a;' '#endif' '#if defined(B) || defined(C)' 'int b;' '#endif' 'int c;' > macros
    printf '%s\n' '%token NUMBER' "%left '+' '-'" "%left '*'" '%%' 'list: | list sum ";" ;' "sum: sum '+' sum | sum '-' sum | sum '*' sum | '(' sum ')' | NUMBER ;" '%%' > grammar.y
    : > made-more
}
