#!/bin/sh
# Times RIPEMD-160 of 1 MiB, ours and OpenSSL's, in one run, and prints both rates and the ratio.
# Wants the toolchain's `rt`, a C compiler and OpenSSL's headers; LIBS names another libcrypto.
set -eu
top=$(cd "$(dirname "$0")/.." && pwd)
work=$(mktemp -d)
trap 'rm -rf "$work"' EXIT
(cd "$top/crates/digest_c" && rt lib >"$work/lib.log" 2>&1) || { cat "$work/lib.log" >&2; exit 1; }
${CC:-cc} -O2 -o "$work/ripemd160" "$top/bench/ripemd160.c" "$top/crates/digest_c/out/libdigest_c.a" ${LIBS:--lcrypto}
"$work/ripemd160" | "$top/bench/bounds.py" "the rate of RIPEMD-160 to OpenSSL's" ratio ratio least 0.8
