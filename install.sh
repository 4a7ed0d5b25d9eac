#!/usr/bin/env bash
# Installs the header, the static library and its pkg-config file under a folder:
#     bash install.sh PREFIX
# The library has to be built before: bash library.sh
set -euo pipefail
if [ $# -ne 1 ]; then
    echo "usage: bash install.sh PREFIX" >&2
    exit 2
fi
prefix=$(realpath -m "$1")
cd "$(dirname "$0")"
library=target/staticlib/libeventlog.a
if [ ! -f "$library" ]; then
    echo "install: $library is missing: run \`bash library.sh\` first" >&2
    exit 1
fi
version=$(sed -n 's/^#define EVENTLOG_VERSION "\(.*\)"$/\1/p' include/eventlog.h)
install -d "$prefix/include" "$prefix/lib/pkgconfig"
install -m 644 include/eventlog.h "$prefix/include/"
install -m 644 "$library" "$prefix/lib/"
sed -e "s|@PREFIX@|$prefix|" -e "s|@VERSION@|$version|" include/eventlog.pc.in >"$prefix/lib/pkgconfig/eventlog.pc"
