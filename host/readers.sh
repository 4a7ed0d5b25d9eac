#!/usr/bin/env bash
# Compares the proved reader with other programs' readers, libevt's evtexport and Samba's ndrdump, on
# records that the proved writer wrote. Optional, and no part of the gate: it installs Debian packages.
set -euo pipefail
cd "$(dirname "$0")"
if ! command -v evtexport >/dev/null || ! command -v ndrdump >/dev/null; then
    apt-get update --quiet
    apt-get install --yes libevt-utils samba-testsuite
fi
bash ../library.sh
room=$(mktemp -d)
trap 'rm -rf "$room"' EXIT
cargo run --release --offline --quiet --bin readers "$room"
