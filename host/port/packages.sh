#!/bin/sh
# Installs the Debian packages that host/port/check.sh and host/bench-instructions.sh need besides the kit and cc: emulators,
# a C compiler and C library for bare Arm, valgrind. Runs as root or by sudo. Only .ci/run calls it, and only where CI is set.
set -eu
packages="qemu-system-arm qemu-user gcc-arm-none-eabi libnewlib-arm-none-eabi valgrind"
fail() {
    echo "host/port/packages.sh: $*" >&2
    exit 1
}
command -v apt-get > /dev/null || fail "no apt-get; install by other means: $packages"
as_root=
if [ "$(id -u)" -ne 0 ]; then
    command -v sudo > /dev/null || fail "not root, and no sudo"
    as_root=sudo
fi
$as_root apt-get update
# the names are words of their own
$as_root env DEBIAN_FRONTEND=noninteractive apt-get install -y --no-install-recommends $packages
