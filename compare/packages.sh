#!/usr/bin/env bash
# Installs the Debian packages that a comparison needs, those that are missing. No other script installs anything.
#
#   compare/packages.sh TOOL...              installs them; says nothing where all are there
#   compare/packages.sh --missing TOOL...    installs nothing, writes the names of those that are missing in one line
#
# TOOL is vectors, judge or bench. With NO_INSTALL set (to anything) nothing is installed.
# Exit status: 0 all are there, or are listed; 2 bad usage; 3 they cannot be had (a line on standard error says which).
set -euo pipefail

packages_of() {
    case $1 in
    vectors) echo librust-bincode-dev librust-serde-dev librust-serde-derive-dev ;;
    judge)
        packages_of vectors
        echo librust-tracing-dev
        ;;
    bench) packages_of judge ;;
    *) return 2 ;;
    esac
}

installed() {
    [ "$(dpkg-query -W -f='${db:Status-Status}' "$1" 2>/dev/null)" = installed ]
}

list=no
if [ "${1:-}" = --missing ]; then
    list=yes
    shift
fi
missing=()
for tool in "${@:-none}"; do
    packages=$(packages_of "$tool") || {
        echo "usage: packages.sh [--missing] vectors|judge|bench ..." >&2
        exit 2
    }
    for package in $packages; do
        [[ " ${missing[*]} " == *" $package "* ]] || installed "$package" || missing+=("$package")
    done
done
if [ $list = yes ]; then
    echo "${missing[*]}"
    exit
fi
[ ${#missing[@]} -gt 0 ] || exit 0

cannot() {
    echo "packages.sh: cannot install ${missing[*]}: $1" >&2
    exit 3
}
[ -z "${NO_INSTALL:-}" ] || cannot "NO_INSTALL is set"

# One at a time: a lock of apt's lists is not waited for.
exec 9>"${TMPDIR:-/tmp}/rojbendal-packages.lock"
flock 9

log=$(mktemp)
trap 'rm -f "$log"' EXIT

# Somebody else may be installing at the same time, so wait for dpkg's lock.
apt() {
    DEBIAN_FRONTEND=noninteractive apt-get -qq -o DPkg::Lock::Timeout=300 "$@" >>"$log" 2>&1
}

# A failed update is no fault by itself: the lists of an earlier one may do.
apt update || true
apt install -y --no-install-recommends "${missing[@]}" || cannot "$(grep -m1 '^E: ' "$log" || echo "apt-get gave no reason")"
