#!/usr/bin/env bash
# Rust for x86-64 on a machine of another kind: prints the folder of the standard library, for /usr/bin/rustc. Both are Debian's and of one version. The
# compiler is installed; the standard library is unpacked below /usr/local/lib, since as an installed package it would bring a second C library with it.
# Status 1: they cannot be had.
set -u
here=$(cd "$(dirname "${BASH_SOURCE[0]}")/.." && pwd)

# Where the standard library is unpacked that goes with the installed compiler; none goes with no compiler.
folder() {
    echo "/usr/local/lib/rust-x86-64/$(dpkg-query -W -f '${Version}' rustc-web 2>/dev/null || echo none)"
}

# Gets the package of the standard library and unpacks it to the folder $1. The lists of packages are its own: those of the machine stay as they are.
unpack() {
    local room own
    room=$(mktemp -d -p /usr/local/lib) || return
    own=(-o APT::Architecture=amd64 -o APT::Architectures=amd64 -o Dir::State::lists="$room/lists" -o Dir::State::status=/dev/null -o Dir::Cache="$room"
        -o APT::Sandbox::User=root -o Acquire::http::Timeout=15 -o Acquire::Retries=1)
    (
        mkdir -p "$room"/{lists,archives}/partial "${1%/*}" && cd "$room" &&
            apt-get "${own[@]}" update && apt-get "${own[@]}" download "libstd-rust-web-dev=${1##*/}" && dpkg-deb -x ./*.deb unpacked && mv -T unpacked "$1"
    ) >/dev/null 2>&1
    rm -rf "$room"
}

if ! [ -d "$(folder)/usr" ]; then
    bash "$here/tests/install.sh" rustc-web
    unpack "$(folder)"
fi
[ -d "$(folder)/usr" ] && echo "$(folder)/usr/lib/rustlib/x86_64-unknown-linux-gnu/lib"
