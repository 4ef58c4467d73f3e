#!/usr/bin/env bash
# Unpacks a Debian package for x86-64 to a folder, where that is not there and where it can: bash tests/unpack.sh PACKAGE FOLDER
# It is for what cannot be installed beside the machine's own. The lists of packages are its own too. It says nothing and does not fail: who wants a program
# looks afterwards whether it is there.
[ ! -e "$2" ] || exit 0
room=$(mktemp -d) || exit 0
trap 'rm -rf "$room"' EXIT
own=(-o APT::Architecture=amd64 -o APT::Architectures=amd64 -o "Dir::State::lists=$room/lists" -o Dir::State::status=/dev/null -o "Dir::Cache=$room"
    -o APT::Sandbox::User=root -o Acquire::http::Timeout=15 -o Acquire::Retries=1)
{
    mkdir -p "$room"/{lists,archives}/partial "${2%/*}" && cd "$room" &&
        apt-get "${own[@]}" update && apt-get "${own[@]}" download "$1" && dpkg-deb -x ./*.deb unpacked && mv -T unpacked "$2"
} >/dev/null 2>&1
exit 0
