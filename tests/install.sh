#!/usr/bin/env bash
# Installs Debian packages by apt, where it can, with the lists of packages made new first. It says nothing and does not fail: who wants a program looks
# afterwards whether it is there.
wait=(-o Acquire::http::Timeout=15 -o Acquire::Retries=1 -o DPkg::Lock::Timeout=120)
export DEBIAN_FRONTEND=noninteractive
{
    apt-get update "${wait[@]}"
    apt-get install -y --no-install-recommends "${wait[@]}" "$@"
} >/dev/null 2>&1
exit 0
