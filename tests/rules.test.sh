#!/usr/bin/env bash
# docs/RULES.md names definitions that are there, and every definition of the rules.
exec python3 "$(dirname "${BASH_SOURCE[0]}")/rules.py" "$(dirname "${BASH_SOURCE[0]}")/.."
