#!/usr/bin/env bash
# usage: bash host/page.sh: a dailies room's page, in words: host/page.c is built against the proved archive (proved first, where need be) and run
set -eu
cd "${0%"${0##*/}"}./.."   # as by dirname, which may be missing
"$BASH" host/build.sh page
target/host/page
