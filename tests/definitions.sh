#!/usr/bin/env bash
# Edits of the definitions, each refused by the crates that prove theorems of them: tools/definition_edits.
set -eu
cd "$(dirname "$0")/.."
bash tools/definition_edits.sh
