#!/bin/sh
# Holds js/vpindex.js to the header, to what its own text says and to js/README.md: sh tools/js.sh, with
# target/wasm32/vpindex.wasm built and node there.
set -eu
cd "$(dirname "$0")/.."
python3 tools/js_header.py --check
mkdir -p target/js
python3 tools/js_header.py --sizes > target/js/sizes.json
node js/test.js target/wasm32/vpindex.wasm target/js/sizes.json
said=$(sed -n '/^```js$/,/^```$/{/^```/!p;}' js/README.md | node --input-type=module -)
[ "$said" = '036000000000101 0' ] || { echo "the program of js/README.md writes: $said"; exit 1; }
