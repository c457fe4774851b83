#!/bin/sh
# Builds glb-prices, the one program of the tools that is compiled (Debian: g++ and liblemon-dev).
#
#     tools/native/build.sh [OUT]         OUT is tools/native/glb-prices where it is not given
set -eu
here=$(cd "$(dirname "$0")" && pwd)
out=${1:-$here/glb-prices}
version=$(sed -n 's/^VERSION = "\(.*\)"$/\1/p' "$here/../glb_tools/__init__.py")
${CXX:-g++} -DVERSION="\"$version\"" -std=c++17 -O2 -Wall -Wno-maybe-uninitialized -o "$out.new" "$here/prices.cc"
mv "$out.new" "$out"
