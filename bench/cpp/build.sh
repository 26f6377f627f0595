#!/bin/sh
# Builds a program of bench/cpp against the C++ library of protobuf, cat.cc where none is named: build.sh OUT [SOURCE]. Says
# what is missing, and ends with 1, where g++, protoc or the library's headers aren't there (Debian: protobuf-compiler and
# libprotobuf-dev).
set -eu
here=$(CDPATH='' cd -- "$(dirname -- "$0")" && pwd)
out=$1
source=${2:-cat.cc}
for tool in g++ protoc; do
    command -v "$tool" >/dev/null || { echo "bench/cpp: no $tool here" >&2; exit 1; }
done
echo '#include <google/protobuf/arena.h>' | g++ -E -x c++ - >/dev/null 2>&1 ||
    { echo "bench/cpp: no headers of protobuf here" >&2; exit 1; }
made=$(mktemp -d)
trap 'rm -rf "$made"' EXIT
protoc -I "$here" --cpp_out="$made" "$here/pb.proto"
g++ -std=c++17 -O2 -DNDEBUG -I "$made" -o "$out" "$here/$source" "$made/pb.pb.cc" -lprotobuf -pthread
