#!/bin/sh
# The port's ln and exp as a shared library, target/elementary/libport.so, for the scripts beside this one. Run it in the repository's root.
set -e
folder=$(tools/library)
mkdir -p target/elementary
cc -shared -o target/elementary/libport.so -Wl,--whole-archive "$folder/libport.a" -Wl,--no-whole-archive
