# The names that follow from VERSION, for the scripts that source this file at the repository's root.
version=$(cat VERSION)
archive_name=libginghamowl.a
library_name=libginghamowl.so
# The shared library's own name. Before 1.0 a minor version may change the interface, so both numbers are in it.
soname=$library_name.${version%.*}
