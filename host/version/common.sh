# What check and raise share, which source it at the repository's root: where the number stands, and what it stands for.
header=host/include/unmavreth.h
crate=host/rust/src/raw.rs
code=crates/host/src/version.rt
definition=crates/host/specs/Interface.antt
numbers=host/version/numbers.txt

number_in_header() {
    sed -n 's/^#define UNMAVRETH_INTERFACE //p' "$header"
}

# A sum over the enums, the structs and the calls of the header, without comments, preprocessor lines and spacing, and without the number.
sum_of_interface() {
    sed -e 's|//.*||' -e '/^#/d' -e '/unmavreth_interface_/,/;/d' "$header" | tr -s ' \n' ' ' | sha256sum | cut -d' ' -f1
}
