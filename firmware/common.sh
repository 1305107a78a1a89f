# Read by the scripts of this folder, from the repository's root.
# shellcheck shell=sh disable=SC2034 # what is set here is used there

out=target/firmware

die() {
    printf 'firmware: %s\n' "$*" >&2
    exit 2
}

# Sets kit and tools, the folders of the Rattle toolchain and of its compiler.
find_kit() {
    command -v rt >/dev/null 2>&1 ||
        die 'the Rattle toolchain is missing: its command rt is not on the PATH'
    kit=$(dirname "$(rt doc)")
    tools=$kit/toolchain
    "$tools/bin/clang" --version >/dev/null 2>&1 ||
        die "the Rattle toolchain has no compiler that runs on this machine, $(uname -m)"
}
