# Sourced by the tools that run Rust: makes the paths that they are given absolute, goes to the top of the repository, and has what such a
# tool says if it cannot do what it was asked to.

# Cargo runs a build script in its package's folder, where a relative path means another folder.
for name in MIRALIS_SRC MATNOSORU_LIB_DIR; do
    [ -z "${!name:-}" ] || export "$name=$(realpath -m -- "${!name}")"
done
cd "$(dirname "${BASH_SOURCE[0]}")/.."
text=${MIRALIS_SRC:-../shared/docs/src}

have_rust() { command -v cargo >/dev/null && command -v rustc >/dev/null; }
have_text() { [ -f "$text/src/decoder.rs" ]; }

# Each takes what is then not done, and fails with status 3.
unable() { printf '%s: %s\n' "$(basename "$0")" "$*" >&2; exit 3; }
need_rust() { have_rust || unable "cargo and rustc are not both on the path, so nothing is $1"; }
need_text() { have_text || unable "there is no Miralis text in $text (MIRALIS_SRC names its folder), so nothing is $1"; }
