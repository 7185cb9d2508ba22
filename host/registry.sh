# Where the crates of this workspace come from. Cargo's own registry where it has one: an earlier download, or a source in its configuration; or where there
# is no Debian. Else the folder in which Debian's packages put crates. CRATES=own or CRATES=debian decides it by hand.

debian_crates=/usr/share/cargo/registry

has_own_registry() {
    case "${CRATES:-}" in
    own) return 0 ;;
    debian) return 1 ;;
    esac
    home=${CARGO_HOME:-$HOME/.cargo}
    command -v apt-get >/dev/null || return 0
    find "$home/registry/cache" -name '*.crate' 2>/dev/null | grep -q . && return 0
    cat "$home/config" "$home/config.toml" 2>/dev/null | grep -Eq '^ *\[(source|registr)'
}
