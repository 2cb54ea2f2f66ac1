# Sourced by the scripts that link the archive: which one YOLTZIMUR_ARCHIVE names, and how it is built where none is named.

# The repository, by its absolute path: a script that sources this may change its folder.
repository=$(cd "$(dirname "${BASH_SOURCE[0]}")/.." && pwd)
agreed=$repository/include/unit.h

# The folder in which `rt lib` writes it.
built_archive=$repository/crates/unit/out

# The name by which the header links; an archive of another version has it not.
guard_name() { sed -n 's/^uint32_t \(unit_abi_[0-9_]*\)(void);$/\1/p' "$agreed"; }

# The folder that is named, by its absolute path, since cargo's build scripts run in another folder; nothing where none is named.
named_archive() { # TOOL
    [ -n "${YOLTZIMUR_ARCHIVE:-}" ] || return 0
    local named="YOLTZIMUR_ARCHIVE is $YOLTZIMUR_ARCHIVE" guard
    [ -f "$YOLTZIMUR_ARCHIVE/libunit.a" ] || { echo "$1: $named, which has no libunit.a" >&2; return 1; }
    guard=$(guard_name)
    grep -qaF "$guard" "$YOLTZIMUR_ARCHIVE/libunit.a" || { echo "$1: $named, whose libunit.a has no $guard: it is of another version" >&2; return 1; }
    readlink -f "$YOLTZIMUR_ARCHIVE"
}

# Proves the crates and builds the archive, with the instructions that every x86-64 has; with no --cpu it would ask for a later processor.
build_archive() { # TOOL
    command -v rt >/dev/null ||
        { echo "$1: rt, of the Rattle kit, is not on the PATH; install it, or set YOLTZIMUR_ARCHIVE to the folder of a libunit.a" >&2; return 1; }
    (cd "$repository/crates/unit" && rt lib --cpu x86-64) || { echo "$1: rt lib failed in crates/unit" >&2; return 1; }
}
