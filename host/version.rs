// Included where an archive is linked or loaded: whether it is of this version.

/// Refuses an archive in which the name is not found by which this version links. That the archive has that export is seen by what links it.
fn of_this_version(archive: &std::path::Path) -> Result<(), String> {
    let guard = concat!("unit_abi_", env!("CARGO_PKG_VERSION_MAJOR"), "_", env!("CARGO_PKG_VERSION_MINOR"));
    let bytes = std::fs::read(archive).map_err(|problem| format!("{}: {problem}", archive.display()))?;
    if bytes.windows(guard.len()).any(|part| part == guard.as_bytes()) {
        return Ok(());
    }
    let version = env!("CARGO_PKG_VERSION");
    Err(format!("{} has no {guard}: it is of another version than {version}", archive.display()))
}
