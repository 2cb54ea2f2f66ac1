// Included by build scripts: a folder that a variable of the environment names.

/// The folder, if the variable names one. It must be absolute: a build script runs in its crate's folder, where a relative path would
/// mean another.
fn chosen(variable: &str) -> Result<Option<std::path::PathBuf>, String> {
    println!("cargo::rerun-if-env-changed={variable}");
    let named = std::env::var_os(variable).filter(|folder| !folder.is_empty());
    let folder = named.map(std::path::PathBuf::from);
    match folder.as_ref().filter(|folder| folder.is_relative()) {
        Some(relative) => Err(format!("{variable} is {}, and an absolute path is expected", relative.display())),
        None => Ok(folder),
    }
}
