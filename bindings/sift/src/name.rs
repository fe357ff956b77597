//! Names of pages. They come out of a file that anybody may have sent, and
//! become names of files: so they are held to one strict rule, both ways.

use std::ffi::OsStr;

/// The most bytes of a name.
pub const MAX_NAME: usize = 255;

/// The name of a page that came by standard input.
pub const UNNAMED: &str = "page.pbm";

/// Whether a page may have this name; if not, why.
pub fn check(name: &str) -> Result<(), String> {
    let too_long = format!("it has more than {MAX_NAME} bytes");
    let fault = if name.is_empty() {
        "it is empty"
    } else if name.len() > MAX_NAME {
        &too_long
    } else if name == "." || name == ".." {
        "it is a directory's"
    } else if name.starts_with('-') {
        "it starts with '-', and would be taken for an option"
    } else if name.contains(['/', '\\']) {
        "it has a '/' or a '\\', and would leave the directory"
    } else if name.contains(char::is_control) {
        "it has a control character"
    } else {
        return Ok(());
    };
    Err(format!("a page cannot have the name {name:?}: {fault}"))
}

/// The name of a file's picture: the first has the file's own name, the second
/// of `sheet.pbm` is `sheet-2.pbm`, and so on.
pub fn of_picture(file: &OsStr, number: usize) -> Result<String, String> {
    let Some(file) = file.to_str() else {
        return Err(format!("the name {file:?} is not UTF-8"));
    };
    let name = match file.rsplit_once('.') {
        _ if number == 1 => file.to_string(),
        Some((stem, ending)) if !stem.is_empty() => format!("{stem}-{number}.{ending}"),
        _ => format!("{file}-{number}"),
    };
    check(&name).map(|()| name)
}
