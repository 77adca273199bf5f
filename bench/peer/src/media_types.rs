//! The media type of a file by its name, for the programs here that answer requests.

/// What stands behind the last `.` of the part behind the last `/` says it, without regard to case.
pub fn media_type(name: &[u8]) -> &'static str {
    let file = name.rsplit(|byte| *byte == b'/').next().unwrap_or(b"");
    let extension = match file.iter().rposition(|byte| *byte == b'.') {
        Some(dot) => file[dot + 1..].to_ascii_lowercase(),
        None => return "application/octet-stream",
    };
    match extension.as_slice() {
        b"html" | b"htm" => "text/html",
        b"css" => "text/css",
        b"js" => "text/javascript",
        b"txt" => "text/plain",
        b"json" => "application/json",
        b"xml" => "application/xml",
        b"svg" => "image/svg+xml",
        b"png" => "image/png",
        b"jpg" | b"jpeg" => "image/jpeg",
        b"gif" => "image/gif",
        b"ico" => "image/x-icon",
        b"woff2" => "font/woff2",
        b"wasm" => "application/wasm",
        b"pdf" => "application/pdf",
        _ => "application/octet-stream",
    }
}
