//! Request heads by their grammar: that of `httparse` 1.10 as it comes, written out line by line.
//!
//! The crate that Debian has is older and takes fewer targets, so it can't be asked.

const MAX_FIELDS: usize = 64;

pub struct Request<'b> {
    pub method: &'b [u8],
    pub target: &'b [u8],
    /// What stands behind `HTTP/1.`.
    pub minor: u8,
    pub fields: Vec<(&'b [u8], &'b [u8])>,
}

impl<'b> Request<'b> {
    /// The values of the fields of a name, whose letters may be small or large.
    pub fn values<'f>(&'f self, name: &'f str) -> impl Iterator<Item = &'b [u8]> + 'f {
        self.fields.iter().filter(move |field| field.0.eq_ignore_ascii_case(name.as_bytes())).map(|field| field.1)
    }

    pub fn has(&self, name: &str) -> bool {
        self.values(name).next().is_some()
    }
}

fn is_token(bytes: &[u8]) -> bool {
    let is_in_token = |byte: &u8| byte.is_ascii_alphanumeric() || b"!#$%&'*+-.^_`|~".contains(byte);
    !bytes.is_empty() && bytes.iter().all(is_in_token)
}

fn is_target(bytes: &[u8]) -> bool {
    let is_seen = |byte: &u8| *byte > 0x20 && *byte != 0x7F;
    !bytes.is_empty() && bytes.iter().all(is_seen) && std::str::from_utf8(bytes).is_ok()
}

fn is_value(bytes: &[u8]) -> bool {
    bytes.iter().all(|byte| *byte == b'\t' || *byte >= 0x20 && *byte != 0x7F)
}

pub fn without_blanks(mut bytes: &[u8]) -> &[u8] {
    while let [b' ' | b'\t', rest @ ..] = bytes {
        bytes = rest;
    }
    while let [rest @ .., b' ' | b'\t'] = bytes {
        bytes = rest;
    }
    bytes
}

fn field(line: &[u8]) -> Option<(&[u8], &[u8])> {
    let colon = line.iter().position(|byte| *byte == b':')?;
    let (name, value) = (&line[..colon], &line[colon + 1..]);
    (is_token(name) && is_value(value)).then(|| (name, without_blanks(value)))
}

/// The request that all of the bytes are, which begin with its first line and end with an empty one.
pub fn request(head: &[u8]) -> Option<Request<'_>> {
    let mut lines = head.split_inclusive(|byte| *byte == b'\n').map(|line| {
        let line = line.strip_suffix(b"\n").unwrap_or(line);
        line.strip_suffix(b"\r").unwrap_or(line)
    });
    let mut words = lines.next()?.split(|byte| *byte == b' ');
    let (method, target, version) = (words.next()?, words.next()?, words.next()?);
    let minor = match version {
        b"HTTP/1.0" => 0,
        b"HTTP/1.1" => 1,
        _ => return None,
    };
    if words.next().is_some() || !is_token(method) || !is_target(target) {
        return None;
    }
    let fields: Vec<_> = lines.take_while(|line| !line.is_empty()).map(field).collect::<Option<_>>()?;
    (fields.len() <= MAX_FIELDS).then_some(Request { method, target, minor, fields })
}
