//! Which processor an archive is for, by its first object.

/// The name of the processor, or nothing where the bytes are no archive of objects.
pub fn processor(archive: &[u8]) -> Option<&'static str> {
    let object = first_object(archive)?;
    if object.starts_with(b"\0asm") {
        return Some("wasm32");
    }
    let head = object.get(..20).filter(|head| head.starts_with(b"\x7FELF"))?;
    let (bits, order, machine) = (head[4], head[5], u16::from_le_bytes([head[18], head[19]]));
    Some(match (bits, order, machine) {
        (2, 1, 62) => "x86-64",
        (2, 1, 183) => "aarch64",
        (1, 1, 40) => "arm",
        (2, 1, 243) => "riscv64",
        (1, 1, 243) => "riscv32",
        _ => "another processor",
    })
}

/// The first member that is no table of names.
fn first_object(archive: &[u8]) -> Option<&[u8]> {
    let mut rest = archive.strip_prefix(b"!<arch>\n")?;
    loop {
        let (header, after) = rest.split_at_checked(60)?;
        let size = size(header)?;
        let member = after.get(..size)?;
        if !is_table(header) {
            return Some(member);
        }
        // A member begins at an even place.
        rest = after.get(size + size % 2..)?;
    }
}

/// How many bytes follow a member's header, if it is one.
fn size(header: &[u8]) -> Option<usize> {
    let digits = header.strip_suffix(b"`\n")?.get(48..)?;
    std::str::from_utf8(digits).ok()?.trim_end().parse().ok()
}

fn is_table(header: &[u8]) -> bool {
    matches!(header[..16].trim_ascii_end(), b"/" | b"//" | b"/SYM64/")
}
