//! Which processor an archive is for: what the build script reads before it links one.

#[path = "../archive.rs"]
mod archive;

use archive::processor;

/// The first bytes of an ELF object of so many bits (1: 32, 2: 64), and some that follow.
fn object(bits: u8, order: u8, machine: u8) -> Vec<u8> {
    let mut object = vec![0x7F, b'E', b'L', b'F', bits, order, 1];
    object.resize(64, 0);
    object[18] = machine;
    object
}

fn member(name: &str, contents: &[u8]) -> Vec<u8> {
    let header = format!("{name:<16}{:<32}{:<10}`\n", "0", contents.len());
    let even: &[u8] = if contents.len() % 2 == 1 { b"\n" } else { b"" };
    [header.as_bytes(), contents, even].concat()
}

fn archive_of(members: &[Vec<u8>]) -> Vec<u8> {
    [b"!<arch>\n", members.concat().as_slice()].concat()
}

fn of_object(object: &[u8]) -> Option<&'static str> {
    processor(&archive_of(&[member("clew_c.o/", object)]))
}

#[test]
fn each_processor_has_its_name() {
    assert_eq!(of_object(&object(2, 1, 62)), Some("x86-64"));
    assert_eq!(of_object(&object(2, 1, 183)), Some("aarch64"));
    assert_eq!(of_object(&object(1, 1, 40)), Some("arm"));
    assert_eq!(of_object(&object(2, 1, 243)), Some("riscv64"));
    assert_eq!(of_object(&object(1, 1, 243)), Some("riscv32"));
    assert_eq!(of_object(b"\0asm\x01\0\0\0"), Some("wasm32"));
}

#[test]
fn others_are_none_of_these() {
    assert_eq!(of_object(&object(1, 1, 62)), Some("another processor"), "32 bits of x86-64");
    assert_eq!(of_object(&object(2, 2, 183)), Some("another processor"), "aarch64 with the high byte first");
    assert_eq!(of_object(&object(1, 1, 8)), Some("another processor"));
}

#[test]
fn tables_before_the_object_are_skipped() {
    let object = member("clew_c.o/", &object(2, 1, 183));
    for tables in [&["/"][..], &["/SYM64/"], &["/", "//"]] {
        for length in [0, 7, 8] {
            let mut members: Vec<Vec<u8>> = tables.iter().map(|name| member(name, &vec![0x7F; length])).collect();
            members.push(object.clone());
            assert_eq!(processor(&archive_of(&members)), Some("aarch64"), "{tables:?} of {length} bytes");
        }
    }
    assert_eq!(processor(&archive_of(&[member("/", &[0; 8])])), None, "a table alone");
}

#[test]
fn a_cut_archive_is_none() {
    let whole = archive_of(&[member("/", &[1, 2, 3]), member("clew_c.o/", &object(2, 1, 62))]);
    assert_eq!(processor(&whole), Some("x86-64"));
    for length in 0..whole.len() {
        assert_eq!(processor(&whole[..length]), None, "{length} bytes");
    }
    for length in 0..20 {
        assert_eq!(of_object(&object(2, 1, 62)[..length]), None, "an object of {length} bytes");
    }
}

#[test]
fn what_is_no_archive_is_none() {
    assert_eq!(processor(&object(2, 1, 62)), None, "an object alone");
    assert_eq!(of_object(&[b'x'; 64]), None, "a text in an archive");
    let whole = archive_of(&[member("clew_c.o/", &object(2, 1, 62))]);
    for (at, byte) in [(0, b'?'), (8 + 48, b'x'), (8 + 57, 0xFF), (8 + 58, b'?')] {
        let mut damaged = whole.clone();
        damaged[at] = byte;
        assert_eq!(processor(&damaged), None, "byte {at}");
    }
    let mut far = whole;
    far[8 + 48..8 + 58].fill(b'9');
    assert_eq!(processor(&far), None, "a size beyond the end");
}
