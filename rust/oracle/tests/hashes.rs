//! The check that iceberg's files are as they were.

#[path = "../build/sha256.rs"]
mod sha256;

use sha256::sha256;

#[test]
fn the_digests_of_known_texts() {
    let empty = "e3b0c44298fc1c149afbf4c8996fb92427ae41e4649b934ca495991b7852b855";
    let abc = "ba7816bf8f01cfea414140de5dae2223b00361a396177a9cb410ff61f20015ad";
    let two = "248d6a61d20638b8e5c026930c3e6039a33ce45964ff2167f6ecedd419db06c1";
    assert_eq!(sha256(b""), empty);
    assert_eq!(sha256(b"abc"), abc);
    assert_eq!(sha256(b"abcdbcdecdefdefgefghfghighijhijkijkljklmklmnlmnomnopnopq"), two);
}

#[test]
fn twelve_files_are_checked() {
    let hashes = include_str!("../VERBATIM.sha256");
    assert_eq!(hashes.lines().count(), 12);
    for line in hashes.lines() {
        let (hash, file) = line.split_once("  ").expect("hash, two blanks, file");
        assert_eq!(hash.len(), 64);
        assert!(file.starts_with("src/") && file.ends_with(".rs"), "{file}");
    }
}
