//! The build's SHA-256 against the vectors of FIPS 180-4.

#[path = "../build/sha256.rs"]
mod sha256;

use sha256::sha256_hex;

#[test]
fn the_standards_vectors() {
    let empty = "e3b0c44298fc1c149afbf4c8996fb92427ae41e4649b934ca495991b7852b855";
    let abc = "ba7816bf8f01cfea414140de5dae2223b00361a396177a9cb410ff61f20015ad";
    let two_blocks = "248d6a61d20638b8e5c026930c3e6039a33ce45964ff2167f6ecedd419db06c1";
    assert_eq!(sha256_hex(b""), empty);
    assert_eq!(sha256_hex(b"abc"), abc);
    assert_eq!(sha256_hex(b"abcdbcdecdefdefgefghfghighijhijkijkljklmklmnlmnomnopnopq"), two_blocks);
}
