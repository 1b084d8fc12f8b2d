//! The published vectors of each standard.

mod common;

use common::{bytes, receiver, rtcp, rtp, sender, set_up, set_up_rccm2, MASTER_KEY, MASTER_SALT};
use reference::aes::{Aes, S_BOX};
use reference::context::Finished;
use reference::counter_mode::{initial_counter, keystream};
use reference::derive::{derived_key, number};
use reference::hmac::HmacSha1;
use reference::session::Session;
use reference::settings::SetUp;
use reference::sha1::Sha1;

const FIPS_KEY: &str = "2b7e151628aed2a6abf7158809cf4f3c";

fn encrypt(key: &[u8], plain: &str) -> Vec<u8> {
    let block: [u8; 16] = bytes(plain).try_into().unwrap();
    Aes::new(key).unwrap().encrypt(&block).to_vec()
}

#[test]
fn fips_197_blocks() {
    let counting: Vec<u8> = (0..32).collect();
    let cases = [
        (bytes(FIPS_KEY), "3243f6a8885a308d313198a2e0370734", "3925841d02dc09fbdc118597196a0b32"),
        (
            counting[..16].to_vec(),
            "00112233445566778899aabbccddeeff",
            "69c4e0d86a7b0430d8cdb78070b4c55a",
        ),
        (
            counting[..24].to_vec(),
            "00112233445566778899aabbccddeeff",
            "dda97ca4864cdfe06eaf70a0ec0d7191",
        ),
        (
            counting[..32].to_vec(),
            "00112233445566778899aabbccddeeff",
            "8ea2b7ca516745bfeafc49904b496089",
        ),
    ];
    for (key, plain, cipher) in cases {
        assert_eq!(encrypt(&key, plain), bytes(cipher));
    }
}

#[test]
fn fips_197_key_expansion() {
    let words = Aes::new(&bytes(FIPS_KEY)).unwrap().round_key_words();
    assert_eq!(words.len(), 44);
    assert_eq!(words[40..], [0xd014f9a8, 0xc9ee2589, 0xe13f0cc8, 0xb6630ca6]);
}

#[test]
fn only_aes_key_lengths_are_keys() {
    for length in 0..=40 {
        let is_key = Aes::new(&vec![0; length]).is_some();
        assert_eq!(is_key, [16, 24, 32].contains(&length), "{length}");
    }
}

#[test]
fn fips_197_s_box() {
    assert_eq!(S_BOX[..8], [0x63, 0x7c, 0x77, 0x7b, 0xf2, 0x6b, 0x6f, 0xc5]);
    assert_eq!(S_BOX[0x53], 0xed);
    assert_eq!(S_BOX[0xff], 0x16);
    let mut sorted = S_BOX;
    sorted.sort_unstable();
    assert!(sorted.iter().enumerate().all(|(place, byte)| place == usize::from(*byte)));
}

#[test]
fn rfc_3711_b_2_keystream() {
    let cipher = Aes::new(&bytes(FIPS_KEY)).unwrap();
    let first = number(&bytes("f0f1f2f3f4f5f6f7f8f9fafbfcfd0000"));
    let cases = [
        (0x0000, "e03ead0935c95e80e166b16dd92b4eb4"),
        (0x0001, "d23513162b02d0f72a43a2fe4a5f97ab"),
        (0x0002, "41e95b3bb0a2e8dd477901e4fca894c0"),
        (0xfeff, "ec8cdf7398607cb0f2d21675ea9ea1e4"),
        (0xff00, "362b7c3c6773516318a077d7fc5073ae"),
        (0xff01, "6a2cc3787889374fbeb4c81b17ba6c44"),
    ];
    let whole = keystream(&cipher, first, 16 * 0xff02);
    for (block, expected) in cases {
        assert_eq!(keystream(&cipher, first + block as u128, 16), bytes(expected));
        assert_eq!(whole[16 * block..16 * (block + 1)], bytes(expected));
    }
}

#[test]
fn counter_wraps_past_its_top() {
    let cipher = Aes::new(&bytes(FIPS_KEY)).unwrap();
    let two = keystream(&cipher, u128::MAX, 32);
    assert_eq!(two[16..], keystream(&cipher, 0, 16));
}

#[test]
fn initial_counter_of_salt_0_ssrc_1_index_1() {
    assert_eq!(initial_counter(0, 1, 1), number(&bytes("00000000 00000001 00000000 00010000")));
}

#[test]
fn rfc_3711_b_3_session_keys() {
    let master = Aes::new(&bytes(MASTER_KEY)).unwrap();
    let salt = number(&bytes(MASTER_SALT));
    let cases = [
        (0, "c61e7a93744f39ee10734afe3ff7a087"),
        (
            1,
            "cebe321f6ff7716b6fd4ab49af256a156d38baa48f0a0acf3c34e2359e6cdbcee049646c43d9327ad175\
             578ef72270986371c10c9a369ac2f94a8c5fbcdddc256d6e919a48b610ef17c2041e474035766b68642c\
             59bbfc2f34db60dbdfb2",
        ),
        (2, "30cbbc08863d8c85d49db34a9ae1"),
        (3, "4c1aa45a81f73d61c800bbb00fbb1eaa"),
        (4, "8d54534feb49ae8e7993a6bd0b844fc323a93dfd"),
        (5, "9581c7ad87b3e530bf3e4454a8b3"),
    ];
    for (label, expected) in cases {
        let expected = bytes(expected);
        assert_eq!(derived_key(&master, salt, label, expected.len()), expected, "label {label}");
    }
}

#[test]
fn rfc_2202_hmac_sha1() {
    let counting: Vec<u8> = (1..=25).collect();
    let cases: [(Vec<u8>, Vec<u8>, &str); 7] = [
        (vec![0x0b; 20], b"Hi There".to_vec(), "b617318655057264e28bc0b6fb378c8ef146be00"),
        (
            b"Jefe".to_vec(),
            b"what do ya want for nothing?".to_vec(),
            "effcdf6ae5eb2fa2d27416d5f184df9c259a7c79",
        ),
        (vec![0xaa; 20], vec![0xdd; 50], "125d7342b9ac11cd91a39af48aa17b4f63f175d3"),
        (counting, vec![0xcd; 50], "4c9007f4026250c6bc8414f9bf50c86c2d7235da"),
        (
            vec![0x0c; 20],
            b"Test With Truncation".to_vec(),
            "4c1a03424b55e07fe7f27be1d58bb9324a9a5a04",
        ),
        (
            vec![0xaa; 80],
            b"Test Using Larger Than Block-Size Key - Hash Key First".to_vec(),
            "aa4ae5e15272d00e95705637ce8a3b55ed402112",
        ),
        (
            vec![0xaa; 80],
            b"Test Using Larger Than Block-Size Key and Larger Than One Block-Size Data".to_vec(),
            "e8e99d0f45237d786d6bbaa7965c7808bbff1a91",
        ),
    ];
    for (key, data, expected) in cases {
        let hmac = HmacSha1::new(&key);
        assert_eq!(hmac.mac(&[&data]).to_vec(), bytes(expected));
        let (front, back) = data.split_at(data.len() / 3);
        assert_eq!(hmac.mac(&[front, &[], back]).to_vec(), bytes(expected));
    }
}

#[test]
fn fips_180_4_digests() {
    let cases: [(&[u8], &str); 3] = [
        (b"abc", "a9993e364706816aba3e25717850c26c9cd0d89d"),
        (b"", "da39a3ee5e6b4b0d3255bfef95601890afd80709"),
        (
            b"abcdbcdecdefdefgefghfghighijhijkijkljklmklmnlmnomnopnopq",
            "84983e441c3bd26ebaae4aa1f95129e5e54670f1",
        ),
    ];
    for (message, expected) in cases {
        assert_eq!(Sha1::digest(message).to_vec(), bytes(expected));
    }
}

#[test]
fn a_digest_does_not_depend_on_the_cuts() {
    let message: Vec<u8> = (0..=255).collect();
    for length in 0..message.len() {
        let (front, back) = message.split_at(length);
        let mut hash = Sha1::new();
        hash.update(front);
        hash.update(back);
        assert_eq!(hash.finish(), Sha1::digest(&message));
    }
}

/// What the proved program `vectors` has beside published digests: lengths around the ends of
/// blocks, of bytes that count up from 0 modulo 251, and one message cut at every place.
#[test]
fn stored_digests_around_the_ends_of_blocks() {
    let message: Vec<u8> = (0..2048).map(|place| (place % 251) as u8).collect();
    let stored = include_str!("../../crates/vectors/stdout").lines();
    let mut met = Vec::new();
    for line in stored.filter_map(|line| line.strip_prefix("SHA-1 length ")) {
        let (length, digest) = line.split_once(' ').unwrap();
        if let Ok(length) = length.parse::<usize>() {
            assert_eq!(Sha1::digest(&message[..length]).to_vec(), bytes(digest), "length {length}");
            met.push(length);
        } else {
            let whole = Sha1::digest(&message[..200]);
            let same = |cut: &usize| {
                let mut hash = Sha1::new();
                hash.update(&message[..*cut]);
                hash.update(&message[*cut..200]);
                hash.finish() == whole
            };
            let cuts = (0..=200).filter(same).count();
            assert_eq!(line, format!("200, cuts with that digest: {cuts}"));
        }
    }
    assert_eq!(met, [0, 1, 55, 56, 63, 64, 65, 119, 120, 128, 2048, 200]);
}

#[test]
fn a_whole_media_packet() {
    let plain = rtp(0x1234, 16);
    let protected =
        bytes("800f1234decafbadcafebabe4e55dc4ce79978d88ca4d215949d2402b78d6acc99ea179b8dbb");
    let mut out = [0; 64];
    let finished = sender(&set_up()).send_media(&plain, &mut out);
    assert_eq!(finished, Ok(Finished { index: 0x1234, length: 38 }));
    assert_eq!(out[..38], protected);
    assert_eq!(out[38..], [0; 26]);
    let opened = receiver(&set_up(), 0, None).receive_media(&protected, &mut out);
    assert_eq!(opened, Ok(Finished { index: 0x1234, length: 28 }));
    assert_eq!(out[..28], plain);
}

#[test]
fn a_whole_control_packet() {
    let plain = rtcp(16);
    let protected =
        bytes("81c8000bcafebabeb19c219a086b6c7ae61d8e0bfeb4be3f800000005631d6cfc906cdb30f41");
    let mut out = [0; 64];
    let finished = sender(&set_up()).send_control(&plain, &mut out);
    assert_eq!(finished, Ok(Finished { index: 0, length: 38 }));
    assert_eq!(out[..38], protected);
    let opened = receiver(&set_up(), 0, None).receive_control(&protected, &mut out);
    assert_eq!(opened, Ok(Finished { index: 0, length: 24 }));
    assert_eq!(out[..24], plain);
}

/// Computed with other makers' AES and HMAC: a large index, a short tag, an MKI, both ciphers.
#[test]
fn packets_with_mki_and_short_tag() {
    let cases = [
        (
            1,
            "800f1234decafbadcafebabeccb65cba10baaa24c3154d26776f52af0a0b0cd485d5ef",
            "81c8000bcafebabe5aeb6a4d5d23f6fe720b828fc41cabc7923456780a0b0c4693874bb6447d22d25e",
        ),
        (
            0,
            "800f1234decafbadcafebabeabababababababababababababababab0a0b0cd78d9ab0",
            "81c8000bcafebabeabababababababababababababababab123456780a0b0c5ca52959f4ace9828480",
        ),
    ];
    for (cipher, media, control) in cases {
        let values = SetUp { cipher, tag_length: 4, mki: bytes("0a0b0c"), ..set_up() };
        let session = Session::set_up(&values).unwrap();
        assert_eq!(session.made_media(&rtp(0x1234, 16), 0x89ab_cdef_1234), Some(bytes(media)));
        let made = session.made_control(&rtcp(16), 0x1234_5678, cipher == 1);
        assert_eq!(made, Some(bytes(control)));
    }
}

/// RFC 4771's tags at rate 3, computed with Python's hmac and another maker's AES. With this
/// count, 3 divides the first number and not its index, and the second index and not its number.
#[test]
fn rfc_4771_tags() {
    const COUNT: u32 = 0x89ab_cdef;
    let cases = [
        (1, 0x1230, "41f9877c1206547588e4c22afc0681a2", "89abcdef 4e8025909a46c9781cce"),
        (1, 0x1234, "ccb65cba10baaa24c3154d26776f52af", "d485d5efe2e1933ced69f39d7d95"),
        (0, 0x1230, "abababababababababababababababab", "89abcdef df6044e18349b95abaa1"),
        (0, 0x1234, "abababababababababababababababab", "d78d9ab000a511b601be4755708f"),
    ];
    for (cipher, number, text, tag) in cases {
        let values = SetUp { cipher, mki: bytes("0a0b0c"), ..set_up_rccm2(3) };
        let (plain, index) = (rtp(number, 16), u64::from(COUNT) << 16 | u64::from(number));
        let expected = [&plain[..12], &bytes(text), &bytes("0a0b0c"), &bytes(tag)].concat();
        let made = Session::set_up(&values).unwrap().made_media(&plain, index);
        assert_eq!(made, Some(expected.clone()));
        let mut out = [0; 28];
        let opened = receiver(&values, COUNT, None).receive_media(&expected, &mut out);
        assert_eq!(opened, Ok(Finished { index, length: 28 }));
        assert_eq!(out[..], plain);
    }
}
