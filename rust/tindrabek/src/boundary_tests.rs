//! What only a caller of the boundary itself can see or do: contexts out of bounds or far along, numbers that no enum has, null pointers,
//! that a refused call leaves every field as it was, and that a dropped context is cleared.
use crate::boundary::{
    tindrabek_receive_control, tindrabek_receive_media, tindrabek_receiver_set_up,
    tindrabek_send_control, tindrabek_send_media, tindrabek_sender_set_up, Profile as PlainProfile,
    Receiver as PlainReceiver, ReceiverSetUp, Sender as PlainSender, SenderSetUp, Window,
};
use crate::{Profile, Receiver, Refusal, Sender, SetUp, RCC_TAG_LEN};
use core::mem::{size_of, MaybeUninit};

const KEY: [u8; 16] = [7; 16];
const SALT: [u8; 14] = [9; 14];
const SSRC: u32 = 0x01020304;

fn set_up() -> SetUp<'static> {
    SetUp { ssrc: SSRC, key: &KEY, salt: &SALT, mki: &[5, 6], profile: Profile::default() }
}

fn rtp(number: u16) -> Vec<u8> {
    let [high, low] = number.to_be_bytes();
    vec![0x80, 0, high, low, 0, 0, 0, 0, 1, 2, 3, 4, 50, 51, 52]
}

const RTCP: [u8; 12] = [0x80, 200, 0, 2, 1, 2, 3, 4, 60, 61, 62, 63];

fn sender() -> Sender {
    Sender::set_up(&set_up()).unwrap()
}

fn receiver() -> Receiver {
    Receiver::set_up(&set_up(), 0, None).unwrap()
}

fn zero_sender() -> PlainSender {
    // SAFETY: every field is a number or an array of numbers.
    unsafe { core::mem::zeroed() }
}

#[test]
fn closed_contexts_are_zeros() {
    assert!(Sender::closed().0 == zero_sender());
    // SAFETY: every field is a number or an array of numbers.
    assert!(Receiver::closed().0 == unsafe { core::mem::zeroed::<PlainReceiver>() });
}

#[test]
fn a_sender_without_an_index_left_is_spent() {
    let mut out = [0xa5; 100];
    let mut s = sender();
    s.0.has_last = 1;
    s.0.last_index = (1 << 48) - 2;
    assert_eq!(s.send_media(&rtp(0xffff), &mut out).unwrap().index, (1 << 48) - 1);
    assert_eq!(s.send_media(&rtp(0), &mut out), Err(Refusal::Spent));
    s.0.control_sent = (1 << 31) - 1;
    assert_eq!(s.send_control(&RTCP, &mut out).unwrap().index, (1 << 31) - 1);
    assert_eq!(s.send_control(&RTCP, &mut out), Err(Refusal::Spent));
}

// Indices that no test sends its way to: the rollover counter at 2^16, at 2^31 and at its last value. The reference made the bytes:
// `Session::made_media` under this set-up, of the packet that `rtp` gives, at each index.
#[test]
fn packets_after_many_rollovers() {
    for (index, protected) in [
        (0x0001_0000_0000, "80000000000000000102030449553b0506ad2feb578168c86030ba"),
        (0x8000_0000_7fff, "80007fff0000000001020304e61b760506c7e6f578e055f66e572d"),
        (0xffff_ffff_ffff, "8000ffff00000000010203044186c3050610fd11dca61439cbea34"),
    ] {
        let (mut out, mut opened) = ([0; 100], [0; 100]);
        let mut s = sender();
        (s.0.has_last, s.0.last_index) = (1, index - 1);
        let plain = rtp(index as u16);
        let sent = s.send_media(&plain, &mut out).unwrap();
        let bytes: String = out[..sent.len].iter().map(|byte| format!("{byte:02x}")).collect();
        assert_eq!((sent.index, &bytes[..]), (index, protected));
        let mut r = Receiver::set_up(&set_up(), (index >> 16) as u32, None).unwrap();
        let received = r.receive_media(&out[..sent.len], &mut opened).unwrap();
        assert_eq!((received.index, &opened[..received.len]), (index, &plain[..]));
    }
}

// Puts RFC 4771's transform into a profile.
fn carry(profile: &mut PlainProfile, rate: u16, tag_len: usize) {
    *profile = PlainProfile { integrity: 1, rate, tag_len, ..*profile };
}

// Each change makes a value that is refused as SETUP: a profile or length off the list, a mark beyond its bound, or a number that no enum
// has.
#[test]
fn senders_out_of_bounds_are_refused_and_left_alone() {
    let changes: [fn(&mut PlainSender); 14] = [
        |s| s.session.profile.cipher = 2,
        |s| s.session.profile.cipher = u32::MAX,
        |s| s.session.profile.integrity = 2,
        |s| s.session.profile.integrity = u32::MAX,
        |s| s.has_last = 2,
        |s| s.session.profile.tag_len = 0,
        |s| s.session.profile.tag_len = RCC_TAG_LEN,
        |s| s.session.profile.tag_len = usize::MAX,
        |s| carry(&mut s.session.profile, 0, RCC_TAG_LEN),
        |s| carry(&mut s.session.profile, 1, 10),
        |s| s.session.mki_len = 5,
        |s| s.session.mki_len = usize::MAX,
        |s| (s.has_last, s.last_index) = (1, 1 << 48),
        |s| s.control_sent = (1 << 31) + 1,
    ];
    for (at, change) in changes.iter().enumerate() {
        let mut s = sender();
        change(&mut s.0);
        let was = s.0;
        let mut out = [0xa5; 100];
        assert_eq!(s.send_media(&rtp(1), &mut out), Err(Refusal::Setup), "change {at}");
        assert_eq!(s.send_control(&RTCP, &mut out), Err(Refusal::Setup), "change {at}");
        assert!(s.0 == was && out == [0xa5; 100], "change {at}");
    }
}

#[test]
fn receivers_out_of_bounds_are_refused_and_left_alone() {
    let changes: [fn(&mut PlainReceiver); 13] = [
        |r| r.session.profile.cipher = 2,
        |r| r.session.profile.integrity = 2,
        |r| r.media.has_highest = 2,
        |r| r.control.has_highest = u32::MAX,
        |r| r.session.profile.tag_len = 9,
        |r| r.session.profile.tag_len = RCC_TAG_LEN,
        |r| carry(&mut r.session.profile, 0, RCC_TAG_LEN),
        |r| carry(&mut r.session.profile, 1, 10),
        |r| r.session.mki_len = 5,
        |r| (r.media.has_highest, r.media.highest) = (1, 1 << 48),
        |r| (r.media.has_highest, r.media.highest) = (1, u64::MAX),
        |r| (r.control.has_highest, r.control.highest) = (1, 1 << 31),
        |r| (r.control.has_highest, r.control.highest) = (1, u64::MAX),
    ];
    let mut protected = [0; 100];
    let sent = sender().send_media(&rtp(1), &mut protected).unwrap();
    let protected = &protected[..sent.len];
    for (at, change) in changes.iter().enumerate() {
        let mut r = receiver();
        change(&mut r.0);
        let was = r.0;
        let mut out = [0xa5; 100];
        assert_eq!(r.receive_media(protected, &mut out), Err(Refusal::Setup), "change {at}");
        assert_eq!(r.receive_control(protected, &mut out), Err(Refusal::Setup), "change {at}");
        assert!(r.0 == was && out == [0xa5; 100], "change {at}");
    }
}

// A field that another makes void, an index, a window's words or a rate, is not looked at, and a refused call does not touch it either.
#[test]
fn a_senders_void_fields_are_not_looked_at() {
    let mut s = sender();
    s.0.last_index = u64::MAX;
    s.0.session.profile.rate = u16::MAX;
    let was = s.0;
    let mut out = [0; 100];
    assert_eq!(s.send_media(&rtp(5), &mut []), Err(Refusal::Room));
    assert!(s.0 == was);
    assert_eq!(s.send_media(&rtp(5), &mut out).unwrap().index, 5);
    assert_eq!((s.0.has_last, s.0.last_index, s.0.session.profile.rate), (1, 5, 0));
}

#[test]
fn a_receivers_void_fields_are_not_looked_at() {
    let (mut s, mut r) = (sender(), receiver());
    let void = Window { has_highest: 0, highest: u64::MAX, words: [u64::MAX; 16] };
    (r.0.media, r.0.control) = (void, void);
    r.0.session.profile.rate = u16::MAX;
    let was = r.0;
    let (mut protected, mut out) = ([0; 100], [0; 100]);
    let sent = s.send_media(&rtp(5), &mut protected).unwrap();
    assert_eq!(r.receive_media(&protected[..sent.len], &mut []), Err(Refusal::Room));
    assert!(r.0 == was);
    assert_eq!(r.receive_media(&protected[..sent.len], &mut out).unwrap().index, 5);
    assert!(r.0.media == marked(5, &[0]));
    assert_eq!(r.0.session.profile.rate, 0);
    let sent = s.send_control(&RTCP, &mut protected).unwrap();
    assert_eq!(r.receive_control(&protected[..sent.len], &mut out).unwrap().index, 0);
    assert!(r.0.control == marked(0, &[0]));
}

// The window that has accepted the indices so far behind this highest one: bit k of its words, the lowest first, is for the index k behind.
fn marked(highest: u64, behind: &[usize]) -> Window {
    let mut words = [0; 16];
    for back in behind {
        words[back / 64] |= 1 << (back % 64);
    }
    Window { has_highest: 1, highest, words }
}

#[test]
fn windows_hold_what_was_accepted() {
    let (mut s, mut r) = (sender(), receiver());
    let (mut protected, mut out) = ([0; 100], [0; 100]);
    let behind = [1023, 64, 63, 1, 0];
    for index in behind.map(|back| 2000 - back) {
        let sent = s.send_media(&rtp(index as u16), &mut protected).unwrap();
        r.receive_media(&protected[..sent.len], &mut out).unwrap();
        s.0.control_sent = index as u64;
        let sent = s.send_control(&RTCP, &mut protected).unwrap();
        r.receive_control(&protected[..sent.len], &mut out).unwrap();
    }
    assert!(r.0.media == marked(2000, &behind) && r.0.control == marked(2000, &behind));
}

// A profile with these numbers, whose tag is on the list.
fn numbered(cipher: u32, integrity: u32) -> PlainProfile {
    let tag_len = if integrity == 1 { RCC_TAG_LEN } else { 10 };
    PlainProfile { cipher, integrity, rate: 300, tag_len }
}

fn plain_sender(profile: PlainProfile) -> SenderSetUp {
    let (key, salt) = (KEY.as_ptr(), SALT.as_ptr());
    // SAFETY: each pointer goes with the length of its array, the null one with 0.
    unsafe { tindrabek_sender_set_up(SSRC, key, 16, salt, 14, core::ptr::null(), 0, profile) }
}

fn plain_receiver(profile: PlainProfile, known: u32) -> ReceiverSetUp {
    let (key, salt, mki) = (KEY.as_ptr(), SALT.as_ptr(), core::ptr::null());
    // SAFETY: as for a sender.
    unsafe { tindrabek_receiver_set_up(SSRC, key, 16, salt, 14, mki, 0, profile, 3, known, 4) }
}

#[test]
fn unknown_numbers_at_a_senders_set_up() {
    for (cipher, integrity, number) in
        [(0, 0, 0), (1, 1, 0), (2, 0, 1), (u32::MAX, 1, 1), (1, 2, 1), (0, u32::MAX, 1)]
    {
        let made = plain_sender(numbered(cipher, integrity));
        assert_eq!(made.number, number, "cipher {cipher}, integrity {integrity}");
        assert_eq!(made.number != 0, made.context == Sender::closed().0);
    }
}

#[test]
fn unknown_numbers_at_a_receivers_set_up() {
    for (cipher, integrity, known, number) in [
        (0, 0, 0, 0),
        (1, 1, 1, 0),
        (2, 0, 0, 1),
        (u32::MAX, 1, 1, 1),
        (1, 2, 0, 1),
        (0, u32::MAX, 1, 1),
        (1, 1, 2, 1),
        (0, 0, u32::MAX, 1),
    ] {
        let made = plain_receiver(numbered(cipher, integrity), known);
        assert_eq!(made.number, number, "cipher {cipher}, integrity {integrity}, known {known}");
        assert_eq!(made.number != 0, made.context == Receiver::closed().0);
    }
}

// All of it, but for a rate that is not looked at.
#[test]
fn a_context_holds_the_profile_of_its_set_up() {
    for (given, rate) in [(numbered(1, 1), 300), (numbered(0, 0), 0)] {
        let held = PlainProfile { rate, ..given };
        assert!(plain_sender(given).context.session.profile == held);
        assert!(plain_receiver(given, 1).context.session.profile == held);
    }
}

#[test]
fn a_receiver_starts_where_its_set_up_says() {
    for (known, highest) in [(1, 3 * 65536 + 4), (0, 0)] {
        let r = plain_receiver(numbered(1, 0), known).context;
        assert_eq!((r.rollover, r.media.has_highest, r.media.highest), (3, known, highest));
    }
}

#[test]
fn no_bytes_at_a_null_pointer() {
    let mut s = sender();
    let mut r = receiver();
    let none = core::ptr::null();
    // SAFETY: a pointer with length 0 is not followed.
    unsafe {
        assert_eq!(tindrabek_send_media(&mut s.0, none, 0, core::ptr::null_mut(), 0).number, 3);
        assert_eq!(tindrabek_send_control(&mut s.0, none, 0, core::ptr::null_mut(), 0).number, 3);
        assert_eq!(tindrabek_receive_media(&mut r.0, none, 0, core::ptr::null_mut(), 0).number, 3);
        assert_eq!(
            tindrabek_receive_control(&mut r.0, none, 0, core::ptr::null_mut(), 0).number,
            3
        );
    }
}

// Whether every byte of a dropped value is zero.
fn is_cleared<T>(dropped: &MaybeUninit<T>) -> bool {
    let bytes = dropped.as_ptr().cast::<u8>();
    // SAFETY: the bytes are the value's own, and its drop has written each, padding too.
    (0..size_of::<T>()).all(|at| unsafe { bytes.add(at).read() } == 0)
}

#[test]
fn a_dropped_context_is_cleared() {
    let mut s = MaybeUninit::new(sender());
    let mut r = MaybeUninit::new(receiver());
    // SAFETY: both are made, are dropped once, and are not used as contexts afterwards.
    unsafe {
        assert!(s.assume_init_ref().0 != Sender::closed().0);
        assert!(r.assume_init_ref().0 != Receiver::closed().0);
        s.as_mut_ptr().drop_in_place();
        r.as_mut_ptr().drop_in_place();
    }
    assert!(is_cleared(&s) && is_cleared(&r));
}
