//! The library's structs and functions as they are. `include/tindrabek.h` says the same for C.
use core::mem::{offset_of, size_of};

#[repr(C)]
#[derive(Clone, Copy, PartialEq, Eq)]
pub struct HashState {
    words: [u32; 5],
}

#[repr(C)]
#[derive(Clone, Copy, PartialEq, Eq)]
pub struct Keys {
    round: [u32; 44],
    inner: HashState,
    outer: HashState,
    salt: [u8; 14],
}

#[repr(C)]
#[derive(Clone, Copy, PartialEq, Eq)]
pub struct Profile {
    pub cipher: u32,
    pub integrity: u32,
    pub rate: u16,
    pub tag_len: usize,
}

#[repr(C)]
#[derive(Clone, Copy, PartialEq, Eq)]
pub struct Session {
    pub profile: Profile,
    pub ssrc: u32,
    mki: [u8; 4],
    pub mki_len: usize,
    media: Keys,
    control: Keys,
}

#[repr(C)]
#[derive(Clone, Copy, PartialEq, Eq)]
pub struct Sender {
    pub session: Session,
    pub has_last: u32,
    pub last_index: u64,
    pub control_sent: u64,
}

#[repr(C)]
#[derive(Clone, Copy, PartialEq, Eq)]
pub struct Window {
    pub has_highest: u32,
    pub highest: u64,
    pub words: [u64; 16],
}

#[repr(C)]
#[derive(Clone, Copy, PartialEq, Eq)]
pub struct Receiver {
    pub session: Session,
    pub rollover: u32,
    pub media: Window,
    pub control: Window,
}

#[repr(C)]
#[derive(Clone, Copy)]
pub struct Answer {
    pub number: u32,
    pub len: usize,
    pub index: u64,
}

#[repr(C)]
pub struct SenderSetUp {
    pub number: u32,
    pub context: Sender,
}

#[repr(C)]
pub struct ReceiverSetUp {
    pub number: u32,
    pub context: Receiver,
}

const _: () = {
    assert!(size_of::<HashState>() == 20);
    assert!(
        offset_of!(Keys, inner) == 176
            && offset_of!(Keys, outer) == 196
            && offset_of!(Keys, salt) == 216
            && size_of::<Keys>() == 232
    );
    assert!(
        offset_of!(Profile, integrity) == 4
            && offset_of!(Profile, rate) == 8
            && offset_of!(Profile, tag_len) == 16
            && size_of::<Profile>() == 24
    );
    assert!(
        offset_of!(Session, ssrc) == 24
            && offset_of!(Session, mki) == 28
            && offset_of!(Session, mki_len) == 32
    );
    assert!(
        offset_of!(Session, media) == 40
            && offset_of!(Session, control) == 272
            && size_of::<Session>() == 504
    );
    assert!(offset_of!(Sender, has_last) == 504 && offset_of!(Sender, last_index) == 512);
    assert!(offset_of!(Sender, control_sent) == 520 && size_of::<Sender>() == 528);
    assert!(
        offset_of!(Window, highest) == 8
            && offset_of!(Window, words) == 16
            && size_of::<Window>() == 144
    );
    assert!(offset_of!(Receiver, rollover) == 504 && offset_of!(Receiver, media) == 512);
    assert!(offset_of!(Receiver, control) == 656 && size_of::<Receiver>() == 800);
    assert!(
        offset_of!(Answer, len) == 8
            && offset_of!(Answer, index) == 16
            && size_of::<Answer>() == 24
    );
    assert!(offset_of!(SenderSetUp, context) == 8 && size_of::<SenderSetUp>() == 536);
    assert!(offset_of!(ReceiverSetUp, context) == 8 && size_of::<ReceiverSetUp>() == 808);
};

extern "C" {
    pub fn tindrabek_sender_set_up(
        ssrc: u32,
        key: *const u8,
        key_len: usize,
        salt: *const u8,
        salt_len: usize,
        mki: *const u8,
        mki_len: usize,
        profile: Profile,
    ) -> SenderSetUp;
    pub fn tindrabek_receiver_set_up(
        ssrc: u32,
        key: *const u8,
        key_len: usize,
        salt: *const u8,
        salt_len: usize,
        mki: *const u8,
        mki_len: usize,
        profile: Profile,
        rollover: u32,
        known: u32,
        number: u16,
    ) -> ReceiverSetUp;
    pub fn tindrabek_sender_closed() -> Sender;
    pub fn tindrabek_receiver_closed() -> Receiver;
    pub fn tindrabek_send_media(
        ctx: *mut Sender,
        packet: *const u8,
        packet_len: usize,
        out: *mut u8,
        out_len: usize,
    ) -> Answer;
    pub fn tindrabek_send_control(
        ctx: *mut Sender,
        packet: *const u8,
        packet_len: usize,
        out: *mut u8,
        out_len: usize,
    ) -> Answer;
    pub fn tindrabek_receive_media(
        ctx: *mut Receiver,
        packet: *const u8,
        packet_len: usize,
        out: *mut u8,
        out_len: usize,
    ) -> Answer;
    pub fn tindrabek_receive_control(
        ctx: *mut Receiver,
        packet: *const u8,
        packet_len: usize,
        out: *mut u8,
        out_len: usize,
    ) -> Answer;
}
