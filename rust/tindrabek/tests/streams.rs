//! Streams through the boundary: what is sent comes back, and each refusal is given where it should be.
use tindrabek::{
    Cipher, Integrity, Packet, Profile, Receiver, Refusal, Sender, SetUp, MAX_PACKET_LEN,
    MAX_RESULT_LEN, RCC_TAG_LEN,
};

// The master key and master salt of RFC 3711, B.3.
const KEY: [u8; 16] = [
    0xe1, 0xf9, 0x7a, 0x0d, 0x3e, 0x01, 0x8b, 0xe0, 0xd6, 0x4f, 0xa3, 0x2c, 0x06, 0xde, 0x41, 0x39,
];
const SALT: [u8; 14] =
    [0x0e, 0xc6, 0x75, 0xad, 0x49, 0x8a, 0xfe, 0xeb, 0xb6, 0x96, 0x0b, 0x3a, 0xab, 0xe6];
const SSRC: u32 = 0xcafebabe;

fn plain_set_up() -> SetUp<'static> {
    SetUp { ssrc: SSRC, key: &KEY, salt: &SALT, mki: &[], profile: Profile::default() }
}

fn with_tag(integrity: Integrity, tag_len: usize) -> SetUp<'static> {
    SetUp { profile: Profile { integrity, tag_len, ..Profile::default() }, ..plain_set_up() }
}

// The tags of packets whose sequence number is 0 modulo the rate carry the rollover counter.
fn carrying_set_up(rate: u16) -> SetUp<'static> {
    with_tag(Integrity::Rccm2 { rate }, RCC_TAG_LEN)
}

// Each cipher with each integrity transform and tag of the list, and with each length of an MKI.
fn every_set_up() -> Vec<SetUp<'static>> {
    let mut set_ups = Vec::new();
    for listed in [
        with_tag(Integrity::HmacSha1, 4),
        with_tag(Integrity::HmacSha1, 10),
        carrying_set_up(1),
        carrying_set_up(3),
        carrying_set_up(u16::MAX),
    ] {
        for cipher in [Cipher::Aes, Cipher::Null] {
            let profile = Profile { cipher, ..listed.profile };
            set_ups.extend((0..=4).map(|n| SetUp { mki: &[1, 2, 3, 4][..n], profile, ..listed }));
        }
    }
    set_ups
}

fn hex(digits: &str) -> Vec<u8> {
    (0..digits.len())
        .step_by(2)
        .map(|at| u8::from_str_radix(&digits[at..at + 2], 16).unwrap())
        .collect()
}

fn rtp(number: u16, payload: &[u8]) -> Vec<u8> {
    let mut packet = vec![0x80, 15];
    packet.extend(number.to_be_bytes());
    packet.extend([0xde, 0xca, 0xfb, 0xad]);
    packet.extend(SSRC.to_be_bytes());
    packet.extend(payload);
    packet
}

fn rtcp(report: &[u8]) -> Vec<u8> {
    let mut packet = vec![0x81, 200, 0, 11];
    packet.extend(SSRC.to_be_bytes());
    packet.extend(report);
    packet
}

fn pair(set_up: &SetUp) -> (Sender, Receiver) {
    (Sender::set_up(set_up).unwrap(), Receiver::set_up(set_up, 0, None).unwrap())
}

type Settled = Result<(Vec<u8>, u64), Refusal>;

// The bytes that came out, and that those behind them are as they were.
fn written(out: &[u8], packet: Packet) -> Vec<u8> {
    assert!(out[packet.len..].iter().all(|b| *b == 0xa5));
    out[..packet.len].to_vec()
}

fn media(sender: &mut Sender, packet: &[u8]) -> Settled {
    let mut out = [0xa5; MAX_RESULT_LEN];
    let answer = sender.send_media(packet, &mut out);
    settled(answer, &out)
}

fn control(sender: &mut Sender, packet: &[u8]) -> Settled {
    let mut out = [0xa5; MAX_RESULT_LEN];
    let answer = sender.send_control(packet, &mut out);
    settled(answer, &out)
}

fn opened(receiver: &mut Receiver, packet: &[u8]) -> Settled {
    let mut out = [0xa5; MAX_RESULT_LEN];
    let answer = receiver.receive_media(packet, &mut out);
    settled(answer, &out)
}

fn opened_control(receiver: &mut Receiver, packet: &[u8]) -> Settled {
    let mut out = [0xa5; MAX_RESULT_LEN];
    let answer = receiver.receive_control(packet, &mut out);
    settled(answer, &out)
}

fn settled(answer: Result<Packet, Refusal>, out: &[u8]) -> Settled {
    match answer {
        Ok(packet) => Ok((written(out, packet), packet.index)),
        Err(refusal) => {
            assert!(out.iter().all(|b| *b == 0xa5));
            Err(refusal)
        }
    }
}

// ---- published packets, and round trips

#[test]
fn published_media_packet() {
    let (mut sender, mut receiver) = pair(&plain_set_up());
    let packet = rtp(0x1234, &[0xab; 16]);
    let protected =
        hex("800f1234decafbadcafebabe4e55dc4ce79978d88ca4d215949d2402b78d6acc99ea179b8dbb");
    assert_eq!(media(&mut sender, &packet), Ok((protected.clone(), 0x1234)));
    assert_eq!(opened(&mut receiver, &protected), Ok((packet, 0x1234)));
}

#[test]
fn published_control_packet() {
    let (mut sender, mut receiver) = pair(&plain_set_up());
    let packet = rtcp(&[0xab; 16]);
    let protected =
        hex("81c8000bcafebabeb19c219a086b6c7ae61d8e0bfeb4be3f800000005631d6cfc906cdb30f41");
    assert_eq!(control(&mut sender, &packet), Ok((protected.clone(), 0)));
    assert_eq!(opened_control(&mut receiver, &protected), Ok((packet, 0)));
}

// The published packet with a tag that carries its rollover counter, 0, and with one that does not: 0x1234 is 0 modulo 4, and 4 modulo 8.
#[test]
fn published_media_packet_under_rccm2() {
    let packet = rtp(0x1234, &[0xab; 16]);
    let ciphered = "800f1234decafbadcafebabe4e55dc4ce79978d88ca4d215949d2402";
    let mac = "b78d6acc99ea179b8dbb";
    for (rate, tag_front) in [(4, format!("00000000{mac}")), (8, mac.to_string())] {
        let (mut sender, mut receiver) = pair(&carrying_set_up(rate));
        let (protected, index) = media(&mut sender, &packet).unwrap();
        let front = hex(&format!("{ciphered}{tag_front}"));
        assert_eq!((index, protected.len()), (0x1234, packet.len() + RCC_TAG_LEN));
        assert_eq!(protected[..front.len()], front, "rate {rate}");
        assert_eq!(opened(&mut receiver, &protected), Ok((packet.clone(), 0x1234)));
    }
}

#[test]
fn media_round_trips_under_every_set_up() {
    for set_up in every_set_up() {
        let (mut sender, mut receiver) = pair(&set_up);
        let trailer = set_up.mki.len() + set_up.profile.tag_len;
        for (at, len) in [0, 1, 15, 16, 17, 1000, 2036].into_iter().enumerate() {
            let packet = rtp(at as u16, &vec![at as u8; len]);
            let (protected, index) = media(&mut sender, &packet).unwrap();
            assert_eq!((protected.len(), index), (packet.len() + trailer, at as u64));
            assert_eq!(
                protected[12..12 + len] == packet[12..],
                len == 0 || set_up.profile.cipher == Cipher::Null
            );
            assert_eq!(opened(&mut receiver, &protected), Ok((packet, index)));
        }
    }
}

#[test]
fn control_round_trips_under_every_set_up() {
    for set_up in every_set_up() {
        let (mut sender, mut receiver) = pair(&set_up);
        let trailer = 4 + set_up.mki.len() + 10;
        for (at, len) in [0, 4, 16, 1000, 2040].into_iter().enumerate() {
            let packet = rtcp(&vec![at as u8; len]);
            let (protected, index) = control(&mut sender, &packet).unwrap();
            assert_eq!((protected.len(), index), (packet.len() + trailer, at as u64));
            assert_eq!(opened_control(&mut receiver, &protected), Ok((packet, index)));
        }
    }
}

// ---- the order of packets

#[test]
fn repeated_packets_are_accepted_once() {
    let (mut sender, mut receiver) = pair(&plain_set_up());
    let (one, _) = media(&mut sender, &rtp(1, b"one")).unwrap();
    let (report, _) = control(&mut sender, &rtcp(b"abcd")).unwrap();
    assert!(opened(&mut receiver, &one).is_ok());
    assert!(opened_control(&mut receiver, &report).is_ok());
    assert_eq!(opened(&mut receiver, &one), Err(Refusal::Repeat));
    assert_eq!(opened_control(&mut receiver, &report), Err(Refusal::Repeat));
}

#[test]
fn a_forged_packet_does_not_shut_out_the_good_one() {
    let (mut sender, mut receiver) = pair(&plain_set_up());
    let (good, _) = media(&mut sender, &rtp(9, b"payload")).unwrap();
    let (report, _) = control(&mut sender, &rtcp(b"abcd")).unwrap();
    for at in 0..good.len() {
        let mut forged = good.clone();
        forged[at] ^= 1;
        assert!(opened(&mut receiver, &forged).is_err(), "byte {at}");
    }
    let mut forged = good.clone();
    *forged.last_mut().unwrap() ^= 0x80;
    assert_eq!(opened(&mut receiver, &forged), Err(Refusal::Forged));
    assert!(opened(&mut receiver, &good).is_ok());
    let mut forged = report.clone();
    *forged.last_mut().unwrap() ^= 0x80;
    assert_eq!(opened_control(&mut receiver, &forged), Err(Refusal::Forged));
    assert!(opened_control(&mut receiver, &report).is_ok());
}

#[test]
fn the_rollover_counter_goes_on() {
    let (mut sender, mut receiver) = pair(&plain_set_up());
    let mut late = Vec::new();
    for (number, index) in [
        (65_534, 65_534),
        (65_535, 65_535),
        (0, 65_536),
        (1, 65_537),
        (32_768, 98_304),
        (65_535, 131_071),
        (3, 131_075),
    ] {
        let packet = rtp(number, b"x");
        let (protected, at) = media(&mut sender, &packet).unwrap();
        assert_eq!(at, index);
        if number == 65_535 && index == 65_535 {
            late = protected;
        } else {
            assert_eq!(opened(&mut receiver, &protected), Ok((packet, index)));
            if index == 65_537 {
                assert_eq!(opened(&mut receiver, &late), Ok((rtp(65_535, b"x"), 65_535)));
            }
        }
    }
}

// The protected packets of the indices from 0 on, all media or all control, and the call that opens them.
struct Sent {
    packets: Vec<Vec<u8>>,
    open: fn(&mut Receiver, &[u8]) -> Settled,
}

impl Sent {
    fn both_kinds(count: u16) -> [Sent; 2] {
        let mut sender = Sender::set_up(&plain_set_up()).unwrap();
        let packets = (0..count).map(|n| media(&mut sender, &rtp(n, b"x")).unwrap().0).collect();
        let reports = (0..count).map(|_| control(&mut sender, &rtcp(b"abcd")).unwrap().0).collect();
        [Sent { packets, open: opened }, Sent { packets: reports, open: opened_control }]
    }

    // The index at which the receiver opens one of them.
    fn opened(&self, receiver: &mut Receiver, at: usize) -> Result<u64, Refusal> {
        (self.open)(receiver, &self.packets[at]).map(|(_, index)| index)
    }
}

#[test]
fn the_window_covers_1023_behind_the_highest() {
    for sent in Sent::both_kinds(1026) {
        let (_, mut receiver) = pair(&plain_set_up());
        for (at, answer) in [
            (1025, Ok(1025)),
            (1, Err(Refusal::Old)),
            (2, Ok(2)),
            (2, Err(Refusal::Repeat)),
            (1024, Ok(1024)),
        ] {
            assert_eq!(sent.opened(&mut receiver, at), answer);
        }
    }
}

// Steps of an odd number, modulo 1,024, come to every packet: of 1,023 from the highest down, of 65 and 389 to and fro over the window's
// words and their bits.
#[test]
fn packets_out_of_order_are_each_accepted_once() {
    for sent in Sent::both_kinds(1024) {
        for step in [1023, 65, 389] {
            let (_, mut receiver) = pair(&plain_set_up());
            for at in (1..=1024).map(|turn| turn * step % 1024) {
                assert_eq!(sent.opened(&mut receiver, at), Ok(at as u64), "steps of {step}");
            }
            for at in 0..1024 {
                let again = sent.opened(&mut receiver, at);
                assert_eq!(again, Err(Refusal::Repeat), "steps of {step}, index {at}");
            }
        }
    }
}

#[test]
fn a_receiver_joins_at_a_rollover_counter() {
    let mut sender = Sender::set_up(&plain_set_up()).unwrap();
    let mut sent = Vec::new();
    for number in [0x7000, 0xe000, 0x4000] {
        sent = media(&mut sender, &rtp(number, b"x")).unwrap().0;
    }
    for last in [None, Some(0x3fff), Some(0x4000), Some(0x4001)] {
        let mut receiver = Receiver::set_up(&plain_set_up(), 1, last).unwrap();
        assert_eq!(opened(&mut receiver, &sent).unwrap().1, 0x14000, "last number {last:?}");
    }
    let mut receiver = Receiver::set_up(&plain_set_up(), 0, None).unwrap();
    assert_eq!(opened(&mut receiver, &sent), Err(Refusal::Forged));
    let mut receiver = Receiver::set_up(&plain_set_up(), 0, Some(5)).unwrap();
    assert_eq!(
        opened(
            &mut receiver,
            &media(&mut Sender::set_up(&plain_set_up()).unwrap(), &rtp(0xfffa, b"x")).unwrap().0
        ),
        Err(Refusal::Old)
    );
}

// A receiver that starts at a wrong rollover counter, and with no last number, reads the right one from the first packet that carries it.
#[test]
fn a_late_joiner_catches_up_at_a_packet_that_carries_the_counter() {
    let set_up = carrying_set_up(4);
    let mut sender = Sender::set_up(&set_up).unwrap();
    let mut sent = |number| media(&mut sender, &rtp(number, b"x")).unwrap().0;
    for before_the_rollover in [0x7000, 0xe000] {
        sent(before_the_rollover);
    }
    let [one, three, four, five] = [0x4001, 0x4003, 0x4004, 0x4005].map(&mut sent);
    for rollover in [0, 2, u32::MAX] {
        let mut receiver = Receiver::set_up(&set_up, rollover, None).unwrap();
        assert_eq!(opened(&mut receiver, &one), Err(Refusal::Forged));
        assert_eq!(opened(&mut receiver, &three), Err(Refusal::Forged));
        for (packet, number) in [(&four, 0x4004), (&five, 0x4005), (&three, 0x4003)] {
            let index = 0x10000 + u64::from(number);
            assert_eq!(opened(&mut receiver, packet), Ok((rtp(number, b"x"), index)));
        }
        assert_eq!(opened(&mut receiver, &four), Err(Refusal::Repeat));
    }
}

// The carried counter is that of the index, which goes into HMAC-SHA1: a wrong one makes the tag wrong.
#[test]
fn a_forged_counter_is_refused_and_does_not_move_the_receiver() {
    let (mut sender, mut receiver) = pair(&carrying_set_up(1));
    let (good, _) = media(&mut sender, &rtp(9, b"payload")).unwrap();
    for at in good.len() - RCC_TAG_LEN..good.len() {
        let mut forged = good.clone();
        forged[at] ^= 1;
        assert_eq!(opened(&mut receiver, &forged), Err(Refusal::Forged), "byte {at}");
    }
    assert_eq!(opened(&mut receiver, &good), Ok((rtp(9, b"payload"), 9)));
}

// ---- refusals

#[test]
fn set_ups_off_the_list_are_refused() {
    let long = [0; 40];
    for bad in [
        SetUp { key: &KEY[..15], ..plain_set_up() },
        SetUp { key: &long[..17], ..plain_set_up() },
        SetUp { key: &[], ..plain_set_up() },
        SetUp { salt: &SALT[..13], ..plain_set_up() },
        SetUp { salt: &long[..15], ..plain_set_up() },
        SetUp { mki: &long[..5], ..plain_set_up() },
        with_tag(Integrity::HmacSha1, 0),
        with_tag(Integrity::HmacSha1, 9),
        with_tag(Integrity::HmacSha1, RCC_TAG_LEN),
        with_tag(Integrity::HmacSha1, usize::MAX),
        with_tag(Integrity::Rccm2 { rate: 1 }, 4),
        with_tag(Integrity::Rccm2 { rate: 1 }, 10),
        carrying_set_up(0),
    ] {
        assert_eq!(Sender::set_up(&bad).err(), Some(Refusal::Setup));
        assert_eq!(Receiver::set_up(&bad, 0, Some(1)).err(), Some(Refusal::Setup));
    }
}

#[test]
fn closed_contexts_refuse_every_call() {
    let (mut sender, mut receiver) = (Sender::closed(), Receiver::closed());
    let (mut open, _) = pair(&plain_set_up());
    let (protected, _) = media(&mut open, &rtp(1, b"x")).unwrap();
    let (report, _) = control(&mut open, &rtcp(b"abcd")).unwrap();
    for _ in 0..2 {
        assert_eq!(media(&mut sender, &rtp(1, b"x")), Err(Refusal::Setup));
        assert_eq!(control(&mut sender, &rtcp(b"abcd")), Err(Refusal::Setup));
        assert_eq!(opened(&mut receiver, &protected), Err(Refusal::Setup));
        assert_eq!(opened_control(&mut receiver, &report), Err(Refusal::Setup));
    }
}

#[test]
fn every_refusal_of_a_sender() {
    let (mut sender, _) = pair(&plain_set_up());
    let mut out = [0xa5; MAX_RESULT_LEN];
    assert_eq!(media(&mut sender, &rtp(1, &[0; MAX_PACKET_LEN - 11])), Err(Refusal::Long));
    assert_eq!(control(&mut sender, &rtcp(&[0; MAX_PACKET_LEN - 4])), Err(Refusal::Long));
    assert_eq!(media(&mut sender, &rtp(1, b"")[..11]), Err(Refusal::Shape));
    assert_eq!(media(&mut sender, &rtcp(b"abcd")[..11]), Err(Refusal::Shape));
    assert_eq!(control(&mut sender, &rtcp(b"abc")), Err(Refusal::Shape));
    let mut other = rtp(1, b"x");
    other[11] ^= 1;
    assert_eq!(media(&mut sender, &other), Err(Refusal::Stream));
    let mut other = rtcp(b"abcd");
    other[7] ^= 1;
    assert_eq!(control(&mut sender, &other), Err(Refusal::Stream));
    assert_eq!(sender.send_media(&rtp(1, b"x"), &mut out[..22]), Err(Refusal::Room));
    assert_eq!(sender.send_control(&rtcp(b"abcd"), &mut out[..25]), Err(Refusal::Room));
    assert!(out.iter().all(|b| *b == 0xa5));
    assert!(media(&mut sender, &rtp(100, b"x")).is_ok());
    assert_eq!(media(&mut sender, &rtp(100, b"x")), Err(Refusal::Order));
    assert_eq!(media(&mut sender, &rtp(99, b"x")), Err(Refusal::Order));
    assert_eq!(media(&mut sender, &rtp(32_868, b"x")), Err(Refusal::Order));
    assert_eq!(media(&mut sender, &rtp(32_867, b"x")).unwrap().1, 32_867);
}

#[test]
fn every_refusal_of_a_receiver() {
    let set_up = SetUp { mki: &[8], ..plain_set_up() };
    let (mut sender, mut receiver) = pair(&set_up);
    let (protected, _) = media(&mut sender, &rtp(1030, b"x")).unwrap();
    let (report, _) = control(&mut sender, &rtcp(b"abcd")).unwrap();
    let mut out = [0xa5; MAX_RESULT_LEN];
    assert_eq!(opened(&mut receiver, &[0x80; MAX_PACKET_LEN + 12]), Err(Refusal::Long));
    assert_eq!(opened_control(&mut receiver, &[0x80; MAX_PACKET_LEN + 16]), Err(Refusal::Long));
    assert_eq!(opened(&mut receiver, &protected[..22]), Err(Refusal::Shape));
    assert_eq!(opened_control(&mut receiver, &report[..22]), Err(Refusal::Shape));
    let changed = |packet: &[u8], at: usize| {
        let mut packet = packet.to_vec();
        packet[at] ^= 1;
        packet
    };
    assert_eq!(opened(&mut receiver, &changed(&protected, 8)), Err(Refusal::Stream));
    assert_eq!(opened_control(&mut receiver, &changed(&report, 4)), Err(Refusal::Stream));
    assert_eq!(receiver.receive_media(&protected, &mut out[..12]), Err(Refusal::Room));
    assert_eq!(receiver.receive_control(&report, &mut out[..11]), Err(Refusal::Room));
    assert!(out.iter().all(|b| *b == 0xa5));
    assert_eq!(opened(&mut receiver, &changed(&protected, 13)), Err(Refusal::Key));
    assert_eq!(opened_control(&mut receiver, &changed(&report, 16)), Err(Refusal::Key));
    assert_eq!(opened(&mut receiver, &changed(&protected, 12)), Err(Refusal::Forged));
    assert_eq!(opened_control(&mut receiver, &changed(&report, 8)), Err(Refusal::Forged));
    assert_eq!(opened(&mut receiver, &protected).unwrap().1, 1030);
    assert_eq!(opened(&mut receiver, &protected), Err(Refusal::Repeat));
    assert_eq!(opened_control(&mut receiver, &report).unwrap().1, 0);
    assert_eq!(opened_control(&mut receiver, &report), Err(Refusal::Repeat));
    let sent: Vec<_> = (0..1024).map(|_| control(&mut sender, &rtcp(b"abcd")).unwrap().0).collect();
    assert_eq!(opened_control(&mut receiver, &sent[1023]).unwrap().1, 1024);
    assert_eq!(opened_control(&mut receiver, &report), Err(Refusal::Old));
    let (old, _) = media(&mut Sender::set_up(&set_up).unwrap(), &rtp(6, b"x")).unwrap();
    assert_eq!(opened(&mut receiver, &old), Err(Refusal::Old));
    let mut last = Receiver::set_up(&set_up, u32::MAX, Some(u16::MAX)).unwrap();
    let (over, _) = media(&mut Sender::set_up(&set_up).unwrap(), &rtp(0, b"x")).unwrap();
    assert_eq!(opened(&mut last, &over), Err(Refusal::Spent));
}

#[test]
fn refusals_have_numbers_names_and_words() {
    for (at, refusal) in Refusal::ALL.into_iter().enumerate() {
        assert_eq!(refusal.number() as usize, at + 1);
        assert_eq!(Refusal::from_number(refusal.number()), Some(refusal));
        assert_eq!(refusal.name(), format!("{refusal:?}").to_uppercase());
        assert!(refusal.to_string().starts_with(refusal.name()));
    }
    assert_eq!((Refusal::from_number(0), Refusal::from_number(12)), (None, None));
    let error: Box<dyn std::error::Error> = Box::new(Refusal::Forged);
    assert_eq!(error.to_string(), "FORGED (the authentication tag is wrong)");
}
