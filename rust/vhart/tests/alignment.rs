//! Images that don't stand at a multiple of 8: with the feature `aligned` no call on a record takes
//! them but the replay, and without it they are as good as others. A settings file may stand
//! anywhere, and so may a log.

use vhart::{
    slices, Caps, CapsWords, Hart, Logged, Refusal, Totals, CAPS_BYTES, ENTRY_BYTES, HART_BYTES,
    RESULT_BYTES, SETTINGS_BYTES, WAIT_BYTES,
};
#[cfg(feature = "aligned")]
use vhart::{Fault, FaultWord, Image};

/// Room for both images, each `shift` bytes behind a multiple of 8.
#[repr(C, align(8))]
struct Room {
    caps: [u8; CAPS_BYTES + 8],
    hart: [u8; HART_BYTES + 8],
}

impl Room {
    /// Legal images, behind which the bytes are 0xA5.
    fn new(caps_shift: usize, hart_shift: usize) -> Result<Room, Refusal> {
        let words = CapsWords {
            misa: 0x8000_0000_0014_1105,
            interrupts: 0xAAA,
            ..CapsWords::default()
        };
        let caps = Caps::from(words);
        let hart = Hart::fresh(&caps, 0x8000_0000)?;
        let mut room = Room {
            caps: [0xA5; CAPS_BYTES + 8],
            hart: [0xA5; HART_BYTES + 8],
        };
        room.caps[caps_shift..][..CAPS_BYTES].copy_from_slice(caps.as_bytes());
        room.hart[hart_shift..][..HART_BYTES].copy_from_slice(hart.as_bytes());
        Ok(room)
    }
}

/// The places of the two images behind a multiple of 8 at which one of them isn't at one.
fn shifts() -> impl Iterator<Item = (usize, usize)> {
    (0..8)
        .flat_map(|caps| (0..8).map(move |hart| (caps, hart)))
        .skip(1)
}

#[test]
#[cfg(feature = "aligned")]
fn no_call_on_a_record_takes_them() -> Result<(), Refusal> {
    for (at, to) in shifts() {
        let mut room = Room::new(at, to)?;
        let before = room.hart;
        let caps = &room.caps[at..][..CAPS_BYTES];
        let hart = &mut room.hart[to..][..HART_BYTES];
        macro_rules! refused {
            ($(#[$doc:meta] $access:tt $name:ident $variant:ident $entry:ident(
                $($arg:ident),* $(; $given:ident: $record:ident { $($field:ident),* })?
            );)*) => {$(
                let came = slices::$name(caps, hart $(, stringify!($arg).len() as u64)* $(, vhart::$record::default())?);
                assert_eq!(came.err(), Some(Refusal::NotAligned), "{}", stringify!($name));
            )*};
        }
        entries::list!([refused]);
        let host = vhart::Host::default();
        let came = slices::explain(caps, hart, 0x300, 0, host);
        assert_eq!(came, Err(Refusal::NotAligned));
        let mut totals = Totals::default();
        let came = slices::tally(caps, hart, 0x300, 0, host, &mut totals);
        assert_eq!((came, totals.writes), (Err(Refusal::NotAligned), 0));
        let came = slices::replay_end(caps, hart, &[0; WAIT_BYTES]);
        assert_eq!(came, Err(Refusal::NotAligned));
        let image = if at == 0 { Image::Hart } else { Image::Caps };
        let fault = Fault {
            refusal: Refusal::NotAligned,
            image,
            word: FaultWord::Alignment,
            value: 0,
        };
        assert_eq!(slices::check_hart(caps, hart), Err(fault));
        assert_eq!(slices::check_caps(caps).is_err(), at != 0);
        assert_eq!(room.hart, before);
    }
    Ok(())
}

#[test]
#[cfg(not(feature = "aligned"))]
fn they_are_as_good_as_others() -> Result<(), Refusal> {
    for (at, to) in shifts() {
        let mut room = Room::new(at, to)?;
        let caps = &room.caps[at..][..CAPS_BYTES];
        let hart = &mut room.hart[to..][..HART_BYTES];
        assert_eq!(slices::check_hart(caps, hart), Ok(()));
        assert_eq!(slices::fresh(caps, hart, 0x8000_0002), Ok(()));
        assert_eq!(slices::inject(caps, hart, 7), Ok(()));
        assert_eq!(
            slices::read(caps, hart, 0x341, vhart::Host::default()),
            Ok(0x8000_0002)
        );
        assert_eq!(
            slices::plain_read(caps, hart, 0x341, vhart::Host::default()),
            Ok(0x8000_0002)
        );
        let lost = slices::explain(caps, hart, 0x341, 0, vhart::Host::default())?;
        assert!(lost.is_empty());
        let mut totals = Totals::default();
        slices::tally(caps, hart, 0x341, 0, vhart::Host::default(), &mut totals)?;
        assert_eq!((totals.writes, totals.lossless), (1, 1));
        slices::replay_end(caps, hart, &[0; WAIT_BYTES])?;
    }
    Ok(())
}

#[test]
#[cfg(feature = "aligned")]
fn what_is_at_a_multiple_of_8_is_taken() -> Result<(), Refusal> {
    let mut room = Room::new(8, 0)?;
    let (caps, hart) = (&room.caps[8..], &mut room.hart[..HART_BYTES]);
    assert_eq!(slices::inject(caps, hart, 7), Ok(()));
    Ok(())
}

#[test]
fn a_settings_file_and_its_image_may_stand_anywhere() -> Result<(), Refusal> {
    for (at, to) in shifts() {
        let mut room = Room::new(at, 0)?;
        let caps = &room.caps[at..][..CAPS_BYTES];
        let file = &mut room.hart[to..][..SETTINGS_BYTES];
        assert_eq!(slices::settings_write(caps, file), Ok(()));
        let settings = vhart::Settings::read(file)?;
        assert_eq!(settings.caps().as_bytes(), caps);
        assert_eq!(settings.file(), file);
    }
    Ok(())
}

#[test]
fn a_log_and_what_it_is_replayed_on_may_stand_anywhere() -> Result<(), Refusal> {
    for (at, to) in shifts() {
        let mut room = Room::new(at, to)?;
        let caps = &room.caps[at..][..CAPS_BYTES];
        let hart = &mut room.hart[to..][..HART_BYTES];
        let mut wait = [0; WAIT_BYTES + 8];
        let wait = &mut wait[to..][..WAIT_BYTES];
        let mut fragment = [0; ENTRY_BYTES + 8];
        fragment[at..][..ENTRY_BYTES].copy_from_slice(&Logged::Inject { number: 7 }.to_bytes());
        let fragment = &fragment[at..][..ENTRY_BYTES];
        let mut out = [0xA5; RESULT_BYTES + 8];
        let out = &mut out[to..][..RESULT_BYTES];
        assert_eq!(slices::replay(caps, hart, wait, fragment, out), Ok(1));
        assert_eq!(out, [0; RESULT_BYTES]);
        let caps = Caps::try_from(caps).expect("72 bytes");
        let mut injected = Hart::fresh(&caps, 0x8000_0000)?;
        injected.inject(&caps, 7)?;
        assert_eq!(hart, injected.as_bytes());
    }
    Ok(())
}
