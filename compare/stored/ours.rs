//! Our static library, called over its C interface, or over the bridge on another processor; or
//! the codec in its place.

#[cfg(archive)]
pub const NAME: &str = "our library";
#[cfg(bridge)]
pub const NAME: &str = "our library, under an emulator";
#[cfg(not(any(archive, bridge)))]
pub const NAME: &str = "the codec in place of our library";

#[cfg(archive)]
pub use library::{check, read_list as read, write_list as write};

#[cfg(bridge)]
pub use bridged::{check, read, send, write};

#[cfg(not(any(archive, bridge)))]
pub use crate::call::by_codec::{check, read, write};

/// Sends calls ahead; each is then made, in the same order. Only the bridge has use for it.
#[cfg(not(bridge))]
pub fn send(_calls: &[crate::call::Call]) {}

/// The answers to calls that were sent ahead.
#[cfg(bridge)]
mod bridged {
    use crate::call::{Asked, Call};
    use common::bridge;

    pub fn send(calls: &[Call]) {
        let mut requests = Vec::new();
        for call in calls {
            let [words, bytes] = call.asked.rooms();
            let junk = call.junk as u8;
            let mut request = |function, source: &[u8], first| {
                let sizes = [first, 0, 0, words, bytes];
                bridge::request(&mut requests, function, source, sizes, junk);
            };
            match &call.asked {
                Asked::Check(list) => request(bridge::STORED_CHECK, list, 0),
                Asked::Read(list, _) => request(bridge::STORED_READ, list, 0),
                Asked::Write(records, _) => {
                    let blocks = records.blocks.iter().flat_map(|word| word.to_le_bytes());
                    let source: Vec<u8> = blocks.chain(records.text.iter().copied()).collect();
                    request(bridge::STORED_WRITE, &source, records.blocks.len());
                }
            }
        }
        bridge::send(&requests);
    }

    fn received(words: &mut [u32], bytes: &mut [u8]) -> [u64; 3] {
        let [refusal, one, one_high, two, two_high, ..] =
            bridge::receive([&mut [], &mut [], &mut [], words], bytes).map(u64::from);
        [refusal, one_high << 32 | one, two_high << 32 | two]
    }

    pub fn check(_list: &[u8]) -> u32 {
        received(&mut [], &mut [])[0] as u32
    }

    pub fn read(_list: &[u8], blocks: &mut [u32], text: &mut [u8]) -> [u64; 3] {
        received(blocks, text)
    }

    pub fn write(_blocks: &[u32], _text: &[u8], list: &mut [u8]) -> [u64; 3] {
        received(&mut [], list)
    }
}
