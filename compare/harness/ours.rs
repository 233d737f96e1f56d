//! Our static library, called over its C interface; on another processor, over the bridge.

#[cfg(archive)]
pub use library::cut;

/// Refusal number, its place, token count.
#[cfg(bridge)]
pub fn cut(source: &[u8], reading: u32, room: &mut [u32]) -> [u32; 3] {
    use common::bridge;
    let junk = room.first().map_or(0, |word| *word as u8);
    let mut request = Vec::new();
    let sizes = [room.len(), reading as usize, 0, 0, 0];
    bridge::request(&mut request, bridge::CUT, source, sizes, junk);
    bridge::send(&request);
    let [refusal, place, tokens, ..] = bridge::receive([room, &mut [], &mut [], &mut []], &mut []);
    [refusal, place, tokens]
}
