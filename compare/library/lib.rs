//! Our static library, called over its C interface (host/elduvarn.h). Each call is sound as far as
//! the library keeps to the slices that it is lent, which is what its proof says.

#[repr(C)]
struct CutAnswer {
    refusal: u32,
    place: u32,
    tokens: u32,
}

#[repr(C)]
struct ReadAnswer {
    refusal: u32,
    place: u32,
    tokens: u32,
    fonts: u32,
    colours: u32,
    blocks: u32,
    text: u32,
}

#[repr(C)]
struct StoredAnswer {
    refusal: u32,
    blocks: usize,
    text: usize,
}

#[repr(C)]
struct WriteAnswer {
    refusal: u32,
    bytes: usize,
}

type Read = unsafe extern "C" fn(
    source: *const u8,
    source_len: usize,
    tokens: *mut u32,
    tokens_len: usize,
    fonts: *mut u32,
    fonts_len: usize,
    colours: *mut u32,
    colours_len: usize,
    blocks: *mut u32,
    blocks_len: usize,
    text: *mut u8,
    text_len: usize,
) -> ReadAnswer;

macro_rules! readings {
    ($($name:ident)*) => {
        extern "C" {
            $(fn $name(
                source: *const u8, source_len: usize,
                tokens: *mut u32, tokens_len: usize,
                fonts: *mut u32, fonts_len: usize,
                colours: *mut u32, colours_len: usize,
                blocks: *mut u32, blocks_len: usize,
                text: *mut u8, text_len: usize,
            ) -> ReadAnswer;)*
        }
    };
}
readings!(elduvarn_read_plain elduvarn_read_paragraphs elduvarn_read_standard);

extern "C" {
    fn elduvarn_cut(
        source: *const u8,
        source_len: usize,
        reading: u32,
        tokens: *mut u32,
        tokens_len: usize,
    ) -> CutAnswer;
    fn elduvarn_stored_check(list: *const u8, list_len: usize) -> u32;
    fn elduvarn_stored_read(
        list: *const u8,
        list_len: usize,
        blocks: *mut u32,
        blocks_len: usize,
        text: *mut u8,
        text_len: usize,
    ) -> StoredAnswer;
    fn elduvarn_stored_write(
        blocks: *const u32,
        blocks_len: usize,
        text: *const u8,
        text_len: usize,
        list: *mut u8,
        list_len: usize,
    ) -> WriteAnswer;
}

/// The four word rooms in their order, and the text room.
pub struct Slices<'a> {
    pub words: [&'a mut [u32]; 4],
    pub text: &'a mut [u8],
}

/// Cuts a source of any length and bytes, by the reading of any number, into a room of any size:
/// refusal number, its place, token count.
pub fn cut(source: &[u8], reading: u32, room: &mut [u32]) -> [u32; 3] {
    let CutAnswer { refusal, place, tokens } = unsafe {
        elduvarn_cut(source.as_ptr(), source.len(), reading, room.as_mut_ptr(), room.len())
    };
    [refusal, place, tokens]
}

/// Reads a source of any length and bytes in rooms of any sizes: refusal number, its place, counts.
pub fn read_plain(source: &[u8], rooms: Slices) -> [u32; 7] {
    read(elduvarn_read_plain, source, rooms)
}

pub fn read_paragraphs(source: &[u8], rooms: Slices) -> [u32; 7] {
    read(elduvarn_read_paragraphs, source, rooms)
}

pub fn read_standard(source: &[u8], rooms: Slices) -> [u32; 7] {
    read(elduvarn_read_standard, source, rooms)
}

#[inline(always)]
fn read(function: Read, source: &[u8], rooms: Slices) -> [u32; 7] {
    let Slices { words: [tokens, fonts, colours, blocks], text } = rooms;
    let answer = unsafe {
        function(
            source.as_ptr(),
            source.len(),
            tokens.as_mut_ptr(),
            tokens.len(),
            fonts.as_mut_ptr(),
            fonts.len(),
            colours.as_mut_ptr(),
            colours.len(),
            blocks.as_mut_ptr(),
            blocks.len(),
            text.as_mut_ptr(),
            text.len(),
        )
    };
    let ReadAnswer { refusal, place, tokens, fonts, colours, blocks, text } = answer;
    [refusal, place, tokens, fonts, colours, blocks, text]
}

/// The refusal number of a stored list.
pub fn check(list: &[u8]) -> u32 {
    unsafe { elduvarn_stored_check(list.as_ptr(), list.len()) }
}

/// Refusal number, blocks, bytes of text.
pub fn read_list(list: &[u8], blocks: &mut [u32], text: &mut [u8]) -> [u64; 3] {
    let StoredAnswer { refusal, blocks, text } = unsafe {
        elduvarn_stored_read(
            list.as_ptr(),
            list.len(),
            blocks.as_mut_ptr(),
            blocks.len(),
            text.as_mut_ptr(),
            text.len(),
        )
    };
    [u64::from(refusal), blocks as u64, text as u64]
}

/// Refusal number, bytes of the list, and a zero.
pub fn write_list(blocks: &[u32], text: &[u8], list: &mut [u8]) -> [u64; 3] {
    let WriteAnswer { refusal, bytes } = unsafe {
        elduvarn_stored_write(
            blocks.as_ptr(),
            blocks.len(),
            text.as_ptr(),
            text.len(),
            list.as_mut_ptr(),
            list.len(),
        )
    };
    [u64::from(refusal), bytes as u64, 0]
}
