// Runs of words, bytes and 32-bit numbers in a stream: a run is its length as four bytes, low byte first, and then its items.

use crate::fail;

pub fn to_words(bytes: &[u8]) -> Vec<u16> {
    bytes.chunks_exact(2).map(|two| u16::from_le_bytes([two[0], two[1]])).collect()
}

pub fn to_bytes(words: &[u16]) -> Vec<u8> {
    words.iter().flat_map(|word| word.to_le_bytes()).collect()
}

pub fn to_numbers(bytes: &[u8]) -> Vec<u32> {
    bytes.chunks_exact(4).map(|four| u32::from_le_bytes([four[0], four[1], four[2], four[3]])).collect()
}

pub fn of_numbers(numbers: &[u32]) -> Vec<u8> {
    numbers.iter().flat_map(|number| number.to_le_bytes()).collect()
}

pub fn put_number(stream: &mut Vec<u8>, number: u32) {
    stream.extend(number.to_le_bytes());
}

fn put_length(stream: &mut Vec<u8>, length: usize) {
    put_number(stream, length as u32);
}

pub fn put_bytes(stream: &mut Vec<u8>, run: &[u8]) {
    put_length(stream, run.len());
    stream.extend(run);
}

pub fn put_words(stream: &mut Vec<u8>, run: &[u16]) {
    put_length(stream, run.len());
    stream.extend(to_bytes(run));
}

pub fn put_numbers(stream: &mut Vec<u8>, run: &[u32]) {
    put_length(stream, run.len());
    stream.extend(of_numbers(run));
}

pub fn take<'a>(stream: &mut &'a [u8], size: usize) -> &'a [u8] {
    if stream.len() < size {
        fail("the stream ends within a case or a file");
    }
    let (taken, rest) = stream.split_at(size);
    *stream = rest;
    taken
}

pub fn take_number(stream: &mut &[u8]) -> u32 {
    to_numbers(take(stream, 4))[0]
}

fn take_length(stream: &mut &[u8]) -> usize {
    take_number(stream) as usize
}

pub fn take_bytes<'a>(stream: &mut &'a [u8]) -> &'a [u8] {
    let length = take_length(stream);
    take(stream, length)
}

pub fn take_words(stream: &mut &[u8]) -> Vec<u16> {
    let length = take_length(stream);
    to_words(take(stream, 2 * length))
}

pub fn take_numbers(stream: &mut &[u8]) -> Vec<u32> {
    let length = take_length(stream);
    to_numbers(take(stream, 4 * length))
}
