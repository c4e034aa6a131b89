//! Streams of blocks: a 2-byte big-endian length and that many bytes.

/// Adds a message to a stream.
pub fn put_block(stream: &mut Vec<u8>, message: &[u8]) {
    let length = u16::try_from(message.len()).expect("at most 65,535 bytes");
    stream.extend(length.to_be_bytes());
    stream.extend(message);
}

/// The stream of some messages.
pub fn stream_of(messages: &[Vec<u8>]) -> Vec<u8> {
    let mut stream = vec![];
    for message in messages {
        put_block(&mut stream, message);
    }
    stream
}
