//! The calls of the crate `primitives`, as a host makes them: a slice is its pointer and then its length. Each buffer that is written lies in
//! the middle of a larger one, whose other bytes must stay.

#[rustfmt::skip]
extern "C" {
    fn primitives_sha256(p: *const u8, p_len: usize, s: *const u8, s_len: usize, out: *mut u8, out_len: usize) -> u32;
    fn primitives_hashes(heads: *const u8, heads_len: usize, h: usize, s: *const u8, s_len: usize, f: usize, count: usize, out: *mut u8, out_len: usize) -> u32;
    fn primitives_encode(item: *const u8, item_len: usize, n: usize, m: usize, f: usize, desk: *mut u8, desk_len: usize) -> u32;
    fn primitives_decode(desk: *const u8, desk_len: usize, nodes: *const u8, nodes_len: usize, m: usize, f: usize, item: *mut u8, item_len: usize) -> u32;
}

/// What lies before and after each written buffer.
const EDGE: usize = 64;

/// The number of a call and the bytes of its buffer afterwards, or that it wrote outside its buffer.
pub type Told = Result<(u32, Vec<u8>), &'static str>;

/// `call` on a copy of `before` that has `EDGE` other bytes on each side.
fn fenced(before: &[u8], call: impl FnOnce(*mut u8, usize) -> u32) -> Told {
    let edge: Vec<u8> = (0..EDGE).map(|i| i as u8 ^ 0xa5).collect();
    let mut room = [&edge, before, &edge].concat();
    let number = call(room[EDGE..].as_mut_ptr(), before.len());
    let end = EDGE + before.len();
    if room[..EDGE] != edge || room[end..] != edge {
        return Err("it wrote outside the buffer");
    }
    Ok((number, room[EDGE..end].to_vec()))
}

// SAFETY of the four calls: each pointer is that of a slice of the length beside it, and nothing else holds the written one.

pub fn sha256(prefix: &[u8], s: &[u8], out: &[u8]) -> Told {
    fenced(out, |at, len| unsafe { primitives_sha256(prefix.as_ptr(), prefix.len(), s.as_ptr(), s.len(), at, len) })
}

/// `count` messages side by side, each of h bytes of `heads` and then f bytes of `s`.
pub fn hashes(heads: &[u8], h: usize, s: &[u8], f: usize, count: usize, out: &[u8]) -> Told {
    fenced(out, |at, len| unsafe {
        primitives_hashes(heads.as_ptr(), heads.len(), h, s.as_ptr(), s.len(), f, count, at, len)
    })
}

pub fn encode(item: &[u8], n: usize, m: usize, f: usize, desk: &[u8]) -> Told {
    fenced(desk, |at, len| unsafe { primitives_encode(item.as_ptr(), item.len(), n, m, f, at, len) })
}

pub fn decode(desk: &[u8], nodes: &[u8], m: usize, f: usize, item: &[u8]) -> Told {
    fenced(item, |at, len| unsafe {
        primitives_decode(desk.as_ptr(), desk.len(), nodes.as_ptr(), nodes.len(), m, f, at, len)
    })
}
