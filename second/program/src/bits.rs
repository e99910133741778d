//! Bits of a payload in the two orders, and the copy of a signal.

#[derive(Clone, Copy, Debug, PartialEq, Eq)]
pub enum Order {
    Big,
    Little,
}

/// The value that bit `position` has inside its byte.
///
/// "In big order bit 0 is the highest bit of byte 0 and bit 63 the lowest of
/// byte 7. In little order bit 0 is the lowest of byte 0 and bit 63 the
/// highest of byte 7." So bit `position` is in byte `position / 8` in both.
fn weight(order: Order, position: usize) -> u8 {
    match order {
        Order::Big => 0x80 >> (position % 8),
        Order::Little => 0x01 << (position % 8),
    }
}

pub fn get(order: Order, payload: &[u8], position: usize) -> bool {
    payload[position / 8] & weight(order, position) != 0
}

pub fn put(order: Order, payload: &mut [u8], position: usize, value: bool) {
    if value {
        payload[position / 8] |= weight(order, position);
    } else {
        payload[position / 8] &= !weight(order, position);
    }
}

/// "A copy puts source bit p + k at destination bit q + k for each k below s."
///
/// Answers whether "any destination bit differed from the kept one".
pub fn copy(
    order: Order,
    source: &[u8],
    p: usize,
    s: usize,
    destination: &mut [u8],
    q: usize,
) -> bool {
    let mut differed = false;
    for k in 0..s {
        let value = get(order, source, p + k);
        if get(order, destination, q + k) != value {
            differed = true;
        }
        put(order, destination, q + k, value);
    }
    differed
}
