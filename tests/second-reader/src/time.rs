//! Time values. RFC 6733's Time is NTP's 32-bit count of seconds: with the top bit set those since 1900, with it clear
//! those since 7 February 2036, 06:28:16 UTC. Their order is that of request 5 of 02.

/// Whether a window from `start` to `end` is right: the end is later than the start.
#[inline]
pub const fn is_right(start: u32, end: u32) -> bool {
    turned(start) < turned(end)
}

/// What times are ordered by: the count with 2,147,483,648 added and the carry dropped.
const fn turned(time: u32) -> u32 {
    time.wrapping_add(2_147_483_648)
}

/// The number of seconds from `start` to `end`: 0 for equal times, negative for a reversed window.
pub const fn seconds(start: u32, end: u32) -> i64 {
    moment(end) - moment(start)
}

/// The seconds from the beginning of 1900 to a time. The count begins anew in 2036, where it would be 4,294,967,296.
const fn moment(time: u32) -> i64 {
    if time >= 2_147_483_648 {
        time as i64
    } else {
        time as i64 + 4_294_967_296
    }
}
