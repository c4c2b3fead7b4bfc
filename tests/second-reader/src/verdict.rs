//! The answer to one command, or to one write.

/// The numbers of 01's table, and of 02.
pub mod number {
    /// Accepted.
    pub const ACCEPTED: u32 = 0;
    /// DIAMETER_COMMAND_UNSUPPORTED.
    pub const COMMAND_UNSUPPORTED: u32 = 3001;
    /// DIAMETER_APPLICATION_UNSUPPORTED.
    pub const APPLICATION_UNSUPPORTED: u32 = 3007;
    /// DIAMETER_INVALID_HDR_BITS.
    pub const INVALID_HEADER_BITS: u32 = 3008;
    /// DIAMETER_INVALID_AVP_BITS.
    pub const INVALID_AVP_BITS: u32 = 3009;
    /// DIAMETER_AVP_UNSUPPORTED.
    pub const AVP_UNSUPPORTED: u32 = 5001;
    /// DIAMETER_INVALID_AVP_VALUE.
    pub const INVALID_AVP_VALUE: u32 = 5004;
    /// DIAMETER_MISSING_AVP.
    pub const MISSING_AVP: u32 = 5005;
    /// DIAMETER_AVP_NOT_ALLOWED.
    pub const AVP_NOT_ALLOWED: u32 = 5008;
    /// DIAMETER_AVP_OCCURS_TOO_MANY_TIMES.
    pub const AVP_OCCURS_TOO_MANY_TIMES: u32 = 5009;
    /// DIAMETER_UNSUPPORTED_VERSION.
    pub const UNSUPPORTED_VERSION: u32 = 5011;
    /// DIAMETER_INVALID_AVP_LENGTH.
    pub const INVALID_AVP_LENGTH: u32 = 5014;
    /// DIAMETER_INVALID_MESSAGE_LENGTH.
    pub const INVALID_MESSAGE_LENGTH: u32 = 5015;
    /// The command is longer than 16,384 octets.
    pub const COMMAND_TOO_LONG: u32 = 7001;
    /// A 257th AVP.
    pub const TOO_MANY_AVPS: u32 = 7002;
    /// A group at depth 4.
    pub const GROUP_TOO_DEEP: u32 = 7003;
    /// The output is too short for the command (writer), the buffer for the longest (link).
    pub const OUTPUT_TOO_SHORT: u32 = 7004;
    /// A malformed draft (writer).
    pub const MALFORMED_DRAFT: u32 = 7006;
    /// The run has stopped, or a state that no run leads to (link).
    pub const RUN_STOPPED: u32 = 7009;

    /// Those that a reader gives.
    pub const ALL: [u32; 16] = [
        ACCEPTED,
        COMMAND_UNSUPPORTED,
        APPLICATION_UNSUPPORTED,
        INVALID_HEADER_BITS,
        INVALID_AVP_BITS,
        AVP_UNSUPPORTED,
        INVALID_AVP_VALUE,
        MISSING_AVP,
        AVP_NOT_ALLOWED,
        AVP_OCCURS_TOO_MANY_TIMES,
        UNSUPPORTED_VERSION,
        INVALID_AVP_LENGTH,
        INVALID_MESSAGE_LENGTH,
        COMMAND_TOO_LONG,
        TOO_MANY_AVPS,
        GROUP_TOO_DEEP,
    ];
}

/// A number of 01's table, with the place and the name of the AVP at fault.
#[derive(Clone, Copy, Debug, Default, PartialEq, Eq)]
pub struct Verdict {
    /// 0 for acceptance, else the refusal.
    pub number: u32,
    /// First octet of the AVP at fault, or the end of the list that lacks one.
    pub place: u32,
    /// Vendor of the AVP at fault or missing.
    pub vendor: u32,
    /// Code of the AVP at fault or missing.
    pub code: u32,
}

impl Verdict {
    /// The answer to a command that no check refuses.
    pub const ACCEPTED: Verdict = Verdict::unnamed(number::ACCEPTED, 0);

    /// A refusal that names no AVP.
    pub const fn unnamed(number: u32, place: usize) -> Verdict {
        Verdict::named(number, place, 0, 0)
    }

    /// A refusal that names an AVP. Places lie within a command, which a 24-bit length measures.
    pub const fn named(number: u32, place: usize, vendor: u32, code: u32) -> Verdict {
        Verdict { number, place: place as u32, vendor, code }
    }
}
