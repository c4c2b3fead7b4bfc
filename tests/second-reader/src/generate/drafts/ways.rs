//! The ways in which a draft is malformed: 7006's conditions, each in its shapes.

/// A field of a place.
#[derive(Clone, Copy, Debug, PartialEq, Eq, PartialOrd, Ord)]
#[allow(missing_docs)]
pub enum Field {
    Depth,
    Vendor,
    Code,
    M,
    P,
    Start,
    Length,
}

/// Which of the unused places.
#[derive(Clone, Copy, Debug, PartialEq, Eq, PartialOrd, Ord)]
#[allow(missing_docs)]
pub enum Spot {
    First,
    Between,
    Last,
}

/// A flag of the command or of an AVP.
#[derive(Clone, Copy, Debug, PartialEq, Eq, PartialOrd, Ord)]
#[allow(missing_docs)]
pub enum Flag {
    R,
    P,
    E,
    T,
    AvpM,
    AvpP,
}

/// A way to make a draft malformed.
#[derive(Clone, Copy, Debug, PartialEq, Eq, PartialOrd, Ord)]
pub enum Way {
    /// Count 257, all places used.
    Count257,
    /// A far greater count, also one whose low octets are the honest count.
    CountHuge,
    /// One field of an unused place is not 0.
    Unused(Field, Spot),
    /// A part ends one octet behind the octets.
    PartByOne,
    /// A part ends far behind them, also beyond 32 bits.
    PartByFar,
    /// A part of length 0 starts one octet behind the end or farther.
    EmptyPartBehind,
    /// The first AVP has depth 0.
    FirstDepth0,
    /// The first AVP has depth 2 or more.
    FirstDepth2,
    /// A later AVP has depth 0.
    Depth0,
    /// Deeper by two after a read group.
    JumpByTwo,
    /// Deeper after an AVP that is no read group.
    DeeperAfterPlain,
    /// A member, deeper by one, of a read group at depth 4.
    Depth5,
    /// A group's length is too small.
    GroupShort,
    /// A group's length is too large.
    GroupLong,
    /// A group's length leaves out its last member's padding.
    GroupWithoutPadding,
    /// A group's length is that of members which have changed.
    GroupStale,
    /// A flag that is neither 0 nor 1.
    Flag(Flag),
}

impl Way {
    /// Every way.
    pub fn all() -> Vec<Way> {
        use Field::*;
        let mut ways = vec![
            Way::Count257,
            Way::CountHuge,
            Way::PartByOne,
            Way::PartByFar,
            Way::EmptyPartBehind,
            Way::FirstDepth0,
            Way::FirstDepth2,
            Way::Depth0,
            Way::JumpByTwo,
            Way::DeeperAfterPlain,
            Way::Depth5,
            Way::GroupShort,
            Way::GroupLong,
            Way::GroupWithoutPadding,
            Way::GroupStale,
        ];
        for field in [Depth, Vendor, Code, M, P, Start, Length] {
            ways.extend([Spot::First, Spot::Between, Spot::Last].map(|at| Way::Unused(field, at)));
        }
        let flags = [Flag::R, Flag::P, Flag::E, Flag::T, Flag::AvpM, Flag::AvpP];
        ways.extend(flags.map(Way::Flag));
        ways
    }
}
