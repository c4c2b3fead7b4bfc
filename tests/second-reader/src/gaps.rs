//! What a run must have reached: each number, each of the walk's checks at each depth, each row's missing and
//! exceeding, each exchange rule, and the cells of volumes, windows and error answers. A run that lacks one has tested
//! less than it says.

use crate::coverage::Coverage;
use crate::dictionary::Kind;
use crate::header::Command::{self, *};
use crate::rows::{self, Rows};
use crate::verdict::number;
use crate::{error_coverage, volume_coverage, window_coverage};
use std::ops::RangeInclusive;

/// The depth of a command's own list, and those of a group's members.
const OWN: RangeInclusive<u8> = 1..=1;
const WITHIN: RangeInclusive<u8> = 2..=4;

/// The exchange rules: of which command, number, the AVP that it names, and the depth of the list.
const EXCHANGE: [(Command, u32, Kind, RangeInclusive<u8>); 17] = [
    (Request, number::MISSING_AVP, Kind::ApplicationServiceProviderIdentity, OWN),
    (Request, number::MISSING_AVP, Kind::CcOutputOctets, OWN),
    (Request, number::AVP_NOT_ALLOWED, Kind::CcTotalOctets, OWN),
    (Request, number::MISSING_AVP, Kind::NumberOfUes, OWN),
    (Request, number::MISSING_AVP, Kind::TimeWindow, OWN),
    (Request, number::MISSING_AVP, Kind::ReferenceId, OWN),
    (Answer, number::MISSING_AVP, Kind::ReferenceId, OWN),
    (Request, number::MISSING_AVP, Kind::TransferPolicyId, OWN),
    (Request, number::MISSING_AVP, Kind::DestinationHost, OWN),
    (Answer, number::MISSING_AVP, Kind::ResultCode, OWN),
    (Answer, number::AVP_NOT_ALLOWED, Kind::ExperimentalResult, OWN),
    (Answer, number::MISSING_AVP, Kind::PcrfAddress, OWN),
    (Answer, number::MISSING_AVP, Kind::TimeWindow, WITHIN),
    (Answer, number::MISSING_AVP, Kind::RatingGroup, WITHIN),
    (Request, number::INVALID_AVP_VALUE, Kind::TransferEndTime, WITHIN),
    (Answer, number::INVALID_AVP_VALUE, Kind::TransferEndTime, WITHIN),
    (ErrorAnswer, number::INVALID_AVP_VALUE, Kind::TransferEndTime, WITHIN),
];

/// The numbers of the walk's checks, and the depths at which each can stop a walk.
const CHECKS: [(u32, RangeInclusive<u8>); 6] = [
    (number::TOO_MANY_AVPS, 1..=4),
    (number::INVALID_AVP_LENGTH, 1..=4),
    (number::INVALID_AVP_BITS, 1..=4),
    (number::AVP_UNSUPPORTED, 1..=4),
    (number::INVALID_AVP_VALUE, 1..=4),
    (number::GROUP_TOO_DEEP, 4..=4),
];

impl Coverage {
    /// The cells that no command reached.
    pub fn gaps(&self) -> Vec<String> {
        let mut gaps = Vec::new();
        for number in number::ALL {
            if self.times(number) == 0 {
                gaps.push(format!("number {number}"));
            }
        }
        for (number, depths) in CHECKS {
            for depth in depths {
                if self.times_at(number, depth) == 0 {
                    gaps.push(format!("{number} at depth {depth}"));
                }
            }
        }
        for depth in 1..=4 {
            let frames = self.times_at(number::INVALID_AVP_LENGTH, depth) - self.widths_at(depth);
            if self.widths_at(depth) == 0 || frames == 0 {
                gaps.push(format!("5014 at depth {depth}, by the frame and by the width"));
            }
        }
        for command in Command::ALL {
            self.row_gaps(&format!("{command:?}"), rows::of_command(command), &[command], OWN, &mut gaps);
        }
        for &kind in Kind::ALL {
            if let Some(rows) = rows::of_group(kind) {
                self.row_gaps(&kind.code().to_string(), rows, &Command::ALL, WITHIN, &mut gaps);
            }
        }
        for (command, number, kind, depths) in EXCHANGE {
            if self.times_named(command, number, kind, depths) == 0 {
                gaps.push(format!("{command:?}: exchange rule {number} for {}", kind.code()));
            }
        }
        for cell in volume_coverage::Cell::all() {
            if self.times_volumes(cell) == 0 {
                gaps.push(format!("volumes: {cell:?}"));
            }
        }
        for cell in window_coverage::Cell::all() {
            if self.times_windows(cell) == 0 {
                gaps.push(format!("windows: {cell:?}"));
            }
        }
        for cell in error_coverage::Cell::all() {
            if self.times_errors(cell) == 0 {
                gaps.push(format!("error answers: {cell:?}"));
            }
        }
        gaps
    }

    /// The rows of a list, in any of these commands at these depths, that were never missing or never exceeded.
    fn row_gaps(
        &self,
        list: &str,
        rows: &Rows,
        commands: &[Command],
        depths: RangeInclusive<u8>,
        gaps: &mut Vec<String>,
    ) {
        let times = |number, kind| -> u64 {
            commands.iter().map(|&command| self.times_named(command, number, kind, depths.clone())).sum()
        };
        for &kind in Kind::ALL {
            if rows.needed.has(kind) && times(number::MISSING_AVP, kind) == 0 {
                gaps.push(format!("{list}: {} missing", kind.code()));
            }
            if rows.single.has(kind) && times(number::AVP_OCCURS_TOO_MANY_TIMES, kind) == 0 {
                gaps.push(format!("{list}: {} exceeding", kind.code()));
            }
        }
    }
}
