//! The rows of the commands and of the read groups, and the counting of members against them.

use crate::dictionary::{Kind, Kinds};
use crate::header::Command;
use crate::verdict::{number, Verdict};
use Kind::*;

/// The rows of one list.
#[derive(Debug)]
pub struct Rows {
    /// Rows marked ! or 1, in printed order.
    pub required: &'static [Kind],
    /// The same as a set.
    pub needed: Kinds,
    /// Rows marked !, 1 or ?.
    pub single: Kinds,
    /// Rows marked *.
    pub any: Kinds,
    /// "+": admits any AVP without a row here.
    pub open: bool,
    /// Whether Session-Id, if it is there, comes first.
    pub session_first: bool,
}

const fn rows(required: &'static [Kind], optional: &'static [Kind], any: &'static [Kind], open: bool) -> Rows {
    let needed = Kinds::of(required);
    let mut single = needed;
    let mut i = 0;
    while i < optional.len() {
        single = single.with(optional[i]);
        i += 1;
    }
    Rows { required, needed, single, any: Kinds::of(any), open, session_first: single.has(SessionId) }
}

/// Background-Data-Transfer request.
pub static BTR: Rows = rows(
    &[
        SessionId,
        VendorSpecificApplicationId,
        AuthSessionState,
        OriginHost,
        OriginRealm,
        DestinationRealm,
        TransferRequestType,
    ],
    &[
        Drmp,
        DestinationHost,
        ApplicationServiceProviderIdentity,
        CcOutputOctets,
        CcInputOctets,
        CcTotalOctets,
        NumberOfUes,
        TimeWindow,
        NetworkAreaInfoList,
        ReferenceId,
        TransferPolicyId,
        OcSupportedFeatures,
    ],
    &[ProxyInfo, RouteRecord, SupportedFeatures],
    true,
);

/// Background-Data-Transfer answer.
pub static BTA: Rows = rows(
    &[SessionId, VendorSpecificApplicationId, AuthSessionState, OriginHost, OriginRealm],
    &[
        Drmp,
        ResultCode,
        ExperimentalResult,
        ErrorMessage,
        ErrorReportingHost,
        FailedAvp,
        RedirectHostUsage,
        RedirectMaxCacheTime,
        ReferenceId,
        OcSupportedFeatures,
        OcOlr,
        PcrfAddress,
    ],
    &[RedirectHost, TransferPolicy, ProxyInfo, RouteRecord, SupportedFeatures, Load],
    true,
);

/// An answer with E: the general form of RFC 6733 clause 7.2, as request 1 of 02 lists it.
pub static ERROR_ANSWER: Rows = rows(
    &[OriginHost, OriginRealm, ResultCode],
    &[SessionId, OriginStateId, ErrorMessage, ErrorReportingHost, FailedAvp, ExperimentalResult],
    &[ProxyInfo],
    true,
);

/// The rows of a command's own list.
#[inline]
pub fn of_command(command: Command) -> &'static Rows {
    match command {
        Command::Request => &BTR,
        Command::Answer => &BTA,
        Command::ErrorAnswer => &ERROR_ANSWER,
    }
}

static VENDOR_SPECIFIC_APPLICATION_ID: Rows = rows(&[VendorId], &[AuthApplicationId, AcctApplicationId], &[], false);
static EXPERIMENTAL_RESULT: Rows = rows(&[VendorId, ExperimentalResultCode], &[], &[], false);
static PROXY_INFO: Rows = rows(&[ProxyHost, ProxyState], &[], &[], true);
static SUPPORTED_FEATURES: Rows = rows(&[VendorId, FeatureListId, FeatureList], &[], &[], true);
static TIME_WINDOW: Rows = rows(&[TransferStartTime, TransferEndTime], &[], &[], true);
static TRANSFER_POLICY: Rows =
    rows(&[TransferPolicyId], &[TimeWindow, RatingGroup, MaxRequestedBandwidthDl, MaxRequestedBandwidthUl], &[], true);

/// The rows of a read group; none for any other AVP.
#[inline]
pub fn of_group(kind: Kind) -> Option<&'static Rows> {
    match kind {
        VendorSpecificApplicationId => Some(&VENDOR_SPECIFIC_APPLICATION_ID),
        ExperimentalResult => Some(&EXPERIMENTAL_RESULT),
        ProxyInfo => Some(&PROXY_INFO),
        SupportedFeatures => Some(&SUPPORTED_FEATURES),
        TimeWindow => Some(&TIME_WINDOW),
        TransferPolicy => Some(&TRANSFER_POLICY),
        _ => None,
    }
}

/// The members of one list as they are met.
#[derive(Debug)]
pub struct Members {
    rows: &'static Rows,
    /// The known AVPs met so far.
    pub seen: Kinds,
    fault: Option<Verdict>,
}

impl Members {
    /// A list with no member yet.
    pub fn of(rows: &'static Rows) -> Members {
        Members { rows, seen: Kinds::default(), fault: None }
    }

    /// Counts a known member; `first` says whether the list starts with it.
    #[inline]
    pub fn count(&mut self, kind: Kind, first: bool, place: usize) {
        let number = if self.rows.single.has(kind) {
            if self.seen.has(kind) {
                number::AVP_OCCURS_TOO_MANY_TIMES
            } else if kind == SessionId && !first && self.rows.session_first {
                number::AVP_NOT_ALLOWED
            } else {
                number::ACCEPTED
            }
        } else if self.rows.open || self.rows.any.has(kind) {
            number::ACCEPTED
        } else {
            number::AVP_NOT_ALLOWED
        };
        self.seen = self.seen.with(kind);
        if number != number::ACCEPTED {
            self.refuse(Verdict::named(number, place, kind.vendor(), kind.code()));
        }
    }

    /// Counts a member that the dictionary lacks.
    #[inline]
    pub fn count_unknown(&mut self, vendor: u32, code: u32, place: usize) {
        if !self.rows.open {
            self.refuse(Verdict::named(number::AVP_NOT_ALLOWED, place, vendor, code));
        }
    }

    /// The first member at fault, else the first missing row; the list ends at `end`.
    #[inline]
    pub fn fault(&self, end: usize) -> Option<Verdict> {
        if self.fault.is_some() || self.seen.has_all(self.rows.needed) {
            return self.fault;
        }
        self.rows.required.iter().find(|&&kind| !self.seen.has(kind)).map(|&kind| missing(kind, end))
    }

    #[cold]
    fn refuse(&mut self, fault: Verdict) {
        self.fault.get_or_insert(fault);
    }
}

/// 5005 for an AVP that the list which ends at `end` lacks.
pub fn missing(kind: Kind, end: usize) -> Verdict {
    Verdict::named(number::MISSING_AVP, end, kind.vendor(), kind.code())
}
