//! The AVPs that 01 names, with their widths and M rules.

/// Vendor 3GPP.
pub const VENDOR_3GPP: u32 = 10_415;

/// How the data of a known AVP is shaped.
#[derive(Clone, Copy, Debug, PartialEq, Eq)]
pub enum Form {
    /// Four octets.
    Four,
    /// Eight octets.
    Eight,
    /// Any length, content not read.
    Octets,
    /// A read group.
    Group,
}

macro_rules! must {
    (M) => {
        true
    };
    (free) => {
        false
    };
}

macro_rules! dictionary {
    ($($kind:ident $vendor:tt $code:literal $form:ident $m:ident,)*) => {
        /// A known AVP, by its name in the standards.
        #[derive(Clone, Copy, Debug, PartialEq, Eq, PartialOrd, Ord)]
        #[repr(u8)]
        #[allow(missing_docs)]
        pub enum Kind { $($kind),* }

        impl Kind {
            /// Every known AVP.
            pub const ALL: &'static [Kind] = &[$(Kind::$kind),*];

            /// Its vendor, 0 for none.
            pub const fn vendor(self) -> u32 {
                match self { $(Kind::$kind => $vendor),* }
            }

            /// Its code.
            pub const fn code(self) -> u32 {
                match self { $(Kind::$kind => $code),* }
            }

            /// The shape of its data.
            #[inline]
            pub const fn form(self) -> Form {
                const FORMS: [Form; Kind::ALL.len()] = [$(Form::$form),*];
                FORMS[self as usize]
            }

            /// Whether its M flag must be set.
            #[inline]
            pub const fn must(self) -> bool {
                match self { $(Kind::$kind => must!($m)),* }
            }
        }
    };
}

dictionary! {
    // RFC 6733.
    AuthApplicationId             0 258 Four   M,
    AcctApplicationId             0 259 Four   M,
    RedirectHostUsage             0 261 Four   M,
    RedirectMaxCacheTime          0 262 Four   M,
    VendorId                      0 266 Four   M,
    ResultCode                    0 268 Four   M,
    AuthSessionState              0 277 Four   M,
    OriginStateId                 0 278 Four   M,
    ExperimentalResultCode        0 298 Four   M,
    SessionId                     0 263 Octets M,
    OriginHost                    0 264 Octets M,
    OriginRealm                   0 296 Octets M,
    DestinationHost               0 293 Octets M,
    DestinationRealm              0 283 Octets M,
    ErrorMessage                  0 281 Octets free,
    ErrorReportingHost            0 294 Octets free,
    RedirectHost                  0 292 Octets M,
    ProxyHost                     0 280 Octets M,
    ProxyState                    0 33  Octets M,
    RouteRecord                   0 282 Octets M,
    FailedAvp                     0 279 Octets M,
    VendorSpecificApplicationId   0 260 Group  M,
    ExperimentalResult            0 297 Group  M,
    ProxyInfo                     0 284 Group  M,
    // RFC 4006.
    RatingGroup                   0 432 Four   M,
    CcInputOctets                 0 412 Eight  M,
    CcOutputOctets                0 414 Eight  M,
    CcTotalOctets                 0 421 Eight  M,
    // No vendor, M free.
    Drmp                          0 301 Four   free,
    OcSupportedFeatures           0 621 Octets free,
    OcOlr                         0 623 Octets free,
    Load                          0 650 Octets free,
    // 3GPP, M free.
    FeatureListId                 10415 629  Four   free,
    FeatureList                   10415 630  Four   free,
    ApplicationServiceProviderIdentity 10415 532 Octets free,
    PcrfAddress                   10415 2207 Octets free,
    SupportedFeatures             10415 628  Group  free,
    // 3GPP, M.
    MaxRequestedBandwidthDl       10415 515  Four   M,
    MaxRequestedBandwidthUl       10415 516  Four   M,
    TransferRequestType           10415 4203 Four   M,
    TransferEndTime               10415 4205 Four   M,
    TransferStartTime             10415 4206 Four   M,
    TransferPolicyId              10415 4208 Four   M,
    NumberOfUes                   10415 4209 Four   M,
    NetworkAreaInfoList           10415 4201 Octets M,
    ReferenceId                   10415 4202 Octets M,
    TimeWindow                    10415 4204 Group  M,
    TransferPolicy                10415 4207 Group  M,
}

/// The known AVPs without vendor, each at its code. A load finds one; a `match` on codes that lie so
/// far apart is a search with a jump.
static WITHOUT_VENDOR: [Option<Kind>; 651] = by_code(0);

/// The known AVPs of 3GPP, each at its code.
static OF_3GPP: [Option<Kind>; 4_210] = by_code(VENDOR_3GPP);

/// The known AVPs of a vendor, each at its code.
const fn by_code<const CODES: usize>(vendor: u32) -> [Option<Kind>; CODES] {
    let mut kinds = [None; CODES];
    let mut i = 0;
    while i < Kind::ALL.len() {
        let kind = Kind::ALL[i];
        if kind.vendor() == vendor {
            kinds[kind.code() as usize] = Some(kind);
        }
        i += 1;
    }
    kinds
}

impl Kind {
    /// The AVP with this vendor (0 without V) and code, if it is known.
    #[inline]
    pub fn of(vendor: u32, code: u32) -> Option<Kind> {
        let kinds: &[Option<Kind>] = match vendor {
            0 => &WITHOUT_VENDOR,
            VENDOR_3GPP => &OF_3GPP,
            _ => return None,
        };
        *kinds.get(code as usize)?
    }
}

/// The volumes of a transfer's directions.
pub const DIRECTIONS: [Kind; 2] = [Kind::CcOutputOctets, Kind::CcInputOctets];

/// The volumes of a transfer: of its directions, and the total.
pub const VOLUMES: [Kind; 3] = [Kind::CcOutputOctets, Kind::CcInputOctets, Kind::CcTotalOctets];

/// A set of known AVPs, one bit for each.
#[derive(Clone, Copy, Debug, Default, PartialEq, Eq)]
pub struct Kinds(u64);

impl Kinds {
    /// The set of these.
    pub const fn of(kinds: &[Kind]) -> Kinds {
        let mut set = Kinds(0);
        let mut i = 0;
        while i < kinds.len() {
            set = set.with(kinds[i]);
            i += 1;
        }
        set
    }

    /// This set and one more.
    pub const fn with(self, kind: Kind) -> Kinds {
        Kinds(self.0 | 1 << kind as u8)
    }

    /// Whether the set has it.
    pub const fn has(self, kind: Kind) -> bool {
        self.0 >> kind as u8 & 1 != 0
    }

    /// Whether the set has any of those.
    pub const fn has_any(self, others: Kinds) -> bool {
        self.0 & others.0 != 0
    }

    /// Whether the set has all of those.
    pub const fn has_all(self, others: Kinds) -> bool {
        others.0 & !self.0 == 0
    }
}

#[cfg(test)]
mod tests {
    use super::{Kind, VENDOR_3GPP};

    #[test]
    fn a_name_is_known_exactly_if_a_kind_has_it() {
        for vendor in [0, 1, VENDOR_3GPP - 1, VENDOR_3GPP, VENDOR_3GPP + 1, u32::MAX] {
            for code in (0..5_000).chain([u32::MAX - 1, u32::MAX]) {
                let named = Kind::ALL.iter().find(|kind| (kind.vendor(), kind.code()) == (vendor, code));
                assert_eq!(Kind::of(vendor, code).as_ref(), named, "{vendor} {code}");
            }
        }
    }
}
