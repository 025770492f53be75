//! Why a request proves no key.

use std::error::Error;
use std::fmt;

/// Makes the enum of the refusals, and its function from each to its name.
macro_rules! unproved {
    ($($variant:ident $name:literal,)*) => {
        /// Why a request proves no key. The names are those of docs/SIGNATURES.md, and `verifier-failed` for an error of the verifier.
        /// No call of this module returns `OtherDigest`: it is for callers, who compare the body with the digest.
        #[non_exhaustive]
        #[derive(Clone, Copy, Debug, PartialEq, Eq, Hash)]
        pub enum Unproved {
            $(#[doc = concat!("`", $name, "`")] $variant,)*
        }

        impl Unproved {
            /// The name, such as `absent`.
            #[must_use]
            pub fn name(self) -> &'static str {
                match self {
                    $(Unproved::$variant => $name,)*
                }
            }
        }
    };
}

unproved! {
    Absent "absent",
    RepeatedField "repeated-field",
    Malformed "malformed",
    OtherLabel "other-label",
    TwoSignatures "two-signatures",
    ComponentTwice "component-twice",
    UnknownComponent "unknown-component",
    MissingComponent "missing-component",
    ParameterTwice "parameter-twice",
    UnknownParameter "unknown-parameter",
    MissingParameter "missing-parameter",
    OtherTag "other-tag",
    BadNonce "bad-nonce",
    BadWindow "bad-window",
    TooEarly "too-early",
    Expired "expired",
    BeforeStart "before-start",
    BadMethod "bad-method",
    BadTarget "bad-target",
    OtherAuthority "other-authority",
    AbsentField "absent-field",
    BadValue "bad-value",
    UncoveredField "uncovered-field",
    BodyWithoutDigest "body-without-digest",
    BadDigest "bad-digest",
    BadKey "bad-key",
    OtherKey "other-key",
    OtherAlgorithm "other-algorithm",
    InvalidSignature "invalid-signature",
    VerifierFailed "verifier-failed",
    OtherDigest "other-digest",
    NonceSeen "nonce-seen",
    StoreFull "store-full",
}

impl fmt::Display for Unproved {
    fn fmt(&self, f: &mut fmt::Formatter) -> fmt::Result {
        write!(f, "the request proves no key: {}", self.name())
    }
}

impl Error for Unproved {}
