//! The words of the library's lines, as types.

/// Makes an enum of the words of one kind that lines have, and `Other` for those that a later library may add.
macro_rules! words {
    ($(#[$about:meta])* $kind:ident { $($(#[$when:meta])* $word:ident,)* }) => {
        $(#[$about])*
        #[non_exhaustive]
        #[derive(Clone, Copy, Debug, PartialEq, Eq, Hash)]
        pub enum $kind {
            $($(#[$when])* $word,)*
            /// A word that this version of the crate does not know.
            Other,
        }

        impl $kind {
            /// The variant for a word of a line. A word that is not known is `Other`.
            pub(crate) fn of(word: &str) -> $kind {
                // (lines have the words of parts and `grants` in small letters)
                $(if word.eq_ignore_ascii_case(stringify!($word)) {
                    return $kind::$word;
                })*
                $kind::Other
            }
        }
    };
}

words! {
    /// Why a text or a question is refused.
    Fault {
        /// An octet that is not allowed in its place, or a string whose octets are not as many or not as encoded as its form requires.
        Bad,
        /// A date that is not written as `2026-03-01_12:00:00`, or has a number such as month 13; seconds below 0 or past the year 9999. There is no
        /// calendar check: `2026-02-30_12:00:00` is a date.
        BadDate,
        /// A digest of another length than its algorithm has.
        DigestLength,
        /// A list without members in a tag or a request.
        EmptyList,
        /// A hash by another algorithm than SHA-1, SHA-256 or SHA-512.
        HashAlg,
        /// A display hint in a tag or a request.
        Hint,
        /// A key with `(uri ..)`.
        KeyUris,
        /// A subject `(keyholder ..)`.
        Keyholder,
        /// A list in a tag or a request that begins with a list.
        ListHead,
        /// An allocation failed.
        Memory,
        /// The call was made wrongly, such as by a mark for a place that the question does not have.
        Misused,
        /// A validity with `(online ..)`.
        Online,
        /// A range in a tag whose limits are neither one limit nor a lower and then an upper one.
        RangeLimit,
        /// A range in a tag by another ordering than `alpha`, `time` or `date`, or by none.
        RangeOrdering,
        /// An entry for a name without a principal.
        RelativeInEntry,
        /// A value that has not the form of its part, such as an entry without a tag.
        Shape,
        /// A text that ends before its value does.
        Short,
        /// A `(* ..)` in a request.
        StarInRequest,
        /// A signature without a certificate before it.
        StraySignature,
        /// A subject `(k-of-n ..)`.
        Threshold,
        /// More than 64 lists that are open at once.
        TooDeep,
        /// An explanation or a reduction exceeds a limit of nodes, of work or of the answer.
        TooLarge,
        /// A text or a question has more octets than a limit.
        TooLong,
        /// A question has more certificates than a limit.
        TooManyCertificates,
        /// A tag has more nodes than a limit.
        TooManyNodes,
        /// A request has more strings than a limit.
        TooManyWords,
        /// An octet behind the value of a text.
        Trailing,
        /// A `(do ..)` that is not `(do hash ..)`.
        UnknownOp,
        /// A `(* ..)` of no known kind in a tag.
        UnknownStar,
        /// A version other than 0.
        UnknownVersion,
        /// A certificate that no signature follows.
        UnsignedCert,
    }
}

words! {
    /// Why an entry grants a request or does not, or which test a certificate does not pass.
    Cause {
        /// The digest in its signature is another than that of the certificate.
        DigestDiffers,
        /// The entry grants the request.
        Grants,
        /// Its issuer is a hash, and no key of the sequence has this hash.
        KeyNotShown,
        /// The authorization so far must not be delegated.
        NoDelegation,
        /// The intersection of the tags is empty.
        NoTag,
        /// No moment is within both windows.
        NoValidity,
        /// Its signature is not marked as valid.
        NotAccepted,
        /// The subject so far has names left, or is another than the issuer.
        NotIssuer,
        /// The last subject has names left, or is another than the client's key.
        NotTheKey,
        /// The subject so far does not begin with the name that the certificate defines.
        NotTheName,
        /// The signature is by another key than that of the issuer.
        SignerDiffers,
        /// The tag does not contain the request.
        TagLacks,
        /// The window does not contain the moment.
        WindowLacks,
    }
}

words! {
    /// What is refused.
    Part {
        /// The access list.
        Acl,
        /// The moment.
        At,
        /// An access list, or a text to be converted, that is in none of the three forms within the limits.
        Form,
        /// The client's key.
        Key,
        /// The question as a whole, by a limit.
        Question,
        /// The request.
        Request,
        /// The certificates and signatures.
        Sequence,
    }
}
