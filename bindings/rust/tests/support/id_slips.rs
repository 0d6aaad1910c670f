//! Slips with ids: which ones a submission takes, before and after which steps, and where else they are looked at.

use super::slip_list::slips;

slips! {
    /// A slip that an implementation might make. Old ids are those that no submission takes.
    enum IdSlip, all in ID_SLIPS {
        /// Any version is taken.
        VersionNotRead,
        /// The version is read from octet 7.
        VersionOfOctet7,
        /// The version is read from the lower half of octet 6.
        VersionOfLowerHalf,
        /// Version 4 is taken too.
        Version4Taken,
        /// Versions above 7 are taken too.
        LaterVersionsTaken,
        /// Versions below 7 are taken too.
        EarlierVersionsTaken,
        /// Of the version only the three lower bits are read.
        VersionOfThreeBits,
        /// Any variant is taken.
        VariantNotRead,
        /// Of the variant only the first bit is read.
        VariantOfFirstBit,
        /// Of the variant only the second bit is read.
        VariantOfSecondBit,
        /// The variant is read as three bits.
        VariantOfThreeBits,
        /// The variant is read from octet 9.
        VariantOfOctet9,
        /// The variant is read from the lower half of octet 8.
        VariantOfLowerHalf,
        /// The two bits of the variant are exchanged.
        VariantReversed,

        /// Upper-case digits are taken.
        UpperCaseTaken,
        /// Upper-case digits are taken in a fay id.
        UpperCaseOfFayTaken,
        /// Upper-case digits are taken in a terminal id.
        UpperCaseOfTerminalTaken,
        /// The case of the first digit isn't looked at.
        FirstDigitTaken,
        /// The case of the last digit isn't looked at.
        LastDigitTaken,
        /// The case of the digits after the last hyphen isn't looked at.
        LastGroupTaken,
        /// A text of upper-case digits alone is taken.
        AllUpperCaseTaken,
        /// Names in upper case are refused.
        NamesRefused,

        /// The descriptor id isn't looked at.
        DescriptorNotRead,
        /// The fay id isn't looked at.
        FayNotRead,
        /// The terminal id isn't looked at.
        TerminalNotRead,
        /// Only the descriptor id is looked at.
        DescriptorAlone,
        /// Only the fay id is looked at.
        FayAlone,
        /// Only the terminal id is looked at.
        TerminalAlone,
        /// One id that is taken is enough.
        OneEnough,

        /// The ids are looked at before the verdict's number.
        BeforeVerdict,
        /// The ids are looked at before the image.
        BeforeImage,
        /// The ids are looked at after the length of the period.
        AfterPeriod,
        /// The ids are looked at after the beginning of the period, and before its length.
        AfterBeginning,
        /// The ids aren't looked at where there is no such key.
        NoKeyTaken,
        /// The ids aren't looked at where the key isn't valid.
        ClosedKeyTaken,
        /// The ids aren't looked at where the signature is bad.
        BadSignatureTaken,
        /// The ids of bytes that are held aren't looked at.
        HeldBytesTaken,
        /// The ids of other bytes under an id that is held aren't looked at.
        HeldIdTaken,
        /// The ids aren't looked at where there is no room.
        NoRoomTaken,
        /// Ids that aren't taken are answered with 15.
        AnsweredMalformed,

        /// Old ids don't read.
        OldNotRead,
        /// A descriptor of old ids has no grants to look at.
        OldWithoutGrants,
        /// A pattern or a resource id of an old terminal id is malformed.
        OldNotMatched,
        /// A lookup of an old descriptor id is malformed.
        OldNotLookedUp,
        /// An image that holds old ids is bad for a lookup.
        OldImageNotLookedUp,
        /// A request with an old descriptor id is malformed.
        OldDescriptorNotAsked,
        /// A request with an old fay id is malformed.
        OldFayNotAsked,
        /// A request with an old terminal id is malformed.
        OldTerminalNotAsked,
        /// An image that holds old ids is bad for a request.
        OldImageNotAsked,
        /// A body of old ids isn't found by a request.
        OldBodyNotAsked,
        /// An image that holds old ids is bad for a submission.
        OldImageNotSubmittedTo,
        /// An image that holds old ids isn't upgraded.
        OldNotUpgraded,
        /// A parent of old ids doesn't read.
        OldNotParent,
        /// A child of old ids doesn't read.
        OldNotChild,
    }
}
