//! Slips with images of two editions, with removal, with last-used moments and with the upgrade.

use super::slip_list::slips;

slips! {
    /// A slip that an implementation might make.
    enum ImageSlip, all in IMAGE_SLIPS {
        /// A new image is of edition 1.
        NewOfEdition1,
        /// An image of 1,024 rows is refused, and to 1,023 rows none is added.
        LimitOneLess,
        /// An image of 1,025 rows is taken, and to 1,024 rows one is added.
        LimitOneMore,
        /// An image of edition 2 may have 64 rows, as one of edition 1.
        LimitOfEdition1,
        /// An image of edition 1 may have 1,024 rows, as one of edition 2.
        LimitOfEdition2,
        /// Of the number of rows only the second byte is looked at.
        CountOfOneByte,
        /// Of an offset only the last two bytes are looked at.
        OffsetsReadShort,
        /// Of an offset only the last two bytes are written.
        OffsetsWrittenShort,
        /// Only the first 64 rows are looked at for an id that recurs.
        DuplicatesOfFirst64,
        /// A row that was never used is taken, and no other.
        MomentsZero,
        /// A moment of 2^53 and above is refused.
        MomentsBounded,
        /// A lookup refuses edition 1.
        OldNotFound,

        /// The most recently used row is removed first.
        MostRecentFirst,
        /// Of two rows with one moment the later is removed first.
        LaterOfTie,
        /// Rows are removed in their order.
        InOrderOfRows,
        /// The row that expired first is removed first.
        InOrderOfExpiry,
        /// The row with the longest body is removed first.
        LongestFirst,
        /// Moments are compared as signed numbers.
        MomentsSigned,
        /// Of moments only the last four bytes are compared.
        MomentsOfFourBytes,
        /// One row more is removed than needed.
        OneTooMany,
        /// All expired rows are removed where one has to be.
        AllRemoved,
        /// All expired rows are removed where none has to be.
        RemovedWithoutNeed,
        /// Rows that aren't expired are removed where the expired ones are not enough.
        UnexpiredAfter,
        /// Rows are removed whether they are expired or not.
        ExpiryNotRead,
        /// A row is expired one second late.
        ExpiredLate,
        /// A row is expired one second early.
        ExpiredEarly,
        /// A row is expired where its period has not begun either.
        NotYetValidRemoved,
        /// Where removing all expired rows is not enough, they are removed with the refusal.
        RefusalRemoves,
        /// Nothing is removed where 1,024 rows are held.
        RemovedForRoomOnly,
        /// Nothing is removed where the buffer is too short.
        RemovedForRowsOnly,
        /// A removed row gives back the room of its body alone.
        RoomOfBodyOnly,
        /// One byte more is needed than is.
        RoomOneMore,

        /// The last row takes the place of a removed one.
        LastIntoGap,
        /// The new row takes the place of the first removed one.
        NewIntoGap,
        /// Removal sets the moments of the kept rows to 0.
        KeptMomentsCleared,
        /// Removal moves the moments up with the table, but not with their rows.
        MomentsNotClosed,
        /// The offsets of kept rows are as if nothing was removed.
        OffsetsNotClosed,
        /// What is left of a longer image after removal is set to 0.
        RestCleared,
        /// The bytes after the image move as its end does.
        TailMoved,
        /// A new row was last used at 0.
        StoredAtZero,
        /// A new row was last used when its period began.
        StoredAtBegin,
        /// A repeat raises the moment to now.
        RepeatTouches,
        /// An expired row doesn't hold its id: other bytes under it replace it.
        ExpiredReplaced,
        /// A repeat of an expired row is stored anew, as the last.
        ExpiredStoredAnew,
        /// A submission takes edition 1.
        OldSubmittedTo,
        /// A submission takes a repeat to edition 1.
        OldRepeatTaken,
        /// A submission refuses edition 1 after the steps of the descriptor.
        OldAfterReading,

        /// A grant sets the moment to a smaller one too.
        MomentLowered,
        /// A grant leaves the moment.
        MomentLeft,
        /// A grant sets the moment to the clock in milliseconds.
        MomentInMilliseconds,
        /// A grant sets the moment to the clock in seconds, rounded up.
        MomentRoundedUp,
        /// A grant sets the moment to the end of the session.
        MomentOfSession,
        /// A refusal for a held id raises the moment too.
        MomentOfRefusal,
        /// A refusal by the lease steps raises the moment too.
        MomentBeforeLease,
        /// A grant raises the moment of the first row.
        MomentOfFirstRow,
        /// A grant raises the moments of all rows.
        MomentOfAllRows,
        /// A grant on edition 1 writes after the row's end.
        OldMomentWritten,
        /// A request refuses edition 1.
        OldNotAsked,

        /// An upgrade takes edition 2.
        UpgradeOfEdition2,
        /// An upgrade refuses a short buffer before a bad image.
        UpgradeShortFirst,
        /// An upgrade refuses a buffer of the exact length.
        UpgradeRoomOneMore,
        /// An upgrade to a short buffer writes the header.
        UpgradeStarted,
        /// An upgrade sets each moment to 1.
        UpgradeAtOne,
        /// An upgrade keeps the offsets.
        UpgradeOffsetsKept,
        /// An upgrade sets the bytes after the image to 0.
        UpgradeTailCleared,
        /// An upgrade copies the bytes after the old image too.
        UpgradeTailCopied,
        /// An upgrade answers with the length of the buffer.
        UpgradeLenOfBuffer,
        /// An upgrade answers with the length of the old image.
        UpgradeLenOfOld,
    }
}
