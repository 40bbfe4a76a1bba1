//! The faults that are planted.

use crate::faults::faults;

faults! {
    pub
    Number, Rows, Entries, Loose, Bytes, Change, LooseChange, RowEnd, BehindChanges, BehindEnds, BesideArrays,
    BytesOfAFailure, FourEarly, FiveEarly, FiveForFour, NoSix, NoSeven, ZeroColumnsRefused, LineEndsOnAByte,
    NoEightForALine, WrittenBit, WrittenBehind, UnusedBitsStay, NineEarly, NineWrites, NineBeforeEight,
    FallingEnds, PlaceOfFour, PlaceBehind, Mark, MarkLate, BehindMarks, MarkOfALine, FiveForNoMark, ExactUnasked,
    ExactIsLenient, ShortPasses, WholeIsShort, ZeroColumnsShort, BytesOfAShortPage, PlainChange, PlainPlace,
    PlainNumber, SameArray, RowTwice, BehindARow, ReferenceTouched, LooseLost, RepetitionWrites, RepeatsOtherwise,
    ForgedTaken, PlainRow, AllAtOnce, OneUnitMore, PlainUnit, BehindAUnit, UnitRepetitionWrites, LateTaken,
    TenLate, OneTooMany, EightBeforeTen, NoRowsWritten, FirstEolMissing, FiveEols, FillBeforeEach, TagsExchanged,
    KLines, RowBeforeLast, RtcWithoutOnes,
}
