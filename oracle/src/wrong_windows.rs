//! Named wrong readings of document 02's W2 and W6, each with the entries it could show in.

macro_rules! bends {
    ($($name:ident $entries:literal $text:literal)*) => {
        #[derive(Clone, Copy, PartialEq, Eq, Debug)]
        pub enum Bend {
            /// The right reading.
            Nothing,
            $($name),*
        }

        pub const BENDS: &[(Bend, &str, &str)] = &[$((Bend::$name, $entries, $text)),*];
    };
}

bends! {
    // Where a delimiter may stand
    FlagTrue "SPI" "at a window's front a delimiter may always stand"
    FlagFalse "SPI" "at a window's front no delimiter may stand"
    BareFeed "SPI" "a line that ended in a bare LF lets a delimiter follow"
    FlagNever "SPI" "no delimiter behind a finished line"
    NoStart "SPI" "no delimiter at the region's start"
    CrlfStays "SPI" "a CRLF taken with an earlier window stays in the content"
    DelimiterLine "SPI" "a delimiter waits for its line's end"
    DelimiterTwo "SPI" "a delimiter is read with the two bytes behind it"
    // Places and offsets
    PlaceSized "I" "the place moves with what is taken of a sized body"
    PlacePreamble "SPI" "the place moves with what is taken of a preamble"
    PlaceContent "SPI" "the place moves with what is taken of a content"
    PlaceWindow "SsPI" "places count from the window's front"
    OffsetWindow "SsPI" "offsets count from the window's front"
    // What is taken
    SizedKept "I" "a sized body is taken whole or not at all"
    PreambleKept "SPI" "a preamble is taken whole or not at all"
    ContentKept "SPI" "a content is taken whole or not at all"
    CrlfKept "SPI" "the last finished line's CRLF is not taken, since it may be a delimiter's"
    FeedKept "SPI" "a line of content is finished by CRLF only"
    UnfinishedPreamble "SPI" "an unfinished line of a preamble that can be no delimiter is taken"
    UnfinishedContent "SPI" "an unfinished line of content that can be no delimiter is taken"
    RestPieces "I" "the literal's rest is skipped piece by piece"
    TwoPieces "SPI" "two bytes are taken one at a time"
    PeekTaken "I" "of a line that is peeked at the bytes shown are taken"
    DoneAll "SsP" "done takes the whole window"
    DoneNothing "SsP" "done takes nothing"
    RefusalTakesPlace "SPI" "a refusal takes up to its place"
    RefusalTakesAll "SsPI" "a refusal takes the whole window"
    RefusalWithdraws "SPI" "a refusal withdraws the events its window listed"
    // What is listed
    SizedPieces "I" "a sized body is listed window by window"
    PartPieces "SPI" "a part body is listed window by window"
    StartAgain "I" "each window of a sized body lists its start"
    CountAnew "SsPI" "each window lists from the table's front"
    TableFirst "SsPI" "the slots of the first table lent count"
    TableShort "SsPI" "a table below the events kept refuses though none is due"
    TableOdd "SsPI" "a slot that the table holds in part counts"
    // 12
    TwelveFirst "SPI" "12 comes before 9"
    TwelveAtLine "SPI" "12 is given at the line that supplies the boundary"
    TwelveUnlisted "SPI" "12 comes before the blank line is listed"
    TwelvePlace "SPI" "12 is placed at the blank line"
    TwelveSeventy "SPI" "a boundary of 70 bytes is too long"
    TwelveMore "SPI" "a boundary of 71 bytes is not too long"
    TwelveHyphens "SPI" "the two hyphens count among the 70"
    TwelveFeed "SPI" "an LF at the boundary's end is not counted"
    TwelveOuter "SPI" "only the outermost boundary can be too long"
    TwelveInner "SPI" "the outermost boundary cannot be too long"
    TwelveNever "SPI" "a long boundary is read as any other"
    LongIsNone "SPI" "a long boundary is none"
    LongIsCut "SPI" "a long boundary is cut to 70 bytes"
    LaterShort "SPI" "a later short boundary replaces a long one"
    // The limit
    LimitTwice "SsPI" "bytes shown again count twice"
    LimitWindow "SsPI" "the limit is on each window"
    LimitTaken "SsPI" "only bytes taken before count"
    LimitEqual "SsPI" "the limit itself refuses"
    LimitLate "SsPI" "2 is given after the window is read"
    LimitEnded "SsPI" "a session that has ended gets 2 all the same"
    TwoForgets "SsPI" "2 forgets the events kept"
    TwoPlace "SsPI" "2 is placed behind the bytes taken"
    TwoOpen "SsPI" "2 is not final"
    // After the end
    RepeatCount "SsPI" "a repeated answer has no count"
    RepeatPlace "SsPI" "a repeated answer has place 0"
    RepeatTakes "SsPI" "a session that has ended takes the windows it is shown"
    RepeatEmpty "SsPI" "a window without bytes is incomplete even behind the end"
    RefusalOpen "SPI" "a refusal is not final"
    TenAgain "SsPI" "10 is tried again with the table of a later window"
    DoneOpen "SsP" "reading goes on behind done"
    // What is known between windows
    HeadAnew "SPI" "the header scan begins anew at each window"
    SeenLost "SPI" "Content-Type seen is lost at a window's end"
    EncodingLost "SPI" "the encoding is lost at a window's end"
    UnrecognisedLost "SPI" "that an encoding was not valid is lost at a window's end"
    SuppliedLost "SPI" "a boundary that is supplied and not yet open is lost at a window's end"
    OutermostLost "SPI" "the outermost boundary is lost at a window's end, the innermost stands in"
    InnerLost "SPI" "the inner boundaries are lost at a window's end, the outermost stands in"
    LevelLost "SPI" "levels between the outermost and the innermost are lost at a window's end"
    PhaseLost "SsPI" "each window begins the session anew"
    EmptyAnew "SsPI" "a window without bytes begins the session anew"
    OfferedLost "I" "an append's size is lost while the line behind it is waited for"
    PassedZero "I" "a literal that its header has passed has a rest of 0 and no refusal 7"
    RestWindow "I" "the literal's rest is counted from the window's front"
    RestShown "I" "bytes shown again count twice for the literal's rest"
    SizedWindow "I" "a sized body's length is counted from the window's front"
    // 11: where it is due
    StrictAlways "SsPI" "a bare LF refuses with the setting off too"
    StrictNever "SsPI" "a bare LF passes with the setting on too"
    StrictLost "SsPI" "the setting is lost at a window's end"
    ReturnAnywhere "SsPI" "a CR anywhere in the line is enough"
    ReturnBefore "I" "a CR directly before the line is enough"
    UnfinishedBare "SsPI" "a line that is not finished refuses"
    OutsideUntested "SsPI" "lines outside mails are not tested"
    HeaderUntested "SPI" "header lines are not tested"
    TextUntested "SP" "text lines are not tested"
    DotUntested "SP" "a dot before a bare LF is not tested"
    SkippedUntested "SPI" "lines behind a close are not tested"
    PeekedUntested "I" "a line that was peeked at is not tested, nor where it is read then"
    StrictPreamble "SPI" "a bare LF in a preamble refuses"
    StrictContent "SPI" "a bare LF in a content refuses"
    StrictSized "I" "a bare LF in a sized body refuses"
    StrictRest "I" "a bare LF in the literal's rest refuses"
    StrictTwo "SPI" "two bytes that end in a bare LF refuse with 11"
    // 11: what it comes before, its place, what it takes
    ElevenListed "SsPI" "11 comes behind the line's event"
    ThreeFirst "S" "3 comes before 11"
    FourFirst "S" "4 comes before 11"
    FiveFirst "S" "5 comes before 11"
    TenFirst "SsPI" "10 comes before 11"
    ByeFirst "s" "done by a 221 line comes before 11"
    TlsFirst "P" "done by a TLS answer comes before 11"
    ElevenFirst "SsPI" "11 comes before 2"
    ElevenFeed "SsPI" "11 is placed at the LF"
    ElevenTakes "SsPI" "11 takes up to its line"
}
