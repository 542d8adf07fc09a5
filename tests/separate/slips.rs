//! The named slips: each changes one decision of this program, so that the families can be
//! seen to tell it from the right one. No slip is on unless a command turns it on.

use std::cell::Cell;

macro_rules! slips {
    ($($slip:ident $name:literal $what:literal)*) => {
        #[derive(Clone, Copy, PartialEq, Eq)]
        pub enum Slip { None, $($slip),* }

        /// Every slip with its name and what it does.
        pub const ALL: &[(Slip, &str, &str)] = &[$((Slip::$slip, $name, $what)),*];
    };
}

slips! {
    // Crossings.
    StrictTest "strict-test" "B above A instead of B at least A"
    LastPlus "last-plus" "the last plus instead of the first"
    LastMinus "last-minus" "the last minus instead of the first"
    BFirst "b-before-a" "plus and minus looked for among B's parts before A's"
    HalfEdgeOwnWay "half-edge-own-way" "an edge worked out in the direction of its first half-edge"
    FromMinus "from-minus" "interpolated from minus to plus"
    NoHold "no-hold" "an interpolated number stands also where it is not between the ends"
    HoldAtMinus "hold-at-minus" "m instead of p taken where the number is not between the ends"
    ZeroBits "zero-bits" "minus zero below plus zero in the hold"
    PlusTimes "plus-times" "p + t*(m-p) instead of p - t*(p-m)"
    Fused "fused" "product and difference rounded once together"
    VertexShortcut "vertex-shortcut" "no interpolation where plus and minus have the same point"
    CountsCapped "counts-capped" "a solid contains a point at most once"
    CrossingsCapped "crossings-capped" "an edge crosses a facet at most once"
    // The result.
    BPoint "b-point" "B's point for a new vertex"
    NotTurned "not-turned" "B's pieces with A's facets not turned round"
    AgainstReversed "against-reversed" "the pieces of a half-edge against its edge in reverse order"
    FirstApex "first-apex" "the fan begins at the first number of the boundary"
    OriginsUnshifted "origins-unshifted" "B's facet numbers as origins, without A's facet count"
    EqualMerged "equal-merged" "result vertices with equal coordinates merged"
    DifferenceSign "difference-ci" "the difference's cI is 1"
    CrossingsFirst "crossings-first" "the crossings of an edge of B listed before its start and end"
    JoinReversed "join-reversed" "the first start joined to the last end"
    UnusedDropped "unused-dropped" "A's vertices used by no facet left out"
    OriginsUnroomed "origins-unroomed" "the room for origins not looked at"
    // Refusals.
    OrderSwapped "order-swapped" "B checked before A"
    CodeLast "code-last" "the operation code checked after the solids"
    BlankLimitSwapped "blank-limit-swapped" "checks 3 and 4 in the other order"
    BlankIsEmpty "blank-is-empty" "a solid of blanks only taken for the empty one"
    LimitRefused "limit-refused" "1,048,576 itself refused"
    TwiceNamed "twice-named" "a facet may name a vertex twice"
    PointLast "point-last" "a point count checks the solid before the point"
    FiveKept "five-kept" "5 still given for both corner faults"
    TwiceFirst "twice-first" "a facet tested for 11 before 10"
    HighAnywhereFirst "high-anywhere-first" "a 10 in any facet before every 11"
    BlankLimitByVertex "blank-limit-by-vertex" "3 and 4 looked for vertex by vertex"
    // Who is refused, and the place.
    AForB "a-for-b" "B's refusals told as A's"
    PointIsSolid "point-is-solid" "the point's refusals told as the solid's"
    CountedAsLetter "counted-as-letter" "a point count's solid told as A or B"
    SizesOnNobody "who-with-sizes-dropped" "1 and 2 told of nobody"
    PlaceWithRoom "place-with-8" "8 told of a solid, with a place"
    CoordinateForVertex "coordinate-for-vertex" "the coordinate's number as the place of 3 and 4"
    LastFault "last-fault" "the place of the last fault instead of the first"
    SurplusOnly "surplus-only" "6 at the first facet whose half-edge outnumbers its way back"
    FacetOfReturn "facet-of-return" "6 at the first facet that has the way back"
    LowestPair "lowest-pair" "6 at the first facet of the lowest pair of vertices"
    // Parts shown, house file and program.
    ShownUp "shown-up" "A's facet count rounded up where a part is shown"
    UsedWithoutEnd "used-without-end" "the bytes used without the end mark"
    MixedRecords "mixed-records" "a vertex record may follow a facet record"
    SizeFirst "size-first" "the reader refuses by 2 before it has seen the whole layout"
    RoomFirst "room-first" "the reader checks 8 before 2"
    RoomLast "room-last" "the reader checks 8 last"
    ZeroSignLost "zero-sign-lost" "the writer writes minus zero as zero"
    TrailingTaken "trailing-taken" "the program takes bytes behind B's file"
    LetterLast "letter-last" "the program looks at the files before the letter"
    LowerCase "lower-case" "the program takes lower-case letters"
    LayoutByFile "layout-by-file" "A's other refusals come before B's layout"
    BytesUnlimited "bytes-unlimited" "no limit of 32,768 bytes"
    ProgramRoom "program-room" "the program has room for one vertex less"
    // Rows.
    LongRowTaken "long-row-taken" "a row longer than 53 bytes taken"
    HalfMark "half-mark" "the second byte of a row's mark not looked at"
    HighFlagBitsIgnored "high-flag-bits-ignored" "flag bits 6 and 7 not looked at"
    UnitHighFirst "unit-high-first" "the unit number high byte first"
    HighBeforeLow "high-before-low" "the high bound of an axis before its low one in the row"
    FlagsShifted "flags-shifted" "a bound looks at the next bound's flag"
    OpenLowIsHigh "open-low-is-high" "an open low becomes plus the limit"
    BlankPasses "blank-passes" "a blank without its flag taken as open"
    FlaggedUnlimited "flagged-unlimited" "4 not looked for under a flag"
    RowLimitRefused "row-limit-refused" "1,048,576 itself refused in a row"
    PresentPasses "present-passes" "a value under a flag gives way to the limit"
    LimitBeforeBlank "limit-before-blank" "a row checked for 4 before 3"
    PresentBeforeLimit "present-before-limit" "a row checked for 12 before 4"
    ReversedBeforePresent "reversed-before-present" "a row checked for 13 before 12"
    BoundByBound "bound-by-bound" "the checks of a row bound by bound"
    BoundsSwapped "bounds-swapped" "13 looked for before the limit stands for open bounds"
    EqualBoundsPass "equal-bounds-pass" "a low that equals its high taken"
    RowZeroBits "row-zero-bits" "minus zero below plus zero where low and high are compared"
    BoxRoomFirst "box-room-first" "a row's 8 before all its other refusals"
    BoxCornersUnroomed "box-corners-unroomed" "the room for a box's corners not looked at"
    RowOnSolid "row-on-solid" "a row's refusals told of the only solid"
    UnitOnRefusal "unit-on-refusal" "the unit number told with a refusal"
    // Boxes.
    RowZeroSignLost "row-zero-sign-lost" "a bound of minus zero gives coordinates of zero"
    ZCountedFirst "z-counted-first" "corners numbered by z + 2y + 4x"
    FacesBySide "faces-by-side" "all low faces before all high ones"
    OtherDiagonal "other-diagonal" "faces cut by the other diagonal"
    SecondLowestLast "second-lowest-last" "the triangle with the second-lowest corner last"
    InwardFace "inward-face" "the low face of z turned inward"
    StartElsewhere "start-elsewhere" "triangles start at their second corner"
}

thread_local! {
    static ON: Cell<Slip> = const { Cell::new(Slip::None) };
}

/// The slip that is on.
pub fn slip() -> Slip {
    ON.with(Cell::get)
}

pub fn turn_on(slip: Slip) {
    ON.with(|on| on.set(slip));
}

pub fn named(name: &str) -> Option<Slip> {
    ALL.iter().find(|(_, known, _)| *known == name).map(|(slip, _, _)| *slip)
}
