//! The numbers given back (01, "Numbers given back"; 02, W3). The number alone is the answer; part
//! and fault say why it was given, so that the driver can see that every ground was met.

#[derive(Clone, Copy, PartialEq, Eq, PartialOrd, Ord, Debug)]
pub enum Part {
    Order,
    Sheet,
    Work,
    List,
    Record,
    Numbers,
    Packets,
    Earlier,
    Later,
    Totals,
    Hits,
    A,
    B,
    C,
    /// The lists as an edit would leave them.
    NewA,
    NewB,
}

#[derive(Clone, Copy, PartialEq, Eq, PartialOrd, Ord, Debug)]
pub enum Fault {
    ShortBuffer,
    StatedLength,
    CountLimits,
    CountMissing,
    GroupCountMissing,
    RecordsMissing,
    LeftOver,
    RecordLength,
    BadRecord,
    NotComplete,
    NoRuleFits,
    TooManyPieces,
    TooManyBoxes,
    GroupCount,
    GroupsDiffer,
    NoSuchPlace,
    NoSuchList,
    TooManyPackets,
    BrokenPacket,
    ReadingsMissing,
}

impl Fault {
    pub fn number(self) -> u32 {
        match self {
            Fault::ShortBuffer | Fault::StatedLength => 1,
            Fault::CountLimits | Fault::TooManyPackets => 2,
            Fault::CountMissing | Fault::GroupCountMissing | Fault::RecordsMissing => 3,
            Fault::LeftOver | Fault::RecordLength => 3,
            Fault::ReadingsMissing | Fault::BrokenPacket => 3,
            Fault::BadRecord => 4,
            Fault::NotComplete | Fault::NoRuleFits => 5,
            Fault::TooManyPieces => 6,
            Fault::TooManyBoxes => 7,
            Fault::GroupCount | Fault::GroupsDiffer => 8,
            Fault::NoSuchPlace | Fault::NoSuchList => 9,
        }
    }
}

#[derive(Clone, Copy, PartialEq, Eq, PartialOrd, Ord, Debug)]
pub struct Refusal {
    pub part: Part,
    pub fault: Fault,
}

impl Refusal {
    pub fn new(part: Part, fault: Fault) -> Refusal {
        Refusal { part, fault }
    }

    pub fn number(self) -> u32 {
        self.fault.number()
    }
}
