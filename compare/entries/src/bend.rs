//! What is made wrong on purpose: a comparison that lets one of them pass is
//! blind. The model's rules are bent inside it; the proved code can't be, since it
//! wouldn't be proved: its answers, and what it is given, are bent on their way.

use std::{ffi::CStr, os::raw::c_char};

use calls::Area;

/// A bend of the model: its number, where it shows, its name and what it does.
pub struct Rule {
    pub number: u32,
    pub area: Area,
    pub name: &'static str,
    pub text: &'static str,
}

#[repr(C)]
struct Row {
    area: *const c_char,
    name: *const c_char,
    text: *const c_char,
}

extern "C" {
    fn model_bend(which: u32);
    fn model_bent_rule(which: u32) -> *const Row;
}

/// Bends a rule of the model from now on, wherever it is called; 0 for none.
pub fn bend_model(rule: u32) {
    // Sound: it keeps a number, and only this thread calls the model.
    unsafe { model_bend(rule) }
}

/// Every bend of the model.
pub fn rules() -> Vec<Rule> {
    // Sound: a row that isn't null, and its strings, last as long as the program.
    let row = |number: u32| unsafe { model_bent_rule(number).as_ref() };
    let text = |from: *const c_char| unsafe { CStr::from_ptr(from) }.to_str().expect("ASCII");
    let rule = |number: u32| {
        row(number).map(|row| Rule {
            number,
            area: Area::named(text(row.area)).expect("an area"),
            name: text(row.name),
            text: text(row.text),
        })
    };
    (1..).map_while(rule).collect()
}

/// Makes the enum `Bend` of the names, with `None` for no bend, and `BENDS`.
macro_rules! bends {
    ($($area:ident: $($name:ident $text:literal)*;)*) => {
        #[derive(Clone, Copy, Debug, PartialEq, Eq)]
        pub enum Bend {
            None,
            $($($name,)*)*
        }

        /// Every bend, where it shows and what it does.
        pub const BENDS: &[(Bend, Area, &str)] = &[
            $($((Bend::$name, Area::$area, $text),)*)*
        ];
    };
}

bends! {
    Sender:
        LastByteTurned "a message's last byte is given turned over"
        MadeOneMore "a message makes one packet more"
        RemovedUntold "packets removed aren't told"
        WireBytesOneLess "the wire bytes removed are one less"
        PeriodUntold "a message tells no period"
        RttNotGiven "an ACK's RTT isn't given"
        ReceivedOneMore "an ACK receives one packet more"
        RecoveredUntold "packets recovered aren't told"
        FullUntold "the full number isn't told"
        StaleRttLost "a stale full ACK's RTT isn't kept"
        KindsTurned "Ignored and Dropped are swapped"
        FirstOneUp "a loss run's first number is one up"
        EndIncluded "a loss run's end is its last number"
        LastRunUntold "the last loss run isn't told"
        DrainNotGiven "a run isn't given that it drains"
        TimeAsLoss "a resend by time is told as one by loss"
        WaitsTurned "the two waits are swapped"
        PlaceUntold "a record has no place"
        AgainUntold "a record has no retransmitted flag"
        LengthOneMore "a record's length is one more"
        NumberOneUp "a record's number is one up"
        MessageUntold "a record has no message number"
        DropEndIncluded "a drop's end is its last number"
        UnackedOneLess "a wait tells one unacknowledged packet less"
        StampUntold "a record has no stamp"
        WindowAsSet "a wait tells the flow window"
        TimeIsStamp "a record's time is its stamp"
        LastRecordUntold "the last record isn't told"
        LeftOneMore "the budget left is one more"
        NextSlot "a payload is read one slot further"
        LastByteUntold "a payload lacks its last byte"
        HeaderPlaceLost "a header has no place"
        HeaderNeverAgain "a header has no retransmitted flag"
        FlushedTurned "the report flushed is turned over"
        ToSendTurned "the report of packets to send is turned over"
        PacketsOneMore "the report of packets is one more"
        BytesOneMore "the report of bytes is one more"
        TimeUntold "the report of time is 0"
        NumberOfRefusal "a refusal has the next number"
        ValuesTurned "a refusal's first two values are swapped"
        HeldLost "the flushed packet isn't kept"
        ExpectedStays "the expected full number stays"
        ResendOneLater "the front's resend time is kept one later"
        LossForgotten "a number of the loss list isn't kept"
        StoreTurned "a byte of the store is turned over"
        ListPastAnswer "a lent list is written past its answer"
        RefusedSender "a refused call changes the sender"
        RefusedRing "a refused call changes the ring"
        RefusedLost "a refused call changes the loss list"
        RefusedStore "a refused call changes the store"
        RefusedList "a refused call changes its answer list";
    Timer:
        TimerKept "a timer isn't moved by a check"
        OnePeriodMore "a timer tells one period more"
        InstantIsOrigin "the next instant is the origin"
        RefusalOneUp "a timer's refusal has the next number"
        RefusedMoves "a refused check moves the timer";
    Timers:
        NakAsAck "a check of NAK goes to ACK"
        StatisticsKept "the statistics timer isn't moved by a check"
        ExpCountKept "the EXP count doesn't go up"
        MessageForgotten "the next wake-up doesn't know the next message"
        VarianceAsMean "mean and variance are swapped";
    Pacing:
        InputAsEstimated "input mode is taken for estimated mode"
        PacketsAsBytes "packets and bytes are swapped"
        PeriodSilent "a period of 1 is taken for none"
        VarianceLost "the byte rate's variance is lost";
    Split:
        PlacesTurned "first and last are swapped"
        LastFull "a last packet is as long as the others"
        OneFewer "the last packet isn't asked for";
    Header:
        NeverAgain "the retransmitted flag is never set"
        StampAsId "stamp and socket id are swapped"
        NumberAsMessage "number and message number are swapped";
}
