//! What the scripts reached, counted. A count of zero fails a run.

macro_rules! reaches {
    ($($name:ident $text:literal)*) => {
        #[derive(Clone, Copy, Debug, PartialEq, Eq)]
        pub enum Reach {
            $($name,)*
        }

        const TEXTS: &[&str] = &[$($text,)*];
    };
}

reaches! {
    NumberWrap "sequence number wraps"
    StampWrap "run with buffered packets on both sides of a stamp's wrap"
    MessageWrap "message number wraps"
    FullBuffer "full buffer removes packets"
    FullBufferSent "full buffer removes a sent packet"
    FullBufferUnsent "full buffer removes an unsent packet"
    FullBufferLost "full buffer removes a packet on the loss list"
    LargerThanBuffer "message larger than the buffer"
    EmptyMessage "empty message"
    LateDrop "late drop"
    LateDropSent "late drop of a sent packet"
    LateDropUnsent "late drop of an unsent packet"
    LateDropLost "late drop of a packet on the loss list"
    LateDropSome "late drop that leaves packets"
    LateAtLimit "run exactly at the front's time + late window"
    LossSingle "loss report with a single number"
    LossRange "loss report with a range"
    LossAdded "loss Added"
    LossIgnored "loss Ignored"
    LossDropped "loss Dropped"
    LossAcrossWrap "loss run across the wrap"
    LossAgain "loss reported again"
    LossJoined "loss runs joined across items"
    LossThreeRuns "three runs from one range"
    LossHalf "loss at distance 2^30 from next unsent"
    LossEmptyBuffer "loss report with nothing buffered"
    LossNoWords "loss report without words"
    AckReceived "ACK that removes packets"
    AckNothing "ACK of the front"
    AckAll "ACK of next unsent"
    AckRecovered "ACK that removes loss entries"
    AckAcrossWrap "ACK across the wrap"
    AckFullAbove "full number above the expected"
    AckStale "stale full ACK"
    AckStaleRtt "stale full ACK that brings an RTT"
    AckBelow "invalid ACK below the front"
    AckAbove "invalid ACK above next unsent"
    AckEmpty "ACK with nothing buffered"
    BudgetZero "run with budget 0"
    WindowWait "run waits for an ACK"
    InputWait "run waits for input"
    SixteenthWithin "number that divides by 16 sent at once within the budget"
    SixteenthPast "number that divides by 16 sent past the budget"
    SixteenthWindow "number that divides by 16 sent past the window"
    ByLoss "resend by loss"
    ByTime "resend by time"
    ByTimeTie "resends by time with a tie"
    DueAtLimit "run exactly at a resend time"
    Drain "draining run"
    Flush "closing flush"
    FlushHeld "payload of a flushed packet asked for"
    Period "message answers a period"
    TimeBack "time goes back"
    ReportNegative "report with the back before the front"
    Refused1 "refused BadSetting"
    Refused4 "refused BadTime"
    Refused5 "refused TooLong"
    Refused6 "refused CountFull"
    Refused7 "refused BadNumber"
    Refused8 "refused BadRtt"
    Refused12 "refused BadNak"
    Refused13 "refused NoRoom"
    Refused14 "refused NotHeld"
    BufferLargest "buffer of 8,192 packets full"
    UnmodifiedFull "unmodified copy set aside at a full buffer"
    UnmodifiedLate "unmodified copy set aside at a late drop"
    TimerSeveral "timer answers several periods"
    TimerZero "timer with period 0 answers"
    TimerShort "timer with a set period below 1,000"
    TimerBefore "timer checked before its origin"
    ExpFired "EXP fired"
    IdleSilent "idle timer moved in silence"
    IdleAnswered "idle timer answered"
    PacingSkipped "estimate after several periods"
    PacingFresh "rate taken over where mean and variance are 0"
    PacingUp "rate above the mean"
    PacingDown "rate at or below the mean"
    PacingOne "period of 1 in place of 0"
    SplitMany "message split into several packets"
    SplitExact "message of a whole multiple of the size"
    PacingHeld "period held at 10^12"
    TimerHeld "timer's answer held at 2^32 - 1"
    ExpHeld "EXP's period held at 10^15"
    ExpCountHeld "EXP's count held at 2^32 - 1"
}

/// The refusals that the leaves give.
const OF_LEAVES: [Reach; 5] = [Reach::Refused1, Reach::Refused4, Reach::Refused5, Reach::Refused6, Reach::Refused8];

/// What takes long messages: none of it is in the stored sessions.
const OF_LONG: [Reach; 3] = [Reach::Refused5, Reach::Refused6, Reach::BufferLargest];

fn of_small() -> impl Iterator<Item = usize> {
    let long = OF_LONG.map(|reach| reach as usize);
    (0..Reach::TimerSeveral as usize).filter(move |index| !long.contains(index))
}

impl Reach {
    /// The reach of a refusal by number.
    pub fn refused(number: u32) -> Option<Reach> {
        use Reach::*;
        match number {
            1 => Some(Refused1),
            4 => Some(Refused4),
            5 => Some(Refused5),
            6 => Some(Refused6),
            7 => Some(Refused7),
            8 => Some(Refused8),
            12 => Some(Refused12),
            13 => Some(Refused13),
            14 => Some(Refused14),
            _ => None,
        }
    }
}

#[derive(Clone)]
pub struct Reached([u64; TEXTS.len()]);

impl Default for Reached {
    fn default() -> Self {
        Reached([0; TEXTS.len()])
    }
}

impl Reached {
    pub fn note(&mut self, reach: Reach) {
        self.0[reach as usize] += 1;
    }

    pub fn note_if(&mut self, reached: bool, reach: Reach) {
        if reached {
            self.note(reach);
        }
    }

    /// Every count of the sender's scripts, and how many are zero: none brings as
    /// much as CountFull takes.
    pub fn print_scripts(&self) -> usize {
        let all = 0..Reach::TimerSeveral as usize;
        self.print_some(&mut all.filter(|index| *index != Reach::Refused6 as usize))
    }

    /// The same of the leaves.
    pub fn print_leaves(&self) -> usize {
        let refusals = OF_LEAVES.iter().map(|reach| *reach as usize);
        let inside = Reach::TimerSeveral as usize..Reach::PacingHeld as usize;
        self.print_some(&mut refusals.chain(inside))
    }

    /// The same of the stored sessions: all but what takes a message of more than
    /// 512 bytes.
    pub fn print_sender(&self) -> usize {
        self.print_some(&mut of_small())
    }

    /// How many of these were reached.
    pub fn kinds(&self) -> usize {
        of_small().filter(|index| self.0[*index] > 0).count()
    }

    /// The numbers that are held outside the domain.
    pub fn print_held(&self) -> usize {
        self.print_some(&mut (Reach::PacingHeld as usize..TEXTS.len()))
    }

    fn print_some(&self, which: &mut dyn Iterator<Item = usize>) -> usize {
        let mut missed = 0;
        for index in which {
            println!("{:>12}  {}", self.0[index], TEXTS[index]);
            missed += usize::from(self.0[index] == 0);
        }
        missed
    }
}
