/* bends.h: document 01's rules bent, one at a time: where each shows, its name, and what it does. Where a rule stands in
 * the model, bent(Name) says whether it is to be broken there. */
#ifndef BENDS_H
#define BENDS_H

#include <stdint.h>

#define BENDS_OF_MESSAGES(B) \
    B("sender", ResendEntrySurvives, "the resend entry survives a removal") \
    B("sender", NextUnsentStays, "next unsent stays when an unsent packet is removed by a full buffer") \
    B("sender", FullBufferKeepsLoss, "a full buffer's removal leaves the loss list") \
    B("sender", RemovedWithoutOverhead, "removed bytes are payload only") \
    B("sender", BytesWithoutOverhead, "the byte count is payload only") \
    B("sender", CapacityOneLess, "the buffer is full one packet early") \
    B("sender", MessagePerPacket, "the message counter goes up per packet") \
    B("sender", MessageWrapsLate, "the message number has 27 bits") \
    B("sender", NumberWrapsLate, "the sequence number has 32 bits") \
    B("sender", TimeFromNow, "a packet carries now in place of its time") \
    B("sender", StoreByNumber, "the slot goes by the sequence number") \
    B("sender", FlushedNotHeld, "a flushed payload isn't held") \
    B("sender", ReportTimeUnsigned, "the buffered time of a back before the front isn't 0") \
    B("sender", ReportSeesDue, "has packets to send sees sent packets too")

#define BENDS_OF_ACKS(B) \
    B("sender", FullAckBeforeRtt, "a full ACK is tested before its RTT is taken") \
    B("sender", InvalidAckKeepsRtt, "an invalid ACK keeps its RTT") \
    B("sender", ExpectedOneUp, "the expected full number goes up by one only") \
    B("sender", FullAckNotStrict, "a full number equal to the expected is stale") \
    B("sender", AckBelowNext, "an ACK of next unsent is invalid") \
    B("sender", AckAnyOld, "an ACK below the front is taken for the front") \
    B("sender", RecoveredToo, "the loss entry at the ACK is recovered too") \
    B("sender", RecoveredIsReceived, "recovered counts packets") \
    B("sender", AckKeepsBytes, "an ACK leaves the byte count") \
    B("sender", AckKeepsLosses, "an ACK leaves the loss list")

#define BENDS_OF_LOSSES(B) \
    B("sender", RangeLastOut, "a range leaves its last number out") \
    B("sender", RunsNotJoined, "runs aren't joined across items") \
    B("sender", RunsJoinedAnyKind, "runs of different kinds are joined") \
    B("sender", IgnoredAtHalf, "at distance 2^30 a number is Ignored") \
    B("sender", UnsentAdded, "buffered but unsent numbers are Added") \
    B("sender", DroppedIsIgnored, "a number before the front is Ignored") \
    B("sender", AgainIsIgnored, "a number already on the list is Ignored")

#define BENDS_OF_DROPS(B) \
    B("sender", LatenessOnStamp, "lateness is judged on the stamp") \
    B("sender", LatenessNotStrict, "a packet is late at time + window already") \
    B("sender", LateWindowBare, "the late window is the latency, at least 1,000,000") \
    B("sender", LateWindowNoFloor, "the late window has no floor") \
    B("sender", LateDropLowersBytes, "a late drop lowers the byte count") \
    B("sender", LateDropCosts, "a late drop costs a unit") \
    B("sender", LateDropKeepsLosses, "a late drop leaves the loss list") \
    B("sender", LateDropFrontOnly, "a late drop takes the front packet alone") \
    B("sender", LateDropNextStays, "a late drop leaves next unsent") \
    B("sender", LateDropAll, "a late drop takes late packets behind one that isn't")

#define BENDS_OF_RUNS(B) \
    B("sender", LossFromBack, "the lost number farthest from the front goes first") \
    B("sender", LossStays, "a number sent by loss stays on the list") \
    B("sender", TimeBeforeLoss, "resends by time come before resends by loss") \
    B("sender", TieToFar, "ties go to the number farther from the front") \
    B("sender", FrontFirst, "of the overdue the one nearest the front goes, not the earliest") \
    B("sender", DueNotStrict, "a packet is due at its resend time already") \
    B("sender", WindowBeforeResend, "the flow window holds resends by time back") \
    B("sender", WindowNotStrict, "the window is exceeded when it is reached") \
    B("sender", WindowOnSixteenth, "the window applies to the number that divides by 16") \
    B("sender", BudgetOnSixteenth, "the number that divides by 16 waits for budget") \
    B("sender", SixteenthFree, "the number that divides by 16 costs nothing") \
    B("sender", SixteenthFirst, "the pair is 16n and 16n + 1") \
    B("sender", SixteenthAny, "every number goes in pairs") \
    B("sender", WindowRecordSetting, "a wait record says the flow window") \
    B("sender", FlushBeforeWindow, "a draining sender flushes before it waits for an ACK") \
    B("sender", FlushFree, "a flush costs nothing") \
    B("sender", FlushFlagClear, "a flush has the retransmitted flag clear") \
    B("sender", FlushKeepsBytes, "a flush leaves the byte count") \
    B("sender", FlushAlways, "the last packet is flushed without draining") \
    B("sender", CountOneMore, "the resend time takes the sending itself into its count") \
    B("sender", CountOneLess, "the resend time leaves one sending out of its count") \
    B("sender", NoExtraOnResend, "a later sending's resend time lacks the 10,000") \
    B("sender", VarianceOnce, "C takes the variance once") \
    B("sender", FlagOnFirst, "the retransmitted flag is set on the first sending") \
    B("sender", FlagLate, "the retransmitted flag is set from the third sending on") \
    B("sender", LossKind, "a resend by loss is written as one by time")

#define BENDS_OF_TIMERS(B) \
    B("timer", MovesToNow, "a timer that fires moves to now") \
    B("timer", SetPeriodRaised, "a set period is raised to 1,000") \
    B("timer", NewPeriodKept, "a new timer's period isn't raised") \
    B("timer", ZeroPeriodSilent, "a period of 0 never fires") \
    B("timer", FiresLate, "a timer fires strictly after origin + period") \
    B("timer", AnswersOne, "a timer that fires answers 1") \
    B("timers", IdleStays, "the idle timer doesn't move in silence") \
    B("timers", ResetExpOrigin, "reset_exp moves EXP's origin") \
    B("timers", ResetIdleStays, "reset_exp leaves the idle timer") \
    B("timers", CountAlways, "the EXP count goes up when idle answers too") \
    B("timers", CountSixteen, "EXP count 16 is enough for idle") \
    B("timers", CountNever, "the EXP count stays") \
    B("timers", NakHalvedFirst, "NAK halves the mean before the variance is added") \
    B("timers", NakAtMost, "NAK is at most 20 ms") \
    B("timers", ExpOnce, "EXP's period leaves its count out") \
    B("timers", ExpFloorOnce, "EXP's floor of 300 ms leaves the count out") \
    B("timers", WakeIdle, "the next wake-up looks at the idle timer") \
    B("timers", WakeAlwaysAck, "the next wake-up looks at ACK without unacknowledged packets") \
    B("timers", WakeSendingIgnored, "the next wake-up never looks at snd") \
    B("timers", WakePast, "the next wake-up may lie before now")

#define BENDS_OF_LEAVES(B) \
    B("pacing", InputFirst, "the input is added before the estimate") \
    B("pacing", VarianceOldMean, "the variance is taken from the old mean") \
    B("pacing", OnePeriod, "elapsed is one period whatever time has passed") \
    B("pacing", NextFromNow, "next is now + 100,000") \
    B("pacing", SlowFast, "a falling rate is averaged by halves") \
    B("pacing", FirstOnly, "the rate is taken over at the first estimate only") \
    B("pacing", OverheadDividedFirst, "the overhead divides before it multiplies") \
    B("pacing", ExpectedOnly, "the measured rate never counts") \
    B("pacing", WireBytes, "the byte rate counts packets too") \
    B("pacing", ZeroPeriodKept, "a period of 0 stays 0") \
    B("pacing", FirstInputLost, "the first input isn't added") \
    B("split", EmptyNoPacket, "an empty message makes no packet") \
    B("split", MultipleOneMore, "a whole multiple of the size makes one packet more") \
    B("split", OnlyIsFirst, "an only packet is marked first") \
    B("split", LastIsMiddle, "a last packet is marked middle") \
    B("header", FlagBit, "the retransmitted flag is bit 27") \
    B("header", LittleEndian, "the header is little-endian") \
    B("header", PlaceSwapped, "first and last are swapped") \
    B("header", StampBeforeMessage, "stamp and socket id are swapped")

#define ALL_BENDS(B) \
    BENDS_OF_MESSAGES(B) BENDS_OF_ACKS(B) BENDS_OF_LOSSES(B) BENDS_OF_DROPS(B) BENDS_OF_RUNS(B) BENDS_OF_TIMERS(B) \
    BENDS_OF_LEAVES(B)

#define BEND_NUMBER(area, name, text) BEND_##name,
enum { BEND_NONE, ALL_BENDS(BEND_NUMBER) BENDS };

/* The rule that is bent now. */
extern uint32_t bent_rule;
#define bent(name) (bent_rule == BEND_##name)

#endif
