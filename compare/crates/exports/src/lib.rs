//! The exports of the Rattle crate `exports` as safe functions. They are apart from `jcc_label`: the
//! archive that has it is another.

jcc_types::export! {
    /// Makes a box and feeds it the prices in feeds of these sizes, in bars: 0 is an empty feed, a
    /// size beyond what is left takes what is left, and what the sizes leave goes into one last
    /// feed. Gives 0, or the refusal that one feed of all the prices gets.
    fn feed = jcc_feed() reads (sizes: [u32], prices: [f64]) writes (sheet: [u8])
}

jcc_types::export! {
    /// The same feeds, then a look at the box: v1 × 256 + v2, or 65,536 plus the refusal.
    fn look = jcc_look(recogniser, offset) reads (sizes: [u32], prices: [f64]) writes (sheet: [u8])
}

jcc_types::export! {
    /// The same feeds and the same look: the judged bar's ordinal, from 1 in the order of the history,
    /// or 0 if the offset is beyond the history or the feed or the look is refused.
    fn look_ordinal = jcc_look_ordinal(recogniser, offset)
        reads (sizes: [u32], prices: [f64]) writes (sheet: [u8])
}

jcc_types::export! {
    /// The feeds of `jcc_feed`, to a fresh box, with the caller's tally: 684 counts, those of
    /// recogniser k from 38 × k on. A count past the end of a shorter slice is zero and is not written;
    /// numbers past the last count are left alone. Gives 0, or the refusal that one feed of all the
    /// prices with that tally gets.
    fn tally = jcc_tally() reads (sizes: [u32], prices: [f64]) writes (sheet: [u8], counts: [u32])
}

jcc_types::export! {
    /// Makes a layer for terms of so many minutes in these hours, two numbers to a window, and makes
    /// calls to it: 0 is a close, another number a run of so many of the bars that are left. An answer
    /// is the number of rows that a call filled, or 16,777,216 plus its refusal. Gives 0, or the
    /// refusal of the making.
    #[expect(clippy::too_many_arguments, reason = "they are the export's")]
    fn terms = jcc_terms() and (minutes)
        reads (hours: [u32], stamps: [u32], prices: [f64], calls: [u32])
        writes (sheet: [u8], answers: [u32])
}
