//! The export of the Rattle library, `jcc_label`, as a safe function.

jcc_types::export! {
    /// The plain call over any bytes: v1 × 256 + v2, or 65,536 plus the refusal.
    fn label = jcc_label(recogniser, offset) reads (bars: [u8]) writes ()
}
