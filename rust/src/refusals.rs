//! The listed refusals. Written by tools/declarations.py from tools/refusals.txt.

use crate::Refusal;

impl Refusal {
    /// The job is malformed or longer than 4,700 bytes.
    pub const JOB: Refusal = Refusal(1);
    /// The steps a year are not 1, 2, 4 or 12.
    pub const FREQUENCY: Refusal = Refusal(2);
    /// The steps are outside 1 to 60.
    pub const STEPS: Refusal = Refusal(3);
    /// The reversion is above 6,000.
    pub const REVERSION: Refusal = Refusal(4);
    /// The volatility is above 50,000.
    pub const VOLATILITY: Refusal = Refusal(5);
    /// A length, row or node is not in the tree, a memory is too short, or the strikes are none or more than 16.
    pub const LENGTH_OR_ROW: Refusal = Refusal(6);
    /// A quote's kind, figure or discount is outside its limits, or the version is not 1 or 2.
    pub const QUOTE: Refusal = Refusal(7);
    /// The nodes are too far apart. The half width of the last row but one times the spacing of the nodes is above one.
    pub const SPACING: Refusal = Refusal(8);
    /// A node discount is 0 or above 1,100,000,000.
    pub const DISCOUNT: Refusal = Refusal(9);
    /// A flow is above 2,000,000,000.
    pub const FLOW: Refusal = Refusal(10);
    /// The option's kind, side, expiry or strike is outside its limit.
    pub const OPTION: Refusal = Refusal(11);
    /// A value is above 8,000,000,000, or state prices sum above 2,000,000,100.
    pub const VALUE: Refusal = Refusal(12);
    /// The exercise dates are none, not strictly rising, or reach the last row.
    pub const DATES: Refusal = Refusal(13);
    /// The asked nodes and those held are more than 3,600.
    pub const NODES: Refusal = Refusal(14);
    /// The name is outside 1 to 8, already present at asking, not awaiting a commit at commit, or absent at release or pricing.
    pub const NAME: Refusal = Refusal(15);
    /// A band has an end before its start, or a haircut, start or end out of range, or there are more than 40 bands.
    pub const BAND: Refusal = Refusal(16);
    /// A row and a price are in no band.
    pub const NO_BAND: Refusal = Refusal(17);
    /// A row and a price are in two or more bands.
    pub const SEVERAL_BANDS: Refusal = Refusal(18);
    /// The steps of a pair are above 20, or its two trees differ in them.
    pub const PAIR_STEPS: Refusal = Refusal(19);
    /// Every listed refusal, by number.
    pub const LISTED: [Refusal; 19] = [
        Refusal::JOB,
        Refusal::FREQUENCY,
        Refusal::STEPS,
        Refusal::REVERSION,
        Refusal::VOLATILITY,
        Refusal::LENGTH_OR_ROW,
        Refusal::QUOTE,
        Refusal::SPACING,
        Refusal::DISCOUNT,
        Refusal::FLOW,
        Refusal::OPTION,
        Refusal::VALUE,
        Refusal::DATES,
        Refusal::NODES,
        Refusal::NAME,
        Refusal::BAND,
        Refusal::NO_BAND,
        Refusal::SEVERAL_BANDS,
        Refusal::PAIR_STEPS,
    ];
}

/// What each of them says, in the same order.
pub(crate) const CAUSES: [&str; 19] = [
    "the job is malformed or longer than 4,700 bytes",
    "the steps a year are not 1, 2, 4 or 12",
    "the steps are outside 1 to 60",
    "the reversion is above 6,000",
    "the volatility is above 50,000",
    "a length, row or node is not in the tree, a memory is too short, or the strikes are none or more than 16",
    "a quote's kind, figure or discount is outside its limits, or the version is not 1 or 2",
    "the nodes are too far apart",
    "a node discount is 0 or above 1,100,000,000",
    "a flow is above 2,000,000,000",
    "the option's kind, side, expiry or strike is outside its limit",
    "a value is above 8,000,000,000, or state prices sum above 2,000,000,100",
    "the exercise dates are none, not strictly rising, or reach the last row",
    "the asked nodes and those held are more than 3,600",
    "the name is outside 1 to 8, already present at asking, not awaiting a commit at commit, or absent at release or pricing",
    "a band has an end before its start, or a haircut, start or end out of range, or there are more than 40 bands",
    "a row and a price are in no band",
    "a row and a price are in two or more bands",
    "the steps of a pair are above 20, or its two trees differ in them",
];
