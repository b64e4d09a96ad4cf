//! The deliberate mistakes: each is a small switch in the model, named here.
//!
//! They exist only in a build with the feature `mistakes`; MISTAKE=name turns one on.

/// Two refusals answered in the wrong order when both apply: name, lower number, higher number.
pub const SWAPPED_ORDERS: &[(&str, u8, u8)] = &[
    ("order-2-before-1", 1, 2),
    ("order-3-before-2", 2, 3),
    ("order-4-before-3", 3, 4),
    ("order-5-before-4", 4, 5),
    ("order-6-before-4", 4, 6),
    ("order-8-before-4", 4, 8),
    ("order-6-before-5", 5, 6),
    ("order-7-before-5", 5, 7),
    ("order-9-before-5", 5, 9),
    ("order-7-before-6", 6, 7),
    ("order-8-before-6", 6, 8),
    ("order-8-before-7", 7, 8),
];

/// Every other mistake: its name and what is wrong.
pub const OTHERS: &[(&str, &str)] = &[
    ("m-limit-15", "16 rows are refused"),
    ("m-from-3", "2 rows are refused"),
    ("n-from-4m-4", "4m-4 columns are accepted"),
    ("n-from-4m-2", "4m-3 columns are refused"),
    ("n-limit-63", "64 columns are refused"),
    ("n-limit-65", "65 columns are accepted"),
    ("w-limit-4095", "symbols of 4,096 bytes are refused"),
    ("w-limit-none", "only the size of the stripe limits the symbol"),
    ("w-from-0", "symbols of no bytes are accepted"),
    ("size-limit-65535", "a stripe of 65,536 bytes is refused"),
    ("size-limit-none", "the size of the stripe is not limited"),
    ("size-wraps", "only m·n·w is limited, and counted modulo 2^64"),
    ("shape-cut-to-32-bits", "m, n and w lose their upper half"),
    ("column-cut-to-32-bits", "columns, rows and counts lose their upper half"),
    ("chain-as-printed", "Equation (1) as the paper prints it"),
    ("chain-does-not-wrap", "chains stop at the edge"),
    ("chain-without-top-height", "row 0 belongs to no chain"),
    ("encode-forgets-last-column", "the last parity is not set"),
    ("encode-parity-of-next-column", "parity p is put into column p+1"),
    ("check-bits-cut-to-16", "differing bits are counted modulo 65,536"),
    ("check-broken-without-chain-0", "a broken chain 0 is not counted"),
    ("check-counts-bytes", "differing bytes are counted, not bits"),
    ("locate-own-parity-must-agree", "chain c may not differ"),
    ("locate-ignores-chains-outside", "chains beyond the reach of c are not looked at"),
    ("locate-compares-first-byte", "only the first byte of a symbol is compared"),
    ("locate-forgets-top-height", "the pair of chains farthest from c is not compared"),
    ("locate-names-one-of-two", "a column is named though more are damaged"),
    ("locate-column-from-1", "columns are counted from 1"),
    ("small-write-one-parity", "only one of two parities is changed"),
    ("small-write-heals", "the parities are computed anew"),
    ("small-write-takes-parity-row", "row m-1 is accepted"),
    ("raw-store-refuses-parity-row", "row m-1 is refused"),
    ("raw-store-touches-parity", "raw store keeps the parities right"),
    ("longer-symbol-good", "a symbol longer than w is accepted"),
    ("stripe-longer-good", "a stripe longer than m·n·w is accepted"),
    ("workspace-half-for-one-lost", "m·w bytes are enough unless two are lost"),
    ("workspace-must-be-longer", "exactly 2·m·w bytes are refused"),
    ("workspace-rest-kept", "only the first 2·m·w bytes are zeroed"),
    ("workspace-kept-under-5", "a short workspace is not zeroed"),
    ("workspace-kept-under-9", "the workspace is not zeroed when survivors disagree"),
    ("workspace-kept-when-refused", "the workspace is zeroed only when done"),
    ("workspace-kept-when-none-lost", "the workspace is not zeroed when none is lost"),
    ("same-column-is-one-lost", "the same column twice is taken as one lost"),
    ("rebuild-keeps-parity", "the parity of a lost column is left as it was"),
    ("rebuild-never-9", "survivors are always believed"),
    ("rebuild-none-lost-is-done", "none lost is answered 0 without a look"),
    ("rebuild-writes-before-test", "the lost columns are written, then 9 is answered"),
    ("rebuild-counts-changed", "no column counts as lost if nothing changed"),
    ("fill-tie-larger-first", "with both walks n/2 the larger number is first"),
    ("fill-first-by-number", "the smaller number is always first"),
    ("fill-first-as-named", "the column named first is first"),
    ("fill-one-lost-chain-above", "one lost column is solved from chain c+d"),
    ("fill-parity-from-stale-column", "lost information is read from the stripe for the parity"),
    ("fill-refuses-9", "fill refuses when survivors disagree"),
    ("fill-zeroes-rest", "the answer buffer is zeroed first"),
    ("fill-copies-survivor", "a surviving column is copied into the buffer"),
    ("wanted-beyond-is-survivor", "the wanted column is not tested against n"),
    ("buffer-not-needed-by-survivor", "a short buffer is accepted if the column survives"),
    ("buffer-must-fit-exactly", "a buffer longer than m·w is refused"),
    ("buffer-as-workspace", "the answer buffer must hold 2·m·w bytes"),
    ("choose-buffer-for-survivor", "choose hands back the buffer for a survivor"),
    ("choose-stripe-for-lost", "choose hands back the stripe for a lost column"),
    ("choose-whole-buffer", "choose hands back the whole buffer"),
    ("choose-fills", "choose hands back what fill would have put there"),
    ("choose-carries-number", "choose and column answer with the refusal number"),
    ("column-any-stripe-length", "column does not test the length of the stripe"),
    ("column-without-parity", "a column is handed out without its parity"),
    ("price-encode-counts-symbols", "encode is priced n(2m-2)"),
    ("price-two-as-encode", "two columns are priced as encode"),
    ("price-read-one-more", "the symbols read are 2m(m-1)"),
    ("price-ignores-w", "prices do not test w"),
    ("stock-number-cut-to-8-bits", "stock number 256 is number 0"),
    ("stock-from-1", "stock numbers start at 1"),
    ("calls-count-3-read", "a count of three losses is read as none"),
    ("calls-limit-65536", "buffer 1 may hold only 65,536 bytes"),
    ("calls-buffer-2-no-limit", "buffer 2 may be of any length"),
    ("calls-bad-is-silent", "a bad call file ends without its line"),
    ("job-limit-4099", "a record of 4,100 bytes is refused"),
    ("job-limit-none", "a record of any length is read"),
    ("job-clients-before-12", "an over-long client record is skipped"),
    ("job-clients-from-32769", "kind 32,768 is unknown"),
    ("job-clients-from-32767", "kind 32,767 is skipped"),
    ("job-skipped-not-counted", "skipped records have no number"),
    ("job-12-is-silent", "12 stops the program without a line"),
    ("job-12-tells-kind", "12 is printed with the kind of the record"),
    ("job-cut-client-is-skipped", "a client record that the input ends inside is skipped"),
    ("job-goes-on-after-12", "the program goes on after a length under 2"),
    ("job-stray-byte-is-clean-end", "one byte at the end is ignored"),
    ("job-14-before-11", "an unknown kind before any shape is 14"),
    ("job-13-before-14", "a wrong payload before any shape is 13"),
    ("job-wrong-shape-first-14", "a shape of a wrong length before any shape is 14"),
    ("job-empty-symbol-13", "a write without a symbol is 13"),
    ("job-symbol-length-is-13", "a symbol of another length than w is 13"),
    ("job-payload-of-check-ignored", "check and locate take any payload"),
    ("job-count-3-good", "a rebuild count of 3 is accepted"),
    ("job-rebuild-extra-ignored", "columns beyond the count are ignored"),
    ("job-w-big-endian", "w is read with its upper byte first"),
    ("job-refused-shape-clears", "a refused shape zeroes the stripe"),
    ("job-refused-shape-forgets", "a refused shape takes the old one away"),
    ("job-equal-shape-keeps-stripe", "the same shape again leaves the stripe"),
    ("job-x-cut-to-16-bits", "65,536 is printed as 0"),
    ("job-rebuild-x-when-refused", "x is printed although survivors disagree"),
];

/// The names of all mistakes.
pub fn names() -> Vec<&'static str> {
    let orders = SWAPPED_ORDERS.iter().map(|order| order.0);
    orders.chain(OTHERS.iter().map(|other| other.0)).collect()
}

/// Whether the named mistake is to be made.
#[cfg(feature = "mistakes")]
pub fn wrong(name: &str) -> bool {
    static CHOSEN: std::sync::OnceLock<String> = std::sync::OnceLock::new();
    let chosen = CHOSEN.get_or_init(|| std::env::var("MISTAKE").unwrap_or_default());
    chosen == name
}

/// Whether the named mistake is to be made: never in the program that gives the answers.
#[cfg(not(feature = "mistakes"))]
pub fn wrong(_name: &str) -> bool {
    false
}

/// The right value, unless one of the mistakes beside it is to be made.
pub fn right<T: Copy>(value: T, mistaken: &[(&str, T)]) -> T {
    let made = mistaken.iter().find(|(name, _)| wrong(name));
    made.map_or(value, |mistake| mistake.1)
}
