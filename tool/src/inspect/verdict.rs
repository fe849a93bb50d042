//! The library's verdict on recorded answers, as request A14 says.

use crate::reference;

/// Who judges, for reports.
pub const BY: &str = "osek_verdict, which is proved (request A14)";

#[derive(Clone, Copy, PartialEq, Eq, Debug)]
pub enum Verdict {
    Pass,
    /// The first event whose answer differs or is missing.
    Event(usize),
}

/// Of the answers recorded for an accepted configuration and trace; there are no more of them than events.
pub fn verdict(config: &[u8], trace: &[u8], recorded: &[u8]) -> Verdict {
    match reference::verdict(config, trace, recorded) {
        reference::Verdict::Pass => Verdict::Pass,
        reference::Verdict::Fails(event) => Verdict::Event(event),
        reference::Verdict::Refused(refused) => unreachable!("the case is accepted: {}", refused.line()),
    }
}
