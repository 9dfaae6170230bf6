//! What a refusal means, and what to do about it.
use zolvortug::Report;

/// A refusal in words, with the hint of the verb that met it or, without one, of its report.
pub fn sentence(report: Report, hint: Option<&str>) -> String {
    format!(
        "refused: {} {report:?}: {}",
        report.number(),
        hint.unwrap_or(what_to_do(report))
    )
}

/// What a report means to every verb, and what to do.
pub fn what_to_do(report: Report) -> &'static str {
    match report {
        Report::BadImage => {
            "the trailer is not that of an image of this length. `zolvortug check FILE` says what is wrong."
        }
        Report::BadUser => "there is no such client. Clients are 0 to 63, and 0 is the manager.",
        Report::BadTime => {
            "a time is out of range. The store takes ticks 1 to 2^40 - 1, which is up to 2054-11-03T19:53:47.775Z: \
             look at --now and --expires, or at the image's clock, which `zolvortug check FILE` shows."
        }
        Report::ClockNotLater => {
            "now is not after the image's clock, the time of its last change. Leave --now out, or give a later one; \
             `zolvortug check FILE` shows the clock."
        }
        Report::NotManager => "this is the manager's to do. Leave --client out, or give 0.",
        Report::BadKey => "the key is not below the number of blocks. Begin the walk again from the start.",
        Report::BadCount => "a call names 1 to 64 ids. Give --count in that range.",
        Report::BadRoom => {
            "a block is 528 bytes: 16 of the tag, then 512 of data. With --tag give 512 bytes; --pad fills up with \
             zeros."
        }
        Report::Damaged => {
            "a header or a count that the call looked at is damaged; the call changed nothing. `zolvortug check FILE` \
             says which, and which blocks can still be read."
        }
        Report::NoSuchBlock => {
            "no stored block has this id. It may have been destroyed, replaced or scavenged; `zolvortug ids FILE \
             --client C` lists what stands."
        }
        Report::NotOwner => "the block is another client's; `zolvortug status FILE ID` says whose.",
        Report::NoSpace => {
            "every block is in use. `zolvortug scavenge FILE` removes what has expired; destroy what is no longer \
             needed."
        }
        Report::NoSeries => {
            "no block of the client belongs to this series. Look at --client and --series: a block belongs to the \
             series whose number its tag begins with."
        }
        Report::BadTag => {
            "a block of the series has a tag or a sample that breaks its rules. Replace that block by a right one, or \
             destroy it; `zolvortug help series` has the rules."
        }
        Report::SequenceTwice => {
            "two blocks of the series have one sequence. Destroy the one that is not wanted, or replace it."
        }
    }
}
