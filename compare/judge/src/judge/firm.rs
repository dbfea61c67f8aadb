//! The checksums of an endpoint in firm mode, a rule that the crate does not have: the customer's sentence, read off
//! the list of all reports since setup. Our step keeps 32 frames from report to report; nothing here does, so that the two
//! are two readings of one sentence.

use super::config::Cfg;
use super::record::Setup;
use super::refusals::FIRM_MAX;
use crate::network::messages::{ChecksumReport, Message, MessageBody};
use crate::network::protocol::UdpProtocol;
use crate::Frame;

/// The reports since setup that were neither refused nor ignored, oldest first.
#[derive(Default)]
pub(crate) struct Firm(Vec<ChecksumReport>);

impl Firm {
    /// None where the setup chooses the crate's rule.
    pub fn of(setup: &Setup) -> Option<Self> {
        (setup.checksum_mode != 0).then(Self::default)
    }

    /// Counts a report, and sets the crate's checksums to what is held then.
    pub fn count(&mut self, protocol: &mut UdpProtocol<Cfg>, report: ChecksumReport) {
        self.0.push(report);
        protocol.set_checksums(self.held());
    }

    /// The frames reported since setup, oldest first.
    pub fn frames(&self) -> Vec<Frame> {
        self.0.iter().map(|report| report.frame).collect()
    }

    /// The 32 largest distinct frames, or all of them while they are fewer, each with its latest checksum.
    fn held(&self) -> Vec<(Frame, u128)> {
        let mut frames = self.frames();
        frames.sort_unstable();
        frames.dedup();
        let smaller = frames.len().saturating_sub(FIRM_MAX);
        frames[smaller..].iter().map(|frame| (*frame, self.latest(*frame))).collect()
    }

    fn latest(&self, frame: Frame) -> u128 {
        let last = self.0.iter().rev().find(|report| report.frame == frame);
        last.expect("the frame was reported").checksum
    }
}

/// The report in a message, and what the crate is handed in its place in firm mode: a KeepAlive of the same magic, which
/// is heard as the report would be, and stores nothing.
pub(crate) fn stand_in(message: &Message) -> Option<(ChecksumReport, Message)> {
    match message.body {
        MessageBody::ChecksumReport(report) => {
            Some((report, Message { header: message.header, body: MessageBody::KeepAlive }))
        }
        _ => None,
    }
}
