//! The outstanding nonces of an endpoint in the order of latest issue, which the crate's set does not keep; and the
//! one step that the crate does not make: a nonce that is issued with 256 others outstanding forgets the oldest (E-70).

use super::config::Cfg;
use super::refusals::NONCES_MAX;
use crate::network::protocol::UdpProtocol;

#[derive(Default)]
pub(crate) struct Nonces {
    order: Vec<u32>,
    forgotten: Vec<u32>,
}

impl Nonces {
    /// Follows a call of the crate that has issued this nonce, or none.
    pub fn follow(&mut self, protocol: &mut UdpProtocol<Cfg>, issued: Option<u32>) {
        if let Some(nonce) = issued {
            self.forgotten.retain(|n| *n != nonce);
            self.order.retain(|n| *n != nonce);
            self.order.push(nonce);
        }
        self.order.retain(|n| protocol.outstanding_nonces().contains(n));
        if issued.is_some() && self.order.len() > NONCES_MAX {
            self.forget(protocol, 0);
        }
    }

    fn forget(&mut self, protocol: &mut UdpProtocol<Cfg>, at: usize) {
        let nonce = self.order.remove(at);
        protocol.forget_nonce(nonce);
        self.forgotten.push(nonce);
    }

    /// The oldest first; one issued again counts from its latest issue.
    pub fn order(&self) -> &[u32] {
        &self.order
    }

    /// Those that were forgotten and not issued again since.
    pub fn forgotten(&self) -> &[u32] {
        &self.forgotten
    }
}
