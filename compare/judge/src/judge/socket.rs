//! The socket that the crate sends to: it keeps the bytes, and receives nothing.

use std::cell::RefCell;
use std::rc::Rc;

use crate::{Message, NonBlockingSocket};

#[derive(Clone, Default)]
pub struct Catch(Rc<RefCell<Vec<u8>>>);

impl Catch {
    /// What was sent since the last take, back to back.
    pub fn take(&self) -> Vec<u8> {
        self.0.take()
    }

    pub fn boxed(&self) -> Box<dyn NonBlockingSocket<u32>> {
        Box::new(self.clone())
    }
}

impl NonBlockingSocket<u32> for Catch {
    fn send_to(&mut self, msg: &Message, _addr: &u32) {
        bincode::serialize_into(&mut *self.0.borrow_mut(), msg).expect("messages serialize");
    }

    fn receive_all_messages(&mut self) -> Vec<(u32, Message)> {
        Vec::new()
    }
}
