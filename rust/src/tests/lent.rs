//! A buffer lent to a call, with bytes around it that no call may touch.

/// An odd number, so that buffers start at odd addresses too.
const GUARD: usize = 71;

pub struct Lent {
    all: Vec<u8>,
}

impl Lent {
    pub fn new(bytes: &[u8]) -> Lent {
        Lent { all: [&[0xA5; GUARD], bytes, &[0xA5; GUARD]].concat() }
    }

    pub fn bytes(&self) -> &[u8] {
        &self.all[GUARD..self.all.len() - GUARD]
    }

    pub fn bytes_mut(&mut self) -> &mut [u8] {
        let end = self.all.len() - GUARD;
        &mut self.all[GUARD..end]
    }

    /// Whether the bytes around the buffer are still as they were.
    pub fn is_guarded(&self) -> bool {
        let end = self.all.len() - GUARD;
        self.all[..GUARD].iter().chain(&self.all[end..]).all(|&byte| byte == 0xA5)
    }

    /// Where in the buffer a part starts that was handed back, if it is in it.
    pub fn start_of(&self, part: &[u8]) -> Option<usize> {
        let start = (part.as_ptr() as usize).checked_sub(self.bytes().as_ptr() as usize)?;
        (start + part.len() <= self.bytes().len()).then_some(start)
    }
}
