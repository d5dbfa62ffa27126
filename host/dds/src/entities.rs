//! What a session asks of DDS: each method is one DDS call. `cyclone.rs` has Cyclone's, the tests one of their own.

use std::ffi::CStr;
use std::time::Duration;
use xrce_agent::Handle;

/// Why a call wasn't done, in the words of DDS where that refused.
#[derive(Clone, Debug, PartialEq, Eq)]
pub struct Refused(pub String);

/// How writers and readers are made. Both are volatile: a sample reaches the readers that are there when it is written.
#[derive(Clone, Copy, Debug, PartialEq, Eq)]
pub struct Quality {
    /// Samples may get lost on the way.
    pub best_effort: bool,
    /// A reader, and a reliable writer for readers that are behind, keeps the last so many samples.
    pub history: u16,
}

/// What the bridge goes by.
#[derive(Clone, Copy, Debug, PartialEq, Eq)]
pub struct Settings {
    /// A client's domain and this one together are the DDS domain.
    pub domain_offset: u16,
    /// Of all writers and readers.
    pub quality: Quality,
    /// Who asks waits that long for one call, and no longer. It counts as failed then.
    pub wait: Duration,
    /// So many entities a session may have.
    pub most: usize,
    /// So many domains all sessions together may be in.
    pub domains: usize,
}

impl Settings {
    /// How long a deletion is waited for, to hear if DDS refuses it. It goes on though nobody waits, and counts as done then. DDS takes
    /// its time with a writer whose samples aren't acknowledged yet, so this wait is a short one.
    pub fn deleting(&self) -> Duration {
        self.wait.min(Duration::from_millis(10))
    }
}

/// A DDS. Sessions and their threads each have a clone, and no method is given a handle that the session didn't make.
#[allow(missing_docs)]
pub trait Entities: Clone + Send + 'static {
    fn participant(&mut self, domain: u32) -> Result<Handle, Refused>;
    fn topic(&mut self, participant: Handle, name: &CStr, type_name: &CStr) -> Result<Handle, Refused>;
    fn writer(&mut self, participant: Handle, topic: Handle) -> Result<Handle, Refused>;
    fn reader(&mut self, participant: Handle, topic: Handle) -> Result<Handle, Refused>;
    /// It waits no longer than [`Settings::wait`] for readers that are behind.
    fn write(&mut self, writer: Handle, data: &[u8]) -> Result<(), Refused>;
    /// One sample, if there is one now.
    fn take(&mut self, reader: Handle) -> Result<Option<Vec<u8>>, Refused>;
    /// DDS deletes a participant with everything in it, and any other entity alone.
    fn delete(&mut self, entity: Handle) -> Result<(), Refused>;
    /// How many there are in this process, whoever made them.
    fn alive(&self) -> u32;
}
