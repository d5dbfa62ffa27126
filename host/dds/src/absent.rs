//! In place of `cyclone.rs` where Cyclone DDS wasn't there when this was built: there is none to be had.

use crate::entities::{Entities, Refused, Settings};
use std::convert::Infallible;
use std::ffi::CStr;
use xrce_agent::Handle;

/// Cyclone DDS, which wasn't there when this was built.
#[derive(Clone, Debug)]
pub struct Cyclone(Infallible);

impl Cyclone {
    /// Cyclone DDS for these settings; an error where it wasn't there when this was built.
    pub fn new(_settings: Settings) -> Result<Cyclone, String> {
        Err("it was built without DDS, as Cyclone DDS wasn't installed: host/install-dds installs it, then build again"
            .into())
    }
}

impl Entities for Cyclone {
    fn participant(&mut self, _: u32) -> Result<Handle, Refused> {
        match self.0 {}
    }

    fn topic(&mut self, _: Handle, _: &CStr, _: &CStr) -> Result<Handle, Refused> {
        match self.0 {}
    }

    fn writer(&mut self, _: Handle, _: Handle) -> Result<Handle, Refused> {
        match self.0 {}
    }

    fn reader(&mut self, _: Handle, _: Handle) -> Result<Handle, Refused> {
        match self.0 {}
    }

    fn write(&mut self, _: Handle, _: &[u8]) -> Result<(), Refused> {
        match self.0 {}
    }

    fn take(&mut self, _: Handle) -> Result<Option<Vec<u8>>, Refused> {
        match self.0 {}
    }

    fn delete(&mut self, _: Handle) -> Result<(), Refused> {
        match self.0 {}
    }

    fn alive(&self) -> u32 {
        match self.0 {}
    }
}
