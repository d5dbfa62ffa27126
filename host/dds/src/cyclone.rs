//! Cyclone DDS by the functions of `shim.c`. All unsafe code of this crate is here.

use crate::entities::{Entities, Refused, Settings};
use std::ffi::{c_char, c_void, CStr};
use std::ptr::{null, null_mut};
use xrce_agent::Handle;

/// What a DATA reply carries at most (document 01, refusal 12); longer samples are lost.
const MOST_BYTES: u32 = 65_533;

/// `struct xrce_dds_quality`.
#[repr(C)]
struct Quality {
    best_effort: i32,
    history: i32,
    blocking_ms: i64,
}

unsafe extern "C" {
    safe fn xrce_dds_participant(domain: u32) -> i32;
    fn xrce_dds_topic(participant: i32, name: *const c_char, type_name: *const c_char) -> i32;
    fn xrce_dds_writer(participant: i32, topic: i32, quality: *const Quality) -> i32;
    fn xrce_dds_reader(participant: i32, topic: i32, quality: *const Quality) -> i32;
    fn xrce_dds_write(writer: i32, data: *const u8, length: u32) -> i32;
    fn xrce_dds_take(reader: i32, loan: *mut *mut c_void, data: *mut *const u8, length: *mut u32) -> i32;
    fn xrce_dds_give_back(reader: i32, loan: *mut c_void);
    safe fn xrce_dds_delete(entity: i32) -> i32;
    safe fn xrce_dds_reason(code: i32) -> *const c_char;
    safe fn xrce_dds_alive() -> i32;
}

/// Cyclone DDS.
#[derive(Clone, Debug)]
pub struct Cyclone {
    settings: Settings,
}

impl Cyclone {
    /// Cyclone DDS for these settings; an error where it wasn't there when this was built.
    pub fn new(settings: Settings) -> Result<Cyclone, String> {
        Ok(Cyclone { settings })
    }

    fn quality(&self) -> Quality {
        let given = self.settings.quality;
        Quality {
            best_effort: given.best_effort.into(),
            history: given.history.into(),
            blocking_ms: self.settings.wait.as_millis() as i64,
        }
    }
}

// Handles and lengths are positive numbers of 31 bits, refusals negative ones.
fn refused(code: i32) -> Refused {
    // SAFETY: Cyclone's words for a code, which it never frees, ended by a byte 0.
    let why = unsafe { CStr::from_ptr(xrce_dds_reason(code)) };
    Refused(why.to_string_lossy().into_owned())
}

fn done(code: i32) -> Result<(), Refused> {
    if code < 0 {
        return Err(refused(code));
    }
    Ok(())
}

fn made(code: i32) -> Result<Handle, Refused> {
    done(code).map(|()| Handle(code as u32))
}

// A handle of the books is one that `made` gave.
fn entity(handle: Handle) -> i32 {
    handle.0 as i32
}

impl Entities for Cyclone {
    fn participant(&mut self, domain: u32) -> Result<Handle, Refused> {
        made(xrce_dds_participant(domain))
    }

    fn topic(&mut self, participant: Handle, name: &CStr, type_name: &CStr) -> Result<Handle, Refused> {
        // SAFETY: both names end with a byte 0 and are only read during the call.
        made(unsafe { xrce_dds_topic(entity(participant), name.as_ptr(), type_name.as_ptr()) })
    }

    fn writer(&mut self, participant: Handle, topic: Handle) -> Result<Handle, Refused> {
        // SAFETY: the record is only read during the call.
        made(unsafe { xrce_dds_writer(entity(participant), entity(topic), &self.quality()) })
    }

    fn reader(&mut self, participant: Handle, topic: Handle) -> Result<Handle, Refused> {
        // SAFETY: as above.
        made(unsafe { xrce_dds_reader(entity(participant), entity(topic), &self.quality()) })
    }

    fn write(&mut self, writer: Handle, data: &[u8]) -> Result<(), Refused> {
        let length = u32::try_from(data.len()).map_err(|_| Refused("the data is too long".into()))?;
        // SAFETY: the bytes are only read during the call; DDS keeps a copy.
        done(unsafe { xrce_dds_write(entity(writer), data.as_ptr(), length) })
    }

    fn take(&mut self, reader: Handle) -> Result<Option<Vec<u8>>, Refused> {
        let (mut loan, mut data, mut length) = (null_mut(), null(), 0);
        // SAFETY: the three places are written during the call, if it gives 1.
        let taken = unsafe { xrce_dds_take(entity(reader), &mut loan, &mut data, &mut length) };
        done(taken)?;
        if taken == 0 {
            return Ok(None);
        }
        let fits = length <= MOST_BYTES;
        let bytes = if fits && length != 0 {
            // SAFETY: the loan has so many bytes there, until it is given back.
            unsafe { std::slice::from_raw_parts(data, length as usize) }.to_vec()
        } else {
            Vec::new()
        };
        // SAFETY: the loan is the one that the reader gave, and isn't looked at again.
        unsafe { xrce_dds_give_back(entity(reader), loan) };
        fits.then_some(Some(bytes)).ok_or_else(|| Refused(format!("a sample of {length} bytes is too long")))
    }

    fn delete(&mut self, handle: Handle) -> Result<(), Refused> {
        done(xrce_dds_delete(entity(handle)))
    }

    fn alive(&self) -> u32 {
        xrce_dds_alive().unsigned_abs()
    }
}
