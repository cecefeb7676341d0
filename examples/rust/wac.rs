//! `include/wac.h` as safe Rust.

use std::ffi::c_void;
use std::ptr::null_mut;

/// A script that goes on, on the thread that began it.
#[repr(C)]
pub struct Session {
    at: *mut c_void,
}

// What each function takes for a text, or for a buffer, is a pointer and a length, as of a slice.
unsafe extern "C" {
    fn wac_version(out: *mut u8, room: usize) -> isize;
    fn wac_answer_script(script: *const u8, length: usize, out: *mut u8, room: usize) -> isize;
    fn wac_compat(old: *const u8, old_length: usize, new: *const u8, new_length: usize, out: *mut u8, room: usize) -> isize;
    fn wac_targets(
        world: *const u8,
        world_length: usize,
        wit: *const u8,
        wit_length: usize,
        target: *const u8,
        target_length: usize,
        target_wit: *const u8,
        target_wit_length: usize,
        out: *mut u8,
        room: usize,
    ) -> isize;
    fn wac_session_new(session: *mut Session) -> isize;
    fn wac_session_feed(session: *mut Session, script: *const u8, length: usize) -> isize;
    fn wac_session_ask(session: *mut Session, script: *const u8, length: usize, out: *mut u8, room: usize) -> isize;
    fn wac_session_free(session: *mut Session);
    fn wac_merge(worlds: *const u8, worlds_length: usize, wit: *const u8, wit_length: usize, out: *mut u8, room: usize) -> isize;
}

/// An allocation failed in the library.
#[derive(Clone, Copy, Debug, PartialEq, Eq)]
pub struct OutOfMemory;

// Asks with a buffer, and once more where the answer is longer.
fn answer(mut ask: impl FnMut(*mut u8, usize) -> isize) -> Result<String, OutOfMemory> {
    let mut out = vec![0; 1 << 12];
    loop {
        // texts of Rust are UTF-8, so that memory is all that may lack
        let length = usize::try_from(ask(out.as_mut_ptr(), out.len())).map_err(|_| OutOfMemory)?;
        if length <= out.len() {
            out.truncate(length);
            return Ok(String::from_utf8(out).expect("answers are UTF-8"));
        }
        out.resize(length, 0);
    }
}

/// The version of the library.
pub fn version() -> String {
    answer(|out, room| unsafe { wac_version(out, room) }).expect("no memory is taken")
}

/// The answers of a script.
pub fn answer_script(script: &str) -> Result<String, OutOfMemory> {
    answer(|out, room| unsafe { wac_answer_script(script.as_ptr(), script.len(), out, room) })
}

/// Whether new packages serve whoever was built against old ones, as JSON.
pub fn compat(old: &str, new: &str) -> Result<String, OutOfMemory> {
    answer(|out, room| unsafe { wac_compat(old.as_ptr(), old.len(), new.as_ptr(), new.len(), out, room) })
}

/// Whether a component of a world runs where another world is the target, as JSON. Each is given by
/// its name and its text.
pub fn targets(component: (&str, &str), target: (&str, &str)) -> Result<String, OutOfMemory> {
    answer(|out, room| unsafe {
        let ((world, wit), (target, target_wit)) = (component, target);
        wac_targets(
            world.as_ptr(),
            world.len(),
            wit.as_ptr(),
            wit.len(),
            target.as_ptr(),
            target.len(),
            target_wit.as_ptr(),
            target_wit.len(),
            out,
            room,
        )
    })
}

/// The imports of components of worlds of a text, as one list, as JSON.
pub fn merge(worlds: &[&str], wit: &str) -> Result<String, OutOfMemory> {
    let worlds = worlds.join(" ");
    answer(|out, room| unsafe { wac_merge(worlds.as_ptr(), worlds.len(), wit.as_ptr(), wit.len(), out, room) })
}

impl Session {
    /// A script in which nothing stands yet.
    pub fn new() -> Result<Session, OutOfMemory> {
        let mut session = Session { at: null_mut() };
        match unsafe { wac_session_new(&mut session) } {
            0 => Ok(session),
            _ => Err(OutOfMemory),
        }
    }

    /// Carries out lines, after all that were carried out before, and gives what they answer.
    pub fn ask(&mut self, script: &str) -> Result<String, OutOfMemory> {
        let length = unsafe { wac_session_feed(self, script.as_ptr(), script.len()) };
        if length < 0 {
            return Err(OutOfMemory);
        }
        // the answer is kept until lines are carried out again
        answer(|out, room| unsafe { wac_session_ask(self, "".as_ptr(), 0, out, room) })
    }
}

impl Drop for Session {
    fn drop(&mut self) {
        unsafe { wac_session_free(self) }
    }
}
