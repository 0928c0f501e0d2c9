//! The exported functions of the audit report, with the layout of the crate `exports`.

use lokhazim_reference::QUOTAS;

use super::CGrants;

/// What importing gives back.
#[repr(C)]
struct ImportReply {
    grants: CGrants,
    refusal: u32,
    line: u32,
}

/// What exporting gives back.
#[repr(C)]
struct ExportReply {
    refusal: u32,
    length: usize,
}

extern "C" {
    fn lokhazim_raw_report_import(text: *const u8, length: usize) -> ImportReply;
    fn lokhazim_raw_report_export(text: *mut u8, length: usize, grants: CGrants) -> ExportReply;
}

/// What the proved code gives for a text: the grants, the refusal and the bad line.
#[derive(Clone, Copy, Debug, PartialEq, Eq)]
pub struct Imported {
    /// The grants, zeros where the text is refused.
    pub grants: [u32; QUOTAS],
    /// The refusal's number, 0 where there is none.
    pub refusal: u32,
    /// The number of the first bad line, 0 where there is none.
    pub line: u32,
}

/// Imports a text by the proved code.
///
/// The text gets a pointer made from a mutable borrow, so that comparing it afterwards would see a
/// write.
pub fn import(text: &mut [u8]) -> Imported {
    // Safety: pointer and length are those of one borrowed slice, and the function accepts any
    // bytes.
    let reply = unsafe { lokhazim_raw_report_import(text.as_mut_ptr(), text.len()) };
    Imported {
        grants: reply.grants.values,
        refusal: reply.refusal,
        line: reply.line,
    }
}

/// Exports grants by the proved code and gives the refusal and the length.
pub fn export(text: &mut [u8], grants: [u32; QUOTAS]) -> (u32, usize) {
    let grants = CGrants { values: grants };
    // Safety: as above.
    let reply = unsafe { lokhazim_raw_report_export(text.as_mut_ptr(), text.len(), grants) };
    (reply.refusal, reply.length)
}
