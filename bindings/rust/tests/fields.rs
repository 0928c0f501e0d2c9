//! Every field of every struct is set to a distinct number in C and read in Rust, and the other way
//! round. `c/fields.c` visits the same structs and fields in the same order.

#[allow(dead_code)]
mod support;

#[allow(dead_code)]
#[path = "../src/layout.rs"]
mod layout;

use std::mem::MaybeUninit;
use std::slice;

use layout::{
    Accounts, AddReply, AmountReply, BlockReply, CompareReply, EntryReply, ExamineReply,
    ExportReply, FindReply, Grants, Handle, HandleReply, Hold, ImageReply, ImportReply, NextReply,
    Queue, Quota, RangeReply,
};
use support::{compile, run};

/// Visits fields in order: sets each to the next number if `setting`, and notes what each holds.
#[derive(Default)]
struct Visitor {
    setting: bool,
    wide: u32,
    narrow: u8,
    noted: Vec<u64>,
}

impl Visitor {
    fn visit32(&mut self, field: &mut u32) {
        self.wide += 1;
        if self.setting {
            *field = self.wide.wrapping_mul(0x9E37_79B1);
        }
        self.noted.push(u64::from(*field));
    }

    fn visit16(&mut self, field: &mut u16) {
        self.wide += 1;
        if self.setting {
            *field = self.wide.wrapping_mul(0x9E37) as u16;
        }
        self.noted.push(u64::from(*field));
    }

    fn visit_size(&mut self, field: &mut usize) {
        self.wide += 1;
        if self.setting {
            *field = (self.wide as usize).wrapping_mul(0x9E37_79B9_7F4A_7C15);
        }
        self.noted.push(*field as u64);
    }

    fn visit8(&mut self, field: &mut u8) {
        if self.setting {
            *field = self.narrow;
            self.narrow = self.narrow.wrapping_add(1);
        }
        self.noted.push(u64::from(*field));
    }
}

/// A struct of the boundary, whose fields can be visited in the order of their declaration.
trait Fields {
    fn visit(&mut self, visitor: &mut Visitor);
}

impl Fields for Quota {
    fn visit(&mut self, visitor: &mut Visitor) {
        visitor.visit32(&mut self.grant);
        visitor.visit32(&mut self.remainder);
        visitor.visit8(&mut self.permissions);
    }
}

impl Fields for Hold {
    fn visit(&mut self, visitor: &mut Visitor) {
        visitor.visit32(&mut self.serial);
        visitor.visit8(&mut self.quota);
        visitor.visit8(&mut self.count);
    }
}

impl Fields for Accounts {
    fn visit(&mut self, visitor: &mut Visitor) {
        self.quotas
            .iter_mut()
            .for_each(|quota| quota.visit(visitor));
        visitor.visit32(&mut self.last_serial);
        self.holds.iter_mut().for_each(|hold| hold.visit(visitor));
        visitor.visit8(&mut self.kind);
        visitor.visit8(&mut self.edition);
    }
}

impl Fields for Handle {
    fn visit(&mut self, visitor: &mut Visitor) {
        visitor.visit32(&mut self.base);
        visitor.visit32(&mut self.length);
        visitor.visit32(&mut self.serial);
    }
}

impl Fields for Grants {
    fn visit(&mut self, visitor: &mut Visitor) {
        self.values
            .iter_mut()
            .for_each(|value| visitor.visit32(value));
    }
}

impl Fields for AmountReply {
    fn visit(&mut self, visitor: &mut Visitor) {
        visitor.visit32(&mut self.refusal);
        visitor.visit32(&mut self.amount);
    }
}

impl Fields for HandleReply {
    fn visit(&mut self, visitor: &mut Visitor) {
        visitor.visit32(&mut self.refusal);
        self.handle.visit(visitor);
    }
}

impl Fields for RangeReply {
    fn visit(&mut self, visitor: &mut Visitor) {
        visitor.visit32(&mut self.refusal);
        visitor.visit_size(&mut self.start);
        visitor.visit_size(&mut self.end);
    }
}

impl Fields for BlockReply {
    fn visit(&mut self, visitor: &mut Visitor) {
        visitor.visit32(&mut self.refusal);
        visitor.visit32(&mut self.found);
        visitor.visit_size(&mut self.offset);
        visitor.visit_size(&mut self.size);
        visitor.visit32(&mut self.serial);
    }
}

impl Fields for ImageReply {
    fn visit(&mut self, visitor: &mut Visitor) {
        visitor.visit32(&mut self.refusal);
        visitor.visit_size(&mut self.length);
    }
}

impl Fields for ExamineReply {
    fn visit(&mut self, visitor: &mut Visitor) {
        visitor.visit32(&mut self.refusal);
        visitor.visit32(&mut self.form);
        visitor.visit_size(&mut self.heap_length);
    }
}

impl Fields for CompareReply {
    fn visit(&mut self, visitor: &mut Visitor) {
        visitor.visit32(&mut self.refusal);
        visitor.visit32(&mut self.which);
        visitor.visit32(&mut self.kind);
        visitor.visit_size(&mut self.place);
        visitor.visit_size(&mut self.length);
    }
}

impl Fields for NextReply {
    fn visit(&mut self, visitor: &mut Visitor) {
        visitor.visit32(&mut self.refusal);
        visitor.visit32(&mut self.which);
        visitor.visit32(&mut self.kind);
        visitor.visit_size(&mut self.place);
        visitor.visit_size(&mut self.length);
        visitor.visit32(&mut self.part);
        visitor.visit_size(&mut self.at);
    }
}

impl Fields for ImportReply {
    fn visit(&mut self, visitor: &mut Visitor) {
        self.grants.visit(visitor);
        visitor.visit32(&mut self.refusal);
        visitor.visit32(&mut self.line);
    }
}

impl Fields for ExportReply {
    fn visit(&mut self, visitor: &mut Visitor) {
        visitor.visit32(&mut self.refusal);
        visitor.visit_size(&mut self.length);
    }
}

impl Fields for FindReply {
    fn visit(&mut self, visitor: &mut Visitor) {
        visitor.visit32(&mut self.refusal);
        visitor.visit32(&mut self.store);
        visitor.visit_size(&mut self.start);
        visitor.visit_size(&mut self.end);
    }
}

impl Fields for AddReply {
    fn visit(&mut self, visitor: &mut Visitor) {
        visitor.visit32(&mut self.refusal);
        visitor.visit_size(&mut self.used);
    }
}

impl Fields for EntryReply {
    fn visit(&mut self, visitor: &mut Visitor) {
        visitor.visit32(&mut self.refusal);
        visitor.visit32(&mut self.there);
        visitor.visit16(&mut self.version);
        visitor.visit8(&mut self.name);
        visitor.visit_size(&mut self.start);
        visitor.visit_size(&mut self.end);
    }
}

impl Fields for Queue {
    fn visit(&mut self, visitor: &mut Visitor) {
        visitor.visit32(&mut self.sender.0);
        visitor.visit32(&mut self.receiver.0);
        visitor.visit32(&mut self.count);
        self.handles
            .iter_mut()
            .for_each(|handle| handle.visit(visitor));
    }
}

/// Takes the bytes of a struct from the front, visits its fields where they lie, and puts the bytes
/// behind what is there.
fn exchange<T: Fields>(visitor: &mut Visitor, bytes: &mut Vec<u8>) {
    let size = size_of::<T>();
    let taken: Vec<u8> = bytes.drain(..size).collect();
    let mut place = MaybeUninit::<T>::zeroed();
    // SAFETY: the place has `size` bytes, all of them set, and any bytes are numbers.
    let lying = unsafe {
        slice::from_raw_parts_mut(place.as_mut_ptr().cast::<u8>(), size).copy_from_slice(&taken);
        place.assume_init_mut().visit(visitor);
        slice::from_raw_parts(place.as_ptr().cast::<u8>(), size)
    };
    bytes.extend_from_slice(lying);
}

/// Visits all structs, as `main` of `c/fields.c` does.
fn exchange_all(visitor: &mut Visitor, bytes: &mut Vec<u8>) {
    exchange::<Quota>(visitor, bytes);
    exchange::<Hold>(visitor, bytes);
    exchange::<Accounts>(visitor, bytes);
    exchange::<Handle>(visitor, bytes);
    exchange::<Grants>(visitor, bytes);
    exchange::<AmountReply>(visitor, bytes);
    exchange::<HandleReply>(visitor, bytes);
    exchange::<RangeReply>(visitor, bytes);
    exchange::<BlockReply>(visitor, bytes);
    exchange::<ImageReply>(visitor, bytes);
    exchange::<ExamineReply>(visitor, bytes);
    exchange::<CompareReply>(visitor, bytes);
    exchange::<NextReply>(visitor, bytes);
    exchange::<ImportReply>(visitor, bytes);
    exchange::<ExportReply>(visitor, bytes);
    exchange::<FindReply>(visitor, bytes);
    exchange::<AddReply>(visitor, bytes);
    exchange::<EntryReply>(visitor, bytes);
    exchange::<Queue>(visitor, bytes);
}

/// The bytes of all structs as Rust sets them, and the number that each field got.
fn set_in_rust(size: usize) -> (Vec<u8>, Vec<u64>) {
    let mut visitor = Visitor {
        setting: true,
        ..Visitor::default()
    };
    let mut bytes = vec![0; size];
    exchange_all(&mut visitor, &mut bytes);
    (bytes, visitor.noted)
}

#[test]
fn rust_reads_what_c_sets() {
    let program = compile("bindings/rust/tests/c/fields.c", "-O1");
    let mut bytes = run(&program, &["set"], b"");
    let (_, expected) = set_in_rust(bytes.len());
    let mut visitor = Visitor::default();
    exchange_all(&mut visitor, &mut bytes);
    assert_eq!(visitor.noted, expected);
}

#[test]
fn c_reads_what_rust_sets() {
    let program = compile("bindings/rust/tests/c/fields.c", "-O3");
    let size = run(&program, &["set"], b"").len();
    let (bytes, expected) = set_in_rust(size);
    let printed = String::from_utf8(run(&program, &["print"], &bytes)).expect("C prints digits");
    let numbers: Vec<u64> = printed
        .lines()
        .map(|line| line.parse().expect("a number"))
        .collect();
    assert_eq!(numbers, expected);
}
