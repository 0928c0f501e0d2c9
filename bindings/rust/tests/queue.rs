//! Queues: handles come out in the order in which they went in, and the refusals are those of the C
//! header.

#[allow(dead_code)]
mod support;

use std::error::Error;

use support::{in_capitals, refusals_of_header, text_of};

use lokhazim::{
    grants, Aligned, Handle, Heap, Queue, QueueRefusal, QuotaId, Refusal, QUEUE_PLACES,
};

/// The grants of the two quotas that a queue stands between.
const GRANT: u32 = 1_000;

/// A heap with so many objects of 8 bytes, which quota 0 holds.
fn with_objects(memory: &mut [u8], count: usize) -> (Heap<'_>, Vec<Handle>) {
    let mut heap = Heap::open(memory, grants([GRANT, GRANT])).unwrap();
    let handles = (0..count)
        .map(|_| heap.allocate(QuotaId::new(0), 8).unwrap())
        .collect();
    (heap, handles)
}

#[test]
fn the_header_has_the_same_numbers() {
    let refusals = refusals_of_header();
    for refusal in QueueRefusal::OWN {
        let name = in_capitals(&format!("{refusal:?}"));
        let line = format!("QUEUE_{name} = {}", refusal.number());
        assert!(refusals.contains(&line), "the header lacks '{line}'");
    }
    let header = text_of("include/lokhazim_queue.h");
    assert!(header.contains(&format!("#define LOKHAZIM_QUEUE_PLACES {QUEUE_PLACES}\n")));
}

#[test]
fn every_number_has_its_refusal() {
    let heap = Refusal::ALL.map(QueueRefusal::Heap);
    for refusal in QueueRefusal::OWN.into_iter().chain(heap) {
        assert_eq!(QueueRefusal::from_number(refusal.number()), Some(refusal));
        let error: &dyn Error = &refusal;
        let text = error.to_string();
        assert!(text.starts_with(&format!("refusal {}: ", refusal.number())));
        assert!(text.contains("; "), "'{text}' does not say what to do");
    }
    for number in [0, 13, 50, 54] {
        assert_eq!(QueueRefusal::from_number(number), None);
    }
}

#[test]
fn sixteen_go_in_and_come_out_in_order() {
    let mut memory = Aligned([0; 512]);
    let (mut heap, handles) = with_objects(&mut memory.0, QUEUE_PLACES + 1);
    let mut queue = Queue::new(QuotaId::new(0), QuotaId::new(1));
    for &handle in &handles[..QUEUE_PLACES] {
        queue.send(&mut heap, handle).unwrap();
    }
    assert_eq!(queue.waiting(), &handles[..QUEUE_PLACES]);
    assert_eq!(heap.remaining(QuotaId::new(1)), Ok(GRANT - 16 * 16));
    let (full, last) = (queue.clone(), handles[QUEUE_PLACES]);
    assert_eq!(queue.send(&mut heap, last), Err(QueueRefusal::Full));
    assert_eq!(queue, full);
    assert_eq!(queue.receive(), Ok(handles[0]));
    queue.send(&mut heap, last).unwrap();
    for &handle in &handles[1..] {
        assert_eq!(queue.receive(), Ok(handle));
        assert_eq!(heap.lend(handle).map(<[u8]>::len), Ok(8));
    }
    assert_eq!(queue, Queue::new(QuotaId::new(0), QuotaId::new(1)));
    assert_eq!(queue.receive(), Err(QueueRefusal::Empty));
}

#[test]
fn a_refused_send_changes_nothing() {
    let mut memory = Aligned([0; 128]);
    let (mut heap, handles) = with_objects(&mut memory.0, 1);
    let mut from_another = Queue::new(QuotaId::new(2), QuotaId::new(1));
    let before = (heap.parts().0.to_vec(), heap.accounts().clone());
    let refused = from_another.send(&mut heap, handles[0]);
    assert_eq!(refused, Err(QueueRefusal::Heap(Refusal::NotHeld)));
    assert_eq!((heap.parts().0.to_vec(), heap.accounts().clone()), before);
    assert_eq!(from_another, Queue::new(QuotaId::new(2), QuotaId::new(1)));
    let to_none = Queue::new(QuotaId::new(0), QuotaId::new(32)).send(&mut heap, handles[0]);
    assert_eq!(to_none, Err(QueueRefusal::Heap(Refusal::QuotaNumber)));
}

#[test]
fn a_damaged_queue_is_told() {
    let mut memory = Aligned([0; 128]);
    let (mut heap, handles) = with_objects(&mut memory.0, 1);
    let mut queue = Queue::new(QuotaId::new(0), QuotaId::new(1));
    for count in [17, u32::MAX] {
        queue.count = count;
        assert!(queue.waiting().is_empty());
        assert_eq!(queue.receive(), Err(QueueRefusal::Damaged));
        assert_eq!(
            queue.send(&mut heap, handles[0]),
            Err(QueueRefusal::Damaged)
        );
        assert_eq!(queue.count, count);
    }
}

#[test]
fn a_quota_sends_to_itself() {
    let mut memory = Aligned([0; 128]);
    let (mut heap, handles) = with_objects(&mut memory.0, 1);
    let mut queue = Queue::new(QuotaId::new(0), QuotaId::new(0));
    let part = handles[0].narrowed(2..4).unwrap();
    queue.send(&mut heap, part).unwrap();
    assert_eq!(heap.accounts().holds[0].count, 1);
    assert_eq!(queue.receive(), Ok(part));
}
