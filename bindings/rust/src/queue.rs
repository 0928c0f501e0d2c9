//! Packet queues between two quotas of a heap.

use core::error::Error;
use core::fmt;

use crate::heap::Heap;
use crate::layout::{Handle, Queue, QuotaId};
use crate::raw;
use crate::refusal::Refusal;

/// Why a handle is not sent or not given; then nothing is changed.
///
/// ```
/// use lokhazim::{QueueRefusal, Refusal};
///
/// assert_eq!(
///     QueueRefusal::Full.to_string(),
///     "refusal 51: the queue is full; receive first"
/// );
/// let heap = QueueRefusal::Heap(Refusal::NotHeld);
/// assert_eq!(heap.to_string(), Refusal::NotHeld.to_string());
/// ```
#[derive(Clone, Copy, Debug, PartialEq, Eq, Hash)]
#[non_exhaustive]
pub enum QueueRefusal {
    /// 51: as many handles are on their way as the queue has room for.
    Full,
    /// 52: nothing is on its way.
    Empty,
    /// 53: the queue's count is above [`QUEUE_PLACES`](crate::QUEUE_PLACES).
    Damaged,
    /// What the heap gives: claim for the receiver, or release for the sender.
    Heap(Refusal),
}

impl QueueRefusal {
    /// Those that are the queue's own, in the order of their numbers.
    pub const OWN: [QueueRefusal; 3] = [
        QueueRefusal::Full,
        QueueRefusal::Empty,
        QueueRefusal::Damaged,
    ];

    /// The refusal's number, the same as in C.
    #[must_use]
    pub const fn number(self) -> u32 {
        match self {
            QueueRefusal::Full => 51,
            QueueRefusal::Empty => 52,
            QueueRefusal::Damaged => 53,
            QueueRefusal::Heap(refusal) => refusal.number(),
        }
    }

    /// The refusal that has this number, if one has.
    ///
    /// ```
    /// use lokhazim::{QueueRefusal, Refusal};
    ///
    /// assert_eq!(QueueRefusal::from_number(52), Some(QueueRefusal::Empty));
    /// assert_eq!(QueueRefusal::from_number(6), Some(QueueRefusal::Heap(Refusal::NotHeld)));
    /// assert_eq!(QueueRefusal::from_number(50), None);
    /// ```
    #[must_use]
    pub fn from_number(number: u32) -> Option<QueueRefusal> {
        let mut own = QueueRefusal::OWN.into_iter();
        own.find(|refusal| refusal.number() == number)
            .or_else(|| Refusal::from_number(number).map(QueueRefusal::Heap))
    }
}

impl fmt::Display for QueueRefusal {
    fn fmt(&self, f: &mut fmt::Formatter<'_>) -> fmt::Result {
        let advice = match self {
            QueueRefusal::Full => "the queue is full; receive first",
            QueueRefusal::Empty => "nothing is on its way; send first",
            QueueRefusal::Damaged => {
                "the queue's count is above 16; something else has written to it, so make a new queue"
            }
            QueueRefusal::Heap(refusal) => return refusal.fmt(f),
        };
        write!(f, "refusal {}: {advice}", self.number())
    }
}

impl Error for QueueRefusal {}

/// The verdict that a reply's refusal number stands for.
///
/// # Panics
///
/// Where the number is one that the library is proved not to give: then another library has been
/// linked in its place.
fn verdict(number: u32) -> Result<(), QueueRefusal> {
    if number == 0 {
        return Ok(());
    }
    Err(QueueRefusal::from_number(number).unwrap_or_else(|| {
        panic!("refusal {number} is unknown; link the liblokhazim.a of this crate's version")
    }))
}

impl Queue {
    /// A queue with nothing on its way between two quotas, which may be one. Whether there are such
    /// quotas is told by the first send.
    ///
    /// ```
    /// use lokhazim::{Queue, QuotaId};
    ///
    /// let queue = Queue::new(QuotaId::new(0), QuotaId::new(1));
    /// assert!(queue.waiting().is_empty());
    /// ```
    #[must_use]
    pub fn new(sender: QuotaId, receiver: QuotaId) -> Queue {
        raw::queue_new(sender.number(), receiver.number())
    }

    /// The handles on their way, the oldest first; none where the count is above the places.
    #[must_use]
    pub fn waiting(&self) -> &[Handle] {
        self.handles.get(..self.count as usize).unwrap_or(&[])
    }

    /// Sends a handle, whole or narrowed: the receiver claims its object and pays for it, and then
    /// the sender releases it. From now on the receiver holds the packet, also before it has
    /// received the handle, and releases it when it is done.
    ///
    /// # Errors
    ///
    /// [`QueueRefusal::Damaged`], [`QueueRefusal::Full`], then what [`Heap::claim`] would give for
    /// the receiver, then what [`Heap::can_release`] gives for the sender, both on the heap as it
    /// is. Heap and queue are as they were.
    ///
    /// ```
    /// use lokhazim::{grants, Aligned, Heap, Queue, QueueRefusal, QuotaId, Refusal};
    ///
    /// const RADIO: QuotaId = QuotaId::new(0);
    /// const LOGGER: QuotaId = QuotaId::new(1);
    ///
    /// let mut memory = Aligned([0; 256]);
    /// let mut heap = Heap::open(&mut memory.0, grants([100, 40])).unwrap();
    /// let mut queue = Queue::new(RADIO, LOGGER);
    ///
    /// let packet = heap.allocate(RADIO, 24).unwrap();
    /// queue.send(&mut heap, packet)?;
    /// assert_eq!(heap.remaining(RADIO), Ok(100));
    /// assert_eq!(heap.remaining(LOGGER), Ok(8));
    ///
    /// let second = heap.allocate(RADIO, 24).unwrap();
    /// let refused = queue.send(&mut heap, second);
    /// assert_eq!(refused, Err(QueueRefusal::Heap(Refusal::QuotaExceeded)));
    /// assert_eq!(queue.waiting(), [packet]);
    /// # Ok::<(), QueueRefusal>(())
    /// ```
    pub fn send(&mut self, heap: &mut Heap<'_>, handle: Handle) -> Result<(), QueueRefusal> {
        verdict(raw::queue_send(heap.bytes, &mut heap.words, self, handle))
    }

    /// Gives the oldest handle, as it was sent.
    ///
    /// Whether its object still lives is for the heap to say: if the receiver has released it and
    /// nobody else holds it, [`Heap::lend`] gives [`Refusal::NoSuchObject`].
    ///
    /// # Errors
    ///
    /// [`QueueRefusal::Damaged`], then [`QueueRefusal::Empty`]; the queue is as it was.
    ///
    /// ```
    /// use lokhazim::{grants, Aligned, Heap, Queue, QueueRefusal, QuotaId, Refusal};
    ///
    /// let mut memory = Aligned([0; 256]);
    /// let mut heap = Heap::open(&mut memory.0, grants([100, 100])).unwrap();
    /// let mut queue = Queue::new(QuotaId::new(0), QuotaId::new(1));
    /// let [first, second] = [8, 16].map(|length| heap.allocate(QuotaId::new(0), length).unwrap());
    /// queue.send(&mut heap, first)?;
    /// queue.send(&mut heap, second)?;
    ///
    /// heap.release(QuotaId::new(1), first).unwrap();
    /// assert_eq!(queue.receive()?, first);
    /// assert_eq!(heap.lend(first), Err(Refusal::NoSuchObject));
    /// assert_eq!(queue.receive()?, second);
    /// assert_eq!(heap.lend(second).unwrap().len(), 16);
    /// assert_eq!(queue.receive(), Err(QueueRefusal::Empty));
    /// # Ok::<(), QueueRefusal>(())
    /// ```
    pub fn receive(&mut self) -> Result<Handle, QueueRefusal> {
        let reply = raw::queue_receive(self);
        verdict(reply.refusal)?;
        Ok(reply.handle)
    }
}
