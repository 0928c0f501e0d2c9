//! Images written and read by the proved code and by the reference, and compared.

use lokhazim_reference::{
    image_length, image_length_form_1, read_image, write_form_1, write_image, Accounts,
};

use crate::judge::compare::{file_stem, save, Failure};
use crate::judge::forms::Form;
use crate::run::boundary::images as proved;
use crate::run::calls::Pair;
use crate::run::lent::Lent;
use crate::run::words::{accounts_of, is_plain, Words};
use crate::seed::Seed;
use crate::state::{Call, State};

/// What an image function leaves and answers, as one side has it.
#[derive(PartialEq, Eq)]
struct Done {
    refusal: u32,
    length: usize,
    accounts: Accounts,
    image: Vec<u8>,
    heap: Vec<u8>,
}

impl Pair {
    /// Writes an image of the state into lent bytes on both sides, compares, and gives the
    /// refusal and the bytes that then lie there.
    pub fn write_image(
        &mut self,
        form: Form,
        state: &State,
        lent: &[u8],
    ) -> Result<(u32, Vec<u8>), Failure> {
        let mut written = lent.to_vec();
        let answer = match form.number {
            1 => write_form_1(&mut written, &state.heap, &state.accounts),
            _ => write_image(&mut written, &state.heap, &state.accounts),
        };
        let expected = Done {
            refusal: answer.map_or_else(|r| u32::from(r.number()), |_| 0),
            length: answer.unwrap_or(0),
            accounts: state.accounts.clone(),
            image: written,
            heap: state.heap.clone(),
        };
        let (found, guards) = self.written(form, state, lent);
        self.judge("write", (lent, &state.heap), &found, &expected, guards)?;
        self.tally.count_image(form.written, found.refusal);
        Ok((found.refusal, found.image))
    }

    /// Reads an image into a lent heap on both sides, compares, and gives the refusal and the
    /// state that is left.
    pub fn read_image(&mut self, image: &[u8], lent: &[u8]) -> Result<(u32, State), Failure> {
        let mut restored = lent.to_vec();
        let answer = read_image(image, &mut restored);
        let expected = Done {
            refusal: answer
                .as_ref()
                .map_or_else(|r| u32::from(r.number()), |_| 0),
            length: 0,
            accounts: answer.unwrap_or_default(),
            image: image.to_vec(),
            heap: restored,
        };
        let (found, guards) = self.resumed(image, lent);
        self.judge("resume", (image, lent), &found, &expected, guards)?;
        let (restored, guards) = self.restored(image, lent);
        self.judge("restore", (image, lent), &restored, &expected, guards)?;
        self.tally.count_image("read", found.refusal);
        let (heap, accounts) = (found.heap, found.accounts);
        Ok((found.refusal, State { heap, accounts }))
    }

    /// Writes an image of accounts with any padding; says what is left, and whether no other byte or
    /// word has changed.
    fn written(&self, form: Form, state: &State, lent: &[u8]) -> (Done, bool) {
        let (mut image, mut heap) = (self.lend(lent), self.lend(&state.heap));
        let mut words = self.lend_words(state);
        let before = *words.part();
        let (refusal, length) = proved::write(form, image.part(), heap.part(), words.part());
        let found = Done {
            refusal,
            length,
            accounts: accounts_of(words.part()),
            image: image.part().to_vec(),
            heap: heap.part().to_vec(),
        };
        let same = *words.part() == before && words.guards_hold();
        (found, same && image.guards_hold() && heap.guards_hold())
    }

    /// Resumes into words that hold anything, as above; their padding is to be zero then.
    fn resumed(&self, image: &[u8], lent: &[u8]) -> (Done, bool) {
        let (mut lent_image, mut heap) = (self.lend(image), self.lend(lent));
        let mut words = self.lend_any_words(image, lent);
        let refusal = proved::resume(lent_image.part(), heap.part(), words.part());
        let found = Done {
            refusal,
            length: 0,
            accounts: accounts_of(words.part()),
            image: lent_image.part().to_vec(),
            heap: heap.part().to_vec(),
        };
        let guards = lent_image.guards_hold() && heap.guards_hold() && words.guards_hold();
        (found, guards && is_plain(words.part()))
    }

    /// Restores an image over words that hold anything, as above. Where it is refused, every word has to
    /// stay; the accounts are told as zero then, as of a read.
    fn restored(&self, image: &[u8], lent: &[u8]) -> (Done, bool) {
        let (mut lent_image, mut heap) = (self.lend(image), self.lend(lent));
        let mut words = self.lend_any_words(image, lent);
        let before = *words.part();
        let refusal = proved::restore(lent_image.part(), heap.part(), words.part());
        let (accounts, as_told) = match refusal {
            0 => (accounts_of(words.part()), is_plain(words.part())),
            _ => (Accounts::default(), *words.part() == before),
        };
        let found = Done {
            refusal,
            length: 0,
            accounts,
            image: lent_image.part().to_vec(),
            heap: heap.part().to_vec(),
        };
        let guards = lent_image.guards_hold() && heap.guards_hold() && words.guards_hold();
        (found, guards && as_told)
    }

    /// Lends words that hold anything, padding too.
    fn lend_any_words(&self, image: &[u8], lent: &[u8]) -> Words {
        let mut words = self.lend_words(&State {
            heap: Vec::new(),
            accounts: Accounts::default(),
        });
        let mut any = Seed::of_case(image.len() as u64, lent.len() as u64);
        words.part().fill_with(|| any.word());
        words
    }

    /// Lends the accounts of a state as words.
    fn lend_words(&self, state: &State) -> Words {
        match self.guarded {
            true => Words::guarded(state, Call::Check),
            false => Words::exact(state, Call::Check),
        }
    }

    /// Lends a copy of bytes to the proved code.
    pub fn lend(&self, bytes: &[u8]) -> Lent {
        match self.guarded {
            true => Lent::guarded(bytes),
            false => Lent::exact(bytes),
        }
    }

    /// Says what differs between the two sides, and saves the lent image and heap.
    fn judge(
        &self,
        what: &str,
        (image, heap): (&[u8], &[u8]),
        found: &Done,
        expected: &Done,
        guards_hold: bool,
    ) -> Result<(), Failure> {
        if found == expected && guards_hold {
            return Ok(());
        }
        let name = file_stem(&self.origin);
        let file = save(&format!("{what}-{name}.image"), image)?;
        save(&format!("{what}-{name}.heap"), heap)?;
        Err(Failure(format!(
            "{}: {what} image: refusal proved {}, reference {}; length {} and {}; equal accounts {}, image {}, heap {}; guards hold {guards_hold}. \
             The image is saved in {}, the heap beside it",
            self.origin,
            found.refusal,
            expected.refusal,
            found.length,
            expected.length,
            found.accounts == expected.accounts,
            found.image == expected.image,
            found.heap == expected.heap,
            file.display()
        )))
    }
}

/// Compares the functions that give an image's length: the proved one's, the reference's and the
/// harness's own.
pub fn lengths_agree(form: Form, heap_length: usize, allowed: bool) -> bool {
    if !allowed {
        return proved::image_length(form, heap_length) == 0;
    }
    let reference = match form.number {
        1 => image_length_form_1(heap_length),
        _ => image_length(heap_length),
    };
    reference == form.length(heap_length) && proved::image_length(form, heap_length) == reference
}
