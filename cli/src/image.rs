//! Images: saved from a script, shown, compared and moved to the other form.

use std::fmt::Write;

use lokhazim::{
    compare_images, examine_image, image_length, image_length_form_1, move_image_down,
    move_image_up, Block, Heap, Hold, ImageRefusal, Permissions, Quota, Which, IMAGE_MAX,
};

use crate::failure::Failure;
use crate::files;
use crate::script::left_by;

/// A quota as an opening with a grant of 0 leaves it, which is not shown.
const UNGRANTED: Quota = Quota {
    grant: 0,
    remainder: 0,
    permissions: Permissions::ALL.bits(),
};

/// A refused image, by the file that it is about.
fn refused(name: &str) -> impl Fn(ImageRefusal) -> Failure + '_ {
    move |refusal| Failure::Refused(format!("{name}: {refusal}"))
}

/// A form of image.
#[derive(Clone, Copy)]
pub enum Form {
    /// Form 1, that of earlier versions.
    First,
    /// Form 2, which carries every state.
    Second,
}

/// An image of a heap.
fn image_of(heap: &Heap, form: Form) -> Result<Vec<u8>, ImageRefusal> {
    let length = heap.parts().0.len();
    let needed = match form {
        Form::First => image_length_form_1(length),
        Form::Second => image_length(length),
    };
    let mut image = vec![0; needed.unwrap_or(0)];
    match form {
        Form::First => heap.save_form_1(&mut image)?,
        Form::Second => heap.save(&mut image)?,
    };
    Ok(image)
}

/// Runs a script and writes an image of the heap that it leaves.
pub fn save(form: Form, script: &str, out: &str) -> Result<(), Failure> {
    let lines = files::read(script)?;
    let image = left_by(script, &lines, |heap| {
        image_of(heap, form).map_err(refused(script))
    })?;
    files::write(out, &image)?;
    files::print(format!("ok {}\n", image.len()).as_bytes())
}

/// What is shown for the serial of a block: a word for one in quarantine, which has none.
fn serial_word(block: &Block) -> String {
    match block.is_quarantined() {
        true => "quarantined".to_owned(),
        false => block.serial.to_string(),
    }
}

/// Prints what an image holds.
pub fn show(name: &str) -> Result<(), Failure> {
    let image = files::read(name)?;
    let facts = examine_image(&image).map_err(refused(name))?;
    let mut memory = vec![0; facts.heap_length];
    let heap = Heap::resume(&mut memory, &image).map_err(refused(name))?;
    let mut text = String::new();
    let accounts = heap.accounts();
    let _ = writeln!(
        text,
        "ok {} {} {}",
        facts.form, facts.heap_length, accounts.last_serial
    );
    let _ = writeln!(text, "kind {}", heap.kind());
    let _ = writeln!(text, "edition {}", heap.edition());
    for (number, quota) in accounts.quotas.iter().enumerate() {
        if *quota != UNGRANTED {
            let _ = writeln!(
                text,
                "quota {number} {} {} {}",
                quota.grant, quota.remainder, quota.permissions
            );
        }
    }
    for (place, hold) in accounts.holds.iter().enumerate() {
        if *hold != Hold::default() {
            let _ = writeln!(
                text,
                "hold {place} {} {} {}",
                hold.serial, hold.quota, hold.count
            );
        }
    }
    for block in heap.blocks() {
        let block = block.map_err(|refusal| Failure::Refused(format!("{name}: {refusal}")))?;
        let _ = writeln!(
            text,
            "block {} {} {}",
            block.offset,
            block.size,
            serial_word(&block)
        );
    }
    files::print(text.as_bytes())
}

/// Prints what differs between two images.
pub fn compare(first: &str, second: &str) -> Result<(), Failure> {
    let (a, b) = (files::read(first)?, files::read(second)?);
    let differences = compare_images(&a, &b).map_err(|refused| {
        let about = match refused.which {
            Which::First => first.to_owned(),
            Which::Second => second.to_owned(),
            Which::Neither => format!("{first} and {second}"),
        };
        Failure::NotCompared(format!("{about}: {}", refused.refusal))
    })?;
    let mut text = String::new();
    for difference in differences {
        let _ = writeln!(text, "{difference}");
    }
    files::print(text.as_bytes())?;
    match text.is_empty() {
        true => Ok(()),
        false => Err(Failure::Differ),
    }
}

/// Writes the image in a form of the state in an image of the other.
pub fn move_to(form: Form, name: &str, out: &str) -> Result<(), Failure> {
    let image = files::read(name)?;
    let mut moved = vec![0; IMAGE_MAX];
    let length = match form {
        Form::First => move_image_down(&image, &mut moved),
        Form::Second => move_image_up(&image, &mut moved),
    };
    moved.truncate(length.map_err(refused(name))?);
    files::write(out, &moved)?;
    files::print(format!("ok {}\n", moved.len()).as_bytes())
}
