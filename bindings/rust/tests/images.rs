//! Images of both forms through the crate's own types.

use std::error::Error;

use lokhazim::{
    compare_images, examine_image, grants, image_length, image_length_form_1, move_image_down,
    move_image_up, Accounts, Difference, Edition, Heap, Hold, ImageRefusal, Kind, Options,
    Permissions, QuotaId, Refusal, Which, FORM_1_HOLDS, FORM_1_QUOTAS, HOLDS, QUOTAS,
};

/// The images of a heap in form 2 and in form 1.
fn images(heap: &Heap) -> Result<[Vec<u8>; 2], ImageRefusal> {
    let length = heap.parts().0.len();
    let mut form_2 = vec![0; image_length(length).expect("an allowed length")];
    let mut form_1 = vec![0; image_length_form_1(length).expect("an allowed length")];
    heap.save(&mut form_2)?;
    heap.save_form_1(&mut form_1)?;
    Ok([form_2, form_1])
}

#[test]
fn a_state_that_form_1_carries_is_the_same_in_both() -> Result<(), Box<dyn Error>> {
    let mut memory = [0; 128];
    let mut heap = Heap::open(&mut memory, grants([100; FORM_1_QUOTAS]))?;
    let handle = heap.allocate(QuotaId::new(7), 8)?;
    heap.lend_mut(handle)?.fill(9);
    for (form, image) in [2, 1].into_iter().zip(images(&heap)?) {
        assert_eq!(examine_image(&image)?.form, form);
        let mut elsewhere = [7; 128];
        let again = Heap::resume(&mut elsewhere, &image)?;
        assert_eq!(again.parts(), heap.parts());
    }
    Ok(())
}

#[test]
fn an_image_is_moved_to_the_other_form_and_back() -> Result<(), Box<dyn Error>> {
    let mut memory = [0; 128];
    let mut heap = Heap::open(&mut memory, grants([100; FORM_1_QUOTAS]))?;
    heap.allocate(QuotaId::new(7), 8)?;
    let [form_2, form_1] = images(&heap)?;
    let mut out = [9; 5_200];
    assert_eq!(move_image_up(&form_1, &mut out)?, form_2.len());
    assert_eq!(out[..form_2.len()], form_2);
    assert_eq!(out[form_2.len()..], [9; 80]);
    let mut back = [9; 1_536];
    assert_eq!(move_image_down(&form_2, &mut back)?, form_1.len());
    assert_eq!(back[..], form_1);

    let mut left = [3; 5_200];
    let short = move_image_up(&form_1, &mut left[..5_119]);
    assert_eq!(short, Err(ImageRefusal::Room));
    let other = move_image_up(&form_2, &mut left);
    assert_eq!(other, Err(ImageRefusal::FormNumber));
    let other = move_image_down(&form_1, &mut left);
    assert_eq!(other, Err(ImageRefusal::FormNumber));
    assert_eq!(left, [3; 5_200]);
    Ok(())
}

#[test]
fn two_forms_are_not_compared() -> Result<(), Box<dyn Error>> {
    let mut memory = [0; 128];
    let heap = Heap::open(&mut memory, grants([100]))?;
    let [form_2, form_1] = images(&heap)?;
    let refused = compare_images(&form_2, &form_1).expect_err("two forms");
    assert_eq!(
        (refused.refusal, refused.which),
        (ImageRefusal::FormsDiffer, Which::Neither)
    );
    assert_eq!(compare_images(&form_1, &form_1)?.count(), 0);
    Ok(())
}

/// A heap of 128 bytes with one object, of which one thing is changed.
fn changed(
    bytes: &mut [u8],
    change: impl FnOnce(&mut Accounts),
) -> Result<Heap<'_>, Box<dyn Error>> {
    let mut heap = Heap::open(bytes, grants([100; FORM_1_QUOTAS]))?;
    heap.allocate(QuotaId::new(0), 8)?;
    let (bytes, mut accounts) = heap.into_parts();
    change(&mut accounts);
    Ok(Heap::from_parts(bytes, &accounts)?)
}

/// Moves the one record to a place.
fn moved(accounts: &mut Accounts, place: usize) {
    let record = accounts.holds[0];
    accounts.holds[0] = Hold::default();
    accounts.holds[place] = record;
}

/// Gives a quota a grant.
fn granted(accounts: &mut Accounts, number: usize, grant: u32) {
    accounts.quotas[number].grant = grant;
    accounts.quotas[number].remainder = grant;
}

/// Saves the changed heap: form 2 always, form 1 where it is carried, whatever room there is.
fn is_carried(carried: bool, change: impl FnOnce(&mut Accounts)) -> Result<(), Box<dyn Error>> {
    let mut memory = [0; 128];
    let heap = changed(&mut memory, change)?;
    let mut image = [5; 5_120];
    assert_eq!(heap.save(&mut image)?, 5_120);
    let mut elsewhere = [7; 128];
    assert_eq!(Heap::resume(&mut elsewhere, &image)?.parts(), heap.parts());
    let (enough, short) = match carried {
        true => (Ok(1_536), Err(ImageRefusal::Room)),
        false => (Err(ImageRefusal::NotCarried), Err(ImageRefusal::NotCarried)),
    };
    assert_eq!(heap.save_form_1(&mut image[..1_535]), short);
    assert_eq!(heap.save_form_1(&mut image), enough);
    Ok(())
}

#[test]
fn form_1_is_refused_exactly_for_what_it_can_not_carry() -> Result<(), Box<dyn Error>> {
    is_carried(true, |_| {})?;
    is_carried(false, |a| a.kind = 1)?;
    is_carried(false, |a| a.edition = 1)?;
    for number in 0..QUOTAS {
        is_carried(number < FORM_1_QUOTAS, |a| {
            let more = a.quotas[number].grant - a.quotas[number].remainder;
            granted(a, number, 500);
            a.quotas[number].remainder -= more;
        })?;
        is_carried(false, |a| a.quotas[number].permissions = 6)?;
    }
    for place in [
        0,
        1,
        FORM_1_HOLDS - 1,
        FORM_1_HOLDS,
        FORM_1_HOLDS + 1,
        HOLDS - 1,
    ] {
        is_carried(place < FORM_1_HOLDS, |a| moved(a, place))?;
    }
    Ok(())
}

#[test]
fn permissions_come_back_as_they_were_saved() -> Result<(), Box<dyn Error>> {
    let mut memory = [0; 128];
    let mut heap = Heap::open(&mut memory, grants([100, 100]))?;
    let [_, form_1] = images(&heap)?;
    heap.clear_permissions(QuotaId::new(0), Permissions::ALLOCATE)?;
    heap.clear_permissions(QuotaId::new(31), Permissions::ALL)?;
    let mut form_2 = [0; 5_120];
    heap.save(&mut form_2)?;
    heap.clear_permissions(QuotaId::new(0), Permissions::ALL)?;
    heap.restore(&form_2)?;
    assert_eq!(
        heap.permissions(QuotaId::new(0))?,
        Permissions::CLAIM | Permissions::FREE_ALL
    );
    assert_eq!(heap.permissions(QuotaId::new(31))?, Permissions::NONE);
    heap.restore(&form_1)?;
    assert_eq!(heap.permissions(QuotaId::new(0))?, Permissions::ALL);
    assert_eq!(heap.permissions(QuotaId::new(31))?, Permissions::ALL);
    Ok(())
}

#[test]
fn a_quota_differs_by_its_permissions_alone() -> Result<(), Box<dyn Error>> {
    let mut memory = [0; 128];
    let mut heap = Heap::open(&mut memory, grants([100]))?;
    let mut before = [0; 5_120];
    heap.save(&mut before)?;
    heap.clear_permissions(QuotaId::new(31), Permissions::FREE_ALL)?;
    let mut after = [0; 5_120];
    heap.save(&mut after)?;
    let differences: Vec<Difference> = compare_images(&before, &after)?.collect();
    assert_eq!(differences, [Difference::Quota(QuotaId::new(31))]);
    Ok(())
}

/// A heap of 128 bytes of a kind in which one of two objects was released.
fn released(bytes: &mut [u8], kind: Kind) -> Result<Heap<'_>, Box<dyn Error>> {
    let options = Options {
        kind,
        ..Options::default()
    };
    let mut heap = Heap::open_with(bytes, grants([100]), options)?;
    let first = heap.allocate(QuotaId::new(0), 8)?;
    heap.allocate(QuotaId::new(0), 8)?;
    heap.release(QuotaId::new(0), first)?;
    Ok(heap)
}

#[test]
fn quarantined_blocks_come_back_as_they_were_saved() -> Result<(), Box<dyn Error>> {
    let mut memory = [0; 128];
    let mut heap = released(&mut memory, Kind::Quarantine)?;
    let mut image = [0; 5_120];
    heap.save(&mut image)?;
    let mut elsewhere = [7; 128];
    let mut again = Heap::resume(&mut elsewhere, &image)?;
    assert_eq!((again.kind(), again.sweep()?), (Kind::Quarantine, 16));
    heap.sweep()?;
    assert_eq!(again.parts(), heap.parts());

    // A plain heap goes back to a heap with quarantine, and the other way round.
    let mut memory = [0; 128];
    let mut plain = released(&mut memory, Kind::Plain)?;
    let mut plain_image = [0; 5_120];
    plain.save(&mut plain_image)?;
    plain.restore(&image)?;
    assert_eq!((plain.kind(), plain.sweep()?), (Kind::Quarantine, 16));
    plain.restore(&plain_image)?;
    assert_eq!((plain.kind(), plain.sweep()?), (Kind::Plain, 0));
    Ok(())
}

#[test]
fn kinds_are_compared_and_not_moved_down() -> Result<(), Box<dyn Error>> {
    let mut images = [[0; 5_120]; 2];
    for (kind, image) in [Kind::Plain, Kind::Quarantine].into_iter().zip(&mut images) {
        released(&mut [0; 128], kind)?.save(image)?;
    }
    let differences: Vec<Difference> = compare_images(&images[0], &images[1])?.collect();
    let serial_bytes = Difference::Bytes {
        offset: 4,
        length: 4,
    };
    assert_eq!(differences, [Difference::Kind, serial_bytes]);
    let mut out = [3; 1_536];
    let refused = move_image_down(&images[1], &mut out);
    assert_eq!((refused, out), (Err(ImageRefusal::NotCarried), [3; 1_536]));
    assert_eq!(move_image_down(&images[0], &mut out)?, 1_536);
    Ok(())
}

#[test]
fn another_kind_is_no_image_of_this_version() -> Result<(), Box<dyn Error>> {
    let mut memory = [0; 128];
    let heap = Heap::open(&mut memory, grants([100]))?;
    for (form, mut image) in [2, 1].into_iter().zip(images(&heap)?) {
        for kind in 1..=255 {
            raise(&mut image, 7);
            let read = Heap::resume(&mut [0; 128], &image).map(|heap| heap.kind());
            match (form, kind) {
                (2, 1) => assert_eq!(read, Ok(Kind::Quarantine)),
                _ => assert_eq!(read, Err(ImageRefusal::FormNumber), "{form} {kind}"),
            }
        }
    }
    Ok(())
}

/// Adds 1 to a byte of the first frame, and to the frame's check, which is a sum of words.
fn raise(image: &mut [u8], place: usize) {
    image[place] += 1;
    let check = u32::from_le_bytes(image[508..512].try_into().expect("four bytes"));
    let raised = check.wrapping_add(1 << (8 * (place % 4)));
    image[508..512].copy_from_slice(&raised.to_le_bytes());
}

/// A heap of an edition; with 4,112 bytes it has room for an object of 4,096 in both.
fn opened(bytes: &mut [u8], edition: Edition) -> Result<Heap<'_>, Refusal> {
    let options = Options {
        edition,
        ..Options::default()
    };
    Heap::open_with(bytes, grants([8_000]), options)
}

#[test]
fn editions_come_back_as_they_were_saved() -> Result<(), Box<dyn Error>> {
    let mut memory = [0; 4_112];
    let mut image = [0; 9_216];
    let length = opened(&mut memory, Edition::Second)?.save(&mut image)?;
    let mut elsewhere = [7; 4_112];
    let mut again = Heap::resume(&mut elsewhere, &image[..length])?;
    assert_eq!(again.edition(), Edition::Second);
    assert_eq!(again.allocate(QuotaId::new(0), 4_089)?.base, 16);

    // A heap of the first edition goes back to one of the second, and the other way round.
    let mut first = opened(&mut memory, Edition::First)?;
    let mut first_image = [0; 9_216];
    let first_length = first.save(&mut first_image)?;
    first.restore(&image[..length])?;
    assert_eq!(first.edition(), Edition::Second);
    assert_eq!(first.allocate(QuotaId::new(0), 4_089)?.base, 16);
    first.restore(&first_image[..first_length])?;
    assert_eq!(first.edition(), Edition::First);
    assert_eq!(first.allocate(QuotaId::new(0), 4_089)?.base, 8);
    Ok(())
}

#[test]
fn editions_are_compared_and_not_moved_down() -> Result<(), Box<dyn Error>> {
    let mut images = [[0; 9_216]; 2];
    let mut length = 0;
    let editions = [Edition::First, Edition::Second];
    for (edition, image) in editions.into_iter().zip(&mut images) {
        length = opened(&mut [0; 4_112], edition)?.save(image)?;
    }
    let [first, second] = images.each_ref().map(|image| &image[..length]);
    let differences: Vec<Difference> = compare_images(first, second)?.collect();
    assert_eq!(differences, [Difference::Edition]);
    let mut out = [3; 9_216];
    let refused = move_image_down(second, &mut out);
    assert_eq!((refused, out), (Err(ImageRefusal::NotCarried), [3; 9_216]));
    let length = move_image_down(first, &mut out)?;
    assert_eq!(Some(length), image_length_form_1(4_112));
    Ok(())
}

#[test]
fn another_edition_is_no_image_of_this_version() -> Result<(), Box<dyn Error>> {
    let mut memory = [0; 128];
    let heap = Heap::open(&mut memory, grants([100]))?;
    for (form, mut image) in [2, 1].into_iter().zip(images(&heap)?) {
        for edition in 1..=255 {
            raise(&mut image, 6);
            let read = Heap::resume(&mut [0; 128], &image).map(|heap| heap.edition());
            match (form, edition) {
                (2, 1) => assert_eq!(read, Ok(Edition::Second)),
                _ => assert_eq!(read, Err(ImageRefusal::FormNumber), "{form} {edition}"),
            }
        }
    }
    Ok(())
}
