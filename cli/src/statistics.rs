//! Statistics: of the heap that a script leaves or an image holds, and of a script the highest and lowest values over its calls.
//!
//! Every number comes from the proved library; this module asks for it and lays it out.

use std::fmt::Write;

use lokhazim::{
    examine_image, BlockCount, Edition, Heap, ImageRefusal, Kind, Options, QuotaId,
    QuotaStatistics, Refusal, Statistics, HOLDS, QUOTAS, UNITS,
};

use crate::failure::Failure;
use crate::files;
use crate::marks::Marks;
use crate::options;
use crate::script::{followed, Call};

/// What is told of a heap.
pub struct Told {
    length: usize,
    kind: Kind,
    edition: Edition,
    statistics: Statistics,
    quotas: Vec<(QuotaId, QuotaStatistics)>,
}

/// Prints the statistics of what the words name.
pub fn statistics(words: &[&str]) -> Result<(), Failure> {
    let (input, options) = wished(words)?;
    let bytes = files::read(input)?;
    let text = match files::is_image(&bytes) {
        true => of_image(input, options, &bytes)?,
        false => of_script(input, options.unwrap_or_default(), &bytes)?,
    };
    files::print(text.as_bytes())
}

/// The failure of wrong words.
fn usage(what: &str) -> Failure {
    Failure::Usage(format!("{what}; say 'lokhazim statistics SCRIPT|IMAGE'"))
}

/// Reads the words behind `statistics`, in any order.
fn wished<'w>(words: &[&'w str]) -> Result<(&'w str, Option<Options>), Failure> {
    let (mut input, mut options) = (None, None::<Options>);
    let mut words = words.iter().copied();
    while let Some(word) = words.next() {
        let taken = match options::option(word, &mut words, &mut options).map_err(usage)? {
            Some(taken) => taken,
            None if word == "-" || !word.starts_with('-') => input.replace(word).is_some(),
            None => return Err(usage(&format!("'{word}' is not understood"))),
        };
        if taken {
            return Err(usage(&format!("'{word}' is one too many")));
        }
    }
    let input = input.ok_or_else(|| usage("no script or image is named"))?;
    Ok((input, options))
}

/// The statistics of an image.
fn of_image(name: &str, options: Option<Options>, image: &[u8]) -> Result<String, Failure> {
    if options.is_some() {
        return Err(Failure::Usage(format!("{name}: {}", options::OF_IMAGES)));
    }
    let refused = |refusal: ImageRefusal| Failure::Refused(format!("{name}: {refusal}"));
    let facts = examine_image(image).map_err(refused)?;
    let mut memory = vec![0; facts.heap_length];
    let heap = Heap::resume(&mut memory, image).map_err(refused)?;
    Ok(table(&told(name, &heap)?))
}

/// The statistics of the heap that a script leaves, and the marks over its calls.
fn of_script(name: &str, options: Options, script: &[u8]) -> Result<String, Failure> {
    let mut marks = Marks::default();
    let each = |call: Call, heap: &Heap| {
        let now = heap.statistics().map_err(refused(name))?;
        marks.note(call.line, &now, &heap.accounts().quotas);
        Ok(())
    };
    let told = followed(name, script, options, each, |heap| told(name, heap))?;
    Ok(table(&told) + &marks.table())
}

/// A refusal, by the file that it is about.
fn refused(name: &str) -> impl Fn(Refusal) -> Failure + '_ {
    move |refusal| Failure::Refused(format!("{name}: {refusal}"))
}

/// Asks for the statistics of a heap. Of the quotas, those that were granted something are told.
fn told(name: &str, heap: &Heap) -> Result<Told, Failure> {
    let mut quotas = Vec::new();
    for quota in (0..QUOTAS as u32).map(QuotaId::new) {
        let has = heap.quota_statistics(quota).map_err(refused(name))?;
        if has != QuotaStatistics::default() {
            quotas.push((quota, has));
        }
    }
    Ok(Told {
        length: heap.parts().0.len(),
        kind: heap.kind(),
        edition: heap.edition(),
        statistics: heap.statistics().map_err(refused(name))?,
        quotas,
    })
}

/// The statistics as lines.
fn table(told: &Told) -> String {
    let now = &told.statistics;
    let mut text = format!(
        "heap of {} bytes, {}, edition {}\n\n",
        told.length, told.kind, told.edition
    );
    let mut line = |words: String| {
        text.push_str(&words);
        text.push('\n');
    };
    line(format!("{:<20}{:>8}{:>8}", "", "blocks", "bytes"));
    for (name, count) in [
        ("free", now.free),
        ("live", now.live),
        ("quarantined", now.quarantined),
    ] {
        let BlockCount { blocks, bytes } = count;
        line(format!("{name:<20}{blocks:>8}{bytes:>8}"));
    }
    line(format!(
        "{:<20}{:>16}",
        "largest free block", now.largest_free
    ));
    line(format!("{:<20}{:>16}", "fragmented", now.fragmented));
    for (unit, largest) in UNITS.into_iter().zip(now.largest) {
        let name = format!("longest in unit {unit}");
        line(format!("{name:<20}{largest:>16}"));
    }
    line(format!("{:<20}{:>8} of {HOLDS}", "records", now.records));
    line(format!("{:<20}{:>16}", "last serial", now.last_serial));
    text + &quotas(&told.quotas)
}

/// A line for each quota.
fn quotas(quotas: &[(QuotaId, QuotaStatistics)]) -> String {
    let mut text = String::new();
    if quotas.is_empty() {
        return text;
    }
    let _ = writeln!(
        text,
        "\n{:<8}{:>12}{:>12}{:>9}{:>8}",
        "quota", "grant", "remaining", "objects", "shared"
    );
    for (quota, told) in quotas {
        let _ = writeln!(
            text,
            "{quota:<8}{:>12}{:>12}{:>9}{:>8}",
            told.grant, told.remaining, told.objects, told.shared
        );
    }
    text
}
