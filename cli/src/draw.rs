//! Pictures of a heap: its blocks as a strip, and for a script the life of each object over its calls.
//!
//! Every state that is drawn comes from the proved library; these modules only lay it out.

mod escape;
mod html;
mod labels;
mod legend;
mod page;
mod patterns;
mod record;
mod refusals;
mod scale;
mod story;
mod strip;
mod svg;
mod timeline;

use lokhazim::{examine_image, Heap, ImageRefusal, Options};

use crate::failure::Failure;
use crate::files;
use crate::options;
use crate::script::followed;
use record::Recorder;
use story::{Source, Story};

/// What the command line asks for.
struct Wish<'w> {
    /// The script or the image.
    input: &'w str,
    /// The file to write.
    out: &'w str,
    /// How a script's heap is opened; none where the words don't say.
    options: Option<Options>,
}

/// What kind of file is written.
#[derive(Clone, Copy)]
enum Form {
    Svg,
    Html,
}

/// Draws what the words name.
pub fn draw(words: &[&str]) -> Result<(), Failure> {
    let wish = wished(words)?;
    let form = form_of(wish.out)?;
    let bytes = files::read(wish.input)?;
    let story = match files::is_image(&bytes) {
        true => from_image(&wish, &bytes)?,
        false => from_script(&wish, &bytes)?,
    };
    let text = match form {
        Form::Svg => page::svg(&story),
        Form::Html => html::html(&story),
    };
    files::write(wish.out, text.as_bytes())?;
    files::print(format!("ok {}\n", text.len()).as_bytes())
}

/// The failure of wrong words.
fn usage(what: &str) -> Failure {
    Failure::Usage(format!(
        "{what}; say 'lokhazim draw SCRIPT|IMAGE -o FILE.svg'"
    ))
}

/// Reads the words behind `draw`, in any order.
fn wished<'w>(words: &[&'w str]) -> Result<Wish<'w>, Failure> {
    let (mut input, mut out, mut options) = (None, None, None::<Options>);
    let mut words = words.iter().copied();
    while let Some(word) = words.next() {
        let taken = match word {
            "-o" => {
                let file = words.next().ok_or_else(|| usage("-o names no file"))?;
                out.replace(file).is_some()
            }
            other => match options::option(other, &mut words, &mut options).map_err(usage)? {
                Some(taken) => taken,
                None if other == "-" || !other.starts_with('-') => input.replace(other).is_some(),
                None => return Err(usage(&format!("'{other}' is not understood"))),
            },
        };
        if taken {
            return Err(usage(&format!("'{word}' is one too many")));
        }
    }
    Ok(Wish {
        input: input.ok_or_else(|| usage("nothing is named that could be drawn"))?,
        out: out.ok_or_else(|| usage("no file is named to draw into"))?,
        options,
    })
}

/// The kind of a file by the end of its name.
fn form_of(name: &str) -> Result<Form, Failure> {
    let name = name.to_ascii_lowercase();
    if name.ends_with(".svg") {
        Ok(Form::Svg)
    } else if name.ends_with(".html") {
        Ok(Form::Html)
    } else {
        Err(usage("the file to write ends in .svg or .html"))
    }
}

/// How the input is called in the picture: its name without folders.
fn called(input: &str) -> String {
    match input {
        "-" => "standard input".to_owned(),
        path => path.rsplit('/').next().unwrap_or(path).to_owned(),
    }
}

/// The story of an image: one state.
fn from_image(wish: &Wish, image: &[u8]) -> Result<Story, Failure> {
    let name = wish.input;
    if wish.options.is_some() {
        return Err(Failure::Usage(format!("{name}: {}", options::OF_IMAGES)));
    }
    let refused = |refusal: ImageRefusal| Failure::Refused(format!("{name}: {refusal}"));
    let facts = examine_image(image).map_err(refused)?;
    let mut memory = vec![0; facts.heap_length];
    let heap = Heap::resume(&mut memory, image).map_err(refused)?;
    let mut recorder = Recorder::new(name);
    recorder.look(&heap)?;
    Ok(recorder.told(called(name), Source::Image(facts.form), &heap))
}

/// The story of a script: the state behind each call.
fn from_script(wish: &Wish, script: &[u8]) -> Result<Story, Failure> {
    let name = wish.input;
    let options = wish.options.unwrap_or_default();
    let mut recorder = Recorder::new(name);
    let each = |call, heap: &Heap| recorder.call(call, heap);
    let ended = followed(name, script, options, each, |heap| {
        let (bytes, accounts) = heap.parts();
        Ok((bytes.to_vec(), accounts.clone()))
    })?;
    let (mut bytes, accounts) = ended;
    let heap = Heap::from_parts(&mut bytes, &accounts)
        .map_err(|refusal| Failure::Refused(format!("{name}: {refusal}")))?;
    Ok(recorder.told(called(name), Source::Script, &heap))
}
