//! A reader of XML that is strict enough to tell whether a picture is well-formed, and gives its tree.

/// An element of a document.
#[derive(Debug)]
pub struct Element {
    pub name: String,
    pub attributes: Vec<(String, String)>,
    /// The text directly in it.
    pub text: String,
    pub children: Vec<Element>,
}

impl Element {
    /// The value of an attribute, or nothing.
    pub fn attribute(&self, name: &str) -> &str {
        let found = self.attributes.iter().find(|(own, _)| own == name);
        found.map_or("", |(_, value)| value)
    }

    /// A number in an attribute; 0 where it is missing.
    pub fn number(&self, name: &str) -> f64 {
        match self.attribute(name) {
            "" => 0.0,
            value => value.parse().expect("a number"),
        }
    }

    /// The element and all that are in it, in the order of the document.
    pub fn all(&self) -> Vec<&Element> {
        let mut all = vec![self];
        self.children.iter().for_each(|c| all.extend(c.all()));
        all
    }

    /// All elements of a name and a class; any class where that is empty.
    pub fn find(&self, name: &str, class: &str) -> Vec<&Element> {
        let fits =
            |e: &&Element| e.name == name && (class.is_empty() || e.attribute("class") == class);
        self.all().into_iter().filter(fits).collect()
    }

    /// The texts of all elements of a name and a class.
    pub fn texts(&self, name: &str, class: &str) -> Vec<String> {
        let found = self.find(name, class);
        found.into_iter().map(|e| e.text.clone()).collect()
    }
}

/// What is left of a document.
struct Reader<'t> {
    rest: &'t str,
}

/// Reads a document that is well-formed; says what is wrong with another.
pub fn read(text: &str) -> Result<Element, String> {
    if let Some(bad) = text.chars().find(|c| *c < ' ' && *c != '\n') {
        return Err(format!("{bad:?} stands in the document"));
    }
    let mut reader = Reader { rest: text };
    for (begin, end) in [("<?xml ", "?>\n"), ("<!DOCTYPE ", ">\n")] {
        if reader.rest.starts_with(begin) {
            reader.up_to(end)?;
        }
    }
    let root = reader.element()?;
    match reader.rest.trim() {
        "" => Ok(root),
        more => Err(format!("behind the root stands {more:.40}")),
    }
}

impl<'t> Reader<'t> {
    /// Takes what stands before a mark, and the mark.
    fn up_to(&mut self, mark: &str) -> Result<&'t str, String> {
        let (before, behind) = self
            .rest
            .split_once(mark)
            .ok_or(format!("{mark:?} is missing behind {:.40}", self.rest))?;
        self.rest = behind;
        Ok(before)
    }

    /// Takes an element.
    fn element(&mut self) -> Result<Element, String> {
        self.take("<")?;
        let name = self.name()?;
        let mut element = Element {
            name: name.to_owned(),
            attributes: Vec::new(),
            text: String::new(),
            children: Vec::new(),
        };
        while self.rest.starts_with(' ') {
            self.take(" ")?;
            let name = self.name()?;
            self.take("=\"")?;
            let value = plain(self.up_to("\"")?)?;
            if !element.attribute(name).is_empty() {
                return Err(format!("{name} stands twice in {}", element.name));
            }
            element.attributes.push((name.to_owned(), value));
        }
        if self.rest.starts_with("/>") {
            self.take("/>")?;
            return Ok(element);
        }
        self.take(">")?;
        loop {
            let text = &self.rest[..self.rest.find('<').unwrap_or(self.rest.len())];
            element.text += &plain(text)?;
            self.take(text)?;
            if self.rest.starts_with("</") {
                self.take("</")?;
                self.take(name)?;
                self.take(">")?;
                return Ok(element);
            }
            element.children.push(self.element()?);
        }
    }

    /// Takes what has to come next.
    fn take(&mut self, next: &str) -> Result<(), String> {
        let rest = self.rest.strip_prefix(next);
        self.rest = rest.ok_or(format!("{next:?} is missing before {:.40}", self.rest))?;
        Ok(())
    }

    /// Takes a name.
    fn name(&mut self) -> Result<&'t str, String> {
        let is_part = |c: char| c.is_ascii_alphanumeric() || c == '-' || c == '_';
        let end = self.rest.find(|c| !is_part(c)).unwrap_or(self.rest.len());
        let (name, rest) = self.rest.split_at(end);
        self.rest = rest;
        match name.starts_with(|c: char| c.is_ascii_alphabetic()) {
            true => Ok(name),
            false => Err(format!("no name stands before {rest:.40}")),
        }
    }
}

/// A text without its escapes.
fn plain(text: &str) -> Result<String, String> {
    if text.contains('<') {
        return Err(format!("'<' stands in {text:.40}"));
    }
    let mut parts = text.split('&');
    let mut plain = parts.next().unwrap_or_default().to_owned();
    for part in parts {
        let (name, rest) = part
            .split_once(';')
            .ok_or(format!("'&' stands in {text:.40}"))?;
        plain.push(match name {
            "amp" => '&',
            "lt" => '<',
            "gt" => '>',
            "quot" => '"',
            "#39" => '\'',
            other => return Err(format!("&{other}; is unknown")),
        });
        plain += rest;
    }
    Ok(plain)
}
