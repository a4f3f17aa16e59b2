//! As much of SVG as pictures of plans need: elements with attributes, closed
//! as they were opened.

/// An element.
#[derive(Debug)]
pub struct Element<'a> {
    /// Its name.
    pub name: &'a str,
    attributes: Vec<(&'a str, &'a str)>,
    /// The text that stands in it, but not in the elements in it.
    pub text: String,
    /// The elements in it.
    pub children: Vec<Element<'a>>,
}

impl<'a> Element<'a> {
    /// An attribute.
    ///
    /// # Errors
    ///
    /// If there is none of that name, or more than one.
    pub fn attribute(&self, name: &str) -> Result<&'a str, String> {
        let mut values = self.attributes.iter().filter(|(known, _)| *known == name);
        match (values.next(), values.next()) {
            (Some((_, value)), None) => Ok(value),
            _ => Err(format!("<{}> has no {name}, or two", self.name)),
        }
    }

    /// Attributes that are whole numbers.
    ///
    /// # Errors
    ///
    /// If one is missing, or is something else.
    pub fn numbers<const COUNT: usize>(
        &self,
        names: [&str; COUNT],
    ) -> Result<[i32; COUNT], String> {
        let mut numbers = [0; COUNT];
        for (number, name) in numbers.iter_mut().zip(names) {
            let value = self.attribute(name)?;
            *number = value
                .parse()
                .map_err(|error| format!("{name} {value} of <{}>: {error}", self.name))?;
        }
        Ok(numbers)
    }
}

/// The only element of a text that ends with it and the end of a line.
///
/// # Errors
///
/// If there is none, or anything before it or after it.
pub fn read(text: &str) -> Result<Element<'_>, String> {
    let mut reader = Reader(text);
    let element = reader.element()?;
    match reader.0 {
        "\n" => Ok(element),
        rest => Err(format!("after the last element stands {rest:?}")),
    }
}

/// What is still to be read.
struct Reader<'a>(&'a str);

impl<'a> Reader<'a> {
    /// An element, from its first character to its last.
    fn element(&mut self) -> Result<Element<'a>, String> {
        self.expect("<")?;
        let mut element = Element {
            name: self.name()?,
            attributes: self.attributes()?,
            text: String::new(),
            children: Vec::new(),
        };
        if self.found("/>") {
            return Ok(element);
        }
        self.expect(">")?;
        element.text += self.text()?;
        while !self.found("</") {
            element.children.push(self.element()?);
            element.text += self.text()?;
        }
        self.expect(element.name)?;
        self.expect(">")?;
        Ok(element)
    }

    fn attributes(&mut self) -> Result<Vec<(&'a str, &'a str)>, String> {
        let mut attributes = Vec::new();
        while self.found(" ") {
            let name = self.name()?;
            self.expect("=\"")?;
            let value = self.up_to(|c| "\"<>&".contains(c));
            self.expect("\"")?;
            attributes.push((name, value));
        }
        Ok(attributes)
    }

    /// A name: letters, digits and hyphens, at least one of them.
    fn name(&mut self) -> Result<&'a str, String> {
        let name = self.up_to(|c| !c.is_ascii_alphanumeric() && c != '-');
        match name {
            "" => Err(self.otherwise("a name")),
            name => Ok(name),
        }
    }

    /// The text before an element begins or ends.
    fn text(&mut self) -> Result<&'a str, String> {
        let text = self.up_to(|c| "<>&".contains(c));
        if self.0.starts_with('<') {
            Ok(text)
        } else {
            Err(self.otherwise("<"))
        }
    }

    /// Takes all before the first character that ends it.
    fn up_to(&mut self, ends: impl Fn(char) -> bool) -> &'a str {
        let end = self.0.find(ends).unwrap_or(self.0.len());
        let (taken, rest) = self.0.split_at(end);
        self.0 = rest;
        taken
    }

    /// Takes a word, if it comes next.
    fn found(&mut self, word: &str) -> bool {
        let rest = self.0.strip_prefix(word);
        self.0 = rest.unwrap_or(self.0);
        rest.is_some()
    }

    fn expect(&mut self, word: &str) -> Result<(), String> {
        if self.found(word) {
            Ok(())
        } else {
            Err(self.otherwise(word))
        }
    }

    fn otherwise(&self, wanted: &str) -> String {
        let rest: String = self.0.chars().take(40).collect();
        format!("{wanted} should stand before {rest:?}")
    }
}

#[cfg(test)]
mod tests {
    use super::read;

    #[test]
    fn elements_are_read_as_they_stand() {
        let svg = read("<svg a=\"0 0 8\">\n<b x1=\"4\" y-2=\"-7\"/><t>12<s>3</s></t>\n</svg>\n");
        let svg = svg.expect("it is sound");
        assert_eq!((svg.name, svg.attribute("a")), ("svg", Ok("0 0 8")));
        let [b, t] = &svg.children[..] else {
            panic!("two elements are in it");
        };
        assert_eq!((b.name, b.numbers(["x1", "y-2"])), ("b", Ok([4, -7])));
        assert!(b.numbers(["x1", "z"]).is_err() && svg.numbers(["a"]).is_err());
        assert_eq!((&*t.text, &*t.children[0].text), ("12", "3"));
    }

    #[test]
    fn what_is_not_closed_is_an_error() {
        for text in [
            "",
            "\n",
            "<a/>",
            "<a/>\n\n",
            " <a/>\n",
            "<a/><b/>\n",
            "<a>\n",
            "<a></b>\n",
            "<a></ab>\n",
            "<a><b></a></b>\n",
            "<a><b></a>\n",
            "<a>&</a>\n",
            "<a>></a>\n",
            "<a x=\"1/>\n",
            "<a x=1/>\n",
            "<a x=\"<\"/>\n",
            "<>\n",
            "<a",
        ] {
            assert!(read(text).is_err(), "{text:?}");
        }
        let twice = read("<a x=\"1\" x=\"1\"/>\n").expect("it is closed");
        assert!(twice.attribute("x").is_err());
    }
}
