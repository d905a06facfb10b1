//! The page of a run: the lines of a journal and the script that draws them, in one file that needs no network.

use crate::guardian::Guardian;
use crate::questions::Listing;
use std::path::Path;
use std::{fs, io};

// The template, in which a line that begins with @ stands for a part.
const TEMPLATE: &str = include_str!("../../page/parts/page.html");

// Each part that is in a file of its own, by its name.
macro_rules! parts {
    ($($name:literal)*) => {
        [$(($name, include_str!(concat!("../../page/parts/", $name)))),*]
    };
}

const PARTS: [(&str, &str); 17] = parts! {
    "page.css" "contents.js" "entries.js" "free_rows.js" "run.js" "state.js" "filter.js" "view.js" "scene.js"
    "action_drawing.js" "lane_drawing.js" "frame_drawing.js" "telling.js" "table.js" "page.js" "controls.js"
    "opening.js"
};

impl Guardian {
    /// The page of the journal: HTML in which a browser shows what the journal says, with objects under these names,
    /// in the order of their numbers, and those past the names under their numbers.
    ///
    /// It has the journal's lines and a script that draws them, and needs no network. What that draws isn't proved.
    ///
    /// # Errors
    ///
    /// [`Error::OutOfMemory`](crate::Error::OutOfMemory).
    ///
    /// ```
    /// let guardian = argus_guardian::Guardian::new()?;
    /// guardian.declare("atomic_array[int]")?;
    /// assert!(guardian.page(&["queue"])?.contains("\n0 declare atomic_array[int] -> o0\n</pre>"));
    /// # Ok::<(), argus_guardian::Error>(())
    /// ```
    pub fn page(&self, names: &[&str]) -> Result<String, crate::Error> {
        Ok(page_of(&self.list(Listing::Journal)?, names))
    }

    /// Writes that page to a file.
    ///
    /// # Errors
    ///
    /// That of the file, or that of [`page`](Self::page).
    ///
    /// ```
    /// let guardian = argus_guardian::Guardian::new()?;
    /// let path = std::env::temp_dir().join(format!("run-{}.html", std::process::id()));
    /// guardian.show(&path, &[]).expect("a page");
    /// # std::fs::remove_file(path).expect("it is there");
    /// # Ok::<(), argus_guardian::Error>(())
    /// ```
    pub fn show(&self, path: impl AsRef<Path>, names: &[&str]) -> io::Result<()> {
        let page = self.page(names).map_err(io::Error::other)?;
        fs::write(path, page)
    }
}

// The page of these lines.
fn page_of(listing: &str, names: &[&str]) -> String {
    let names: String = names.iter().map(|name| escaped(name) + "\n").collect();
    let listing = escaped(listing);
    TEMPLATE
        .split_inclusive('\n')
        .map(|line| match line.strip_prefix('@').map(str::trim_end) {
            None => line,
            Some("listing") => &listing,
            Some("names") => &names,
            Some(name) => part(name),
        })
        .collect()
}

// The part of this name. The picture is that of the program, which isn't here.
fn part(name: &str) -> &'static str {
    let found = PARTS.iter().find(|(its, _)| *its == name);
    found.map_or("", |(_, text)| text)
}

// A text as HTML has it. A character of number 0 is an element, since no page can have it.
fn escaped(text: &str) -> String {
    text.replace('&', "&amp;")
        .replace('<', "&lt;")
        .replace('\r', "&#13;")
        .replace('\0', "<wbr>")
}

#[cfg(test)]
mod tests {
    use super::*;

    #[test]
    fn each_part_of_the_template_is_there() {
        let page = page_of("", &[]);
        let missing: Vec<&str> = page.lines().filter(|line| line.starts_with('@')).collect();
        let named = TEMPLATE.lines().filter_map(|line| line.strip_prefix('@'));
        let unknown: Vec<&str> = named.filter(|name| part(name).is_empty()).collect();
        assert_eq!(unknown, ["picture", "names", "listing"]);
        assert!(missing.iter().all(|line| line.starts_with("@media")));
    }

    #[test]
    fn no_text_of_a_listing_is_markup() {
        let page = page_of("</pre>\r&amp;\0", &["a<b"]);
        assert!(page.contains("\n<pre id=\"listing\">\n&lt;/pre>&#13;&amp;amp;<wbr></pre>\n"));
        assert!(page.contains("\na&lt;b\n</pre>\n"));
    }
}
