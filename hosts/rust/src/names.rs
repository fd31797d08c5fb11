//! The names of elements, as a name sheet has them.

use crate::{load_names, not_refused, save_names, Refusal, LONGEST_NAME, MOST_NAMES};

/// The bytes of the longest sheet: each record has a number of at most three digits, a comma, a name whose every byte is a
/// doubled quote mark, two quote marks around it, and CR LF.
const LONGEST_SHEET: usize = MOST_NAMES * (3 + 1 + 2 * LONGEST_NAME + 2 + 2);

/// The names of the elements 1, 2 and so on, at most [`MOST_NAMES`], each 1 to [`LONGEST_NAME`] bytes of printable ASCII.
///
/// ```
/// use tickdrizzle::Names;
///
/// let names = Names::load(b"1,dim\r\n2,\"stop, go\"\r\n")?;
/// assert_eq!(names.get(2), Some("stop, go"));
/// assert_eq!(Names::new(["dim", "stop, go"])?, names);
/// assert_eq!(names.text(), b"1,dim\r\n2,\"stop, go\"\r\n");
/// assert_eq!(Names::new(["dim", ""]).unwrap_err().to_string(), "name 2 is not 1 to 40 bytes from 20 to 7E (question 41)");
/// # Ok::<(), tickdrizzle::Refusal>(())
/// ```
#[derive(Clone, Debug, PartialEq, Eq, Hash)]
pub struct Names {
    names: Vec<String>,
}

impl Names {
    /// Takes names that a sheet can have.
    ///
    /// # Errors
    /// The earliest of the questions 42, where there are not 1 to 120 names, and 41 of each name that fails.
    pub fn new<S: Into<String>>(names: impl IntoIterator<Item = S>) -> Result<Names, Refusal> {
        let names: Vec<String> = names.into_iter().map(Into::into).collect();
        sheet(&names)?;
        Ok(Names { names })
    }

    /// Loads the names on a sheet.
    ///
    /// # Errors
    /// The earliest of the questions 40, then 42 and 41 of each record that fails.
    pub fn load(text: &[u8]) -> Result<Names, Refusal> {
        let (mut bytes, mut lengths) = ([0; MOST_NAMES * LONGEST_NAME], [0; MOST_NAMES]);
        let count = load_names(text, &mut bytes, &mut lengths)?;
        let mut rest = &bytes[..];
        let names = lengths[..count].iter().map(|&length| {
            let (name, later) = rest.split_at(usize::from(length));
            rest = later;
            name.iter().copied().map(char::from).collect()
        });
        Ok(Names { names: names.collect() })
    }

    /// The sheet of the names: exactly those with a comma or a quote mark are quoted.
    #[must_use]
    pub fn text(&self) -> Vec<u8> {
        not_refused(sheet(&self.names))
    }

    /// The name of an element, counted from 1, if it has one.
    #[must_use]
    pub fn get(&self, element: usize) -> Option<&str> {
        self.names.get(element.checked_sub(1)?).map(String::as_str)
    }

    /// The names of the elements in turn.
    pub fn iter(&self) -> impl ExactSizeIterator<Item = &str> {
        self.names.iter().map(String::as_str)
    }
}

/// The sheet of names. Of a name that is too long for a length byte 255 is said, which is refused as well.
fn sheet(names: &[String]) -> Result<Vec<u8>, Refusal> {
    let lengths: Vec<u8> = names.iter().map(|name| u8::try_from(name.len()).unwrap_or(u8::MAX)).collect();
    let mut text = vec![0; LONGEST_SHEET];
    let length = save_names(names.concat().as_bytes(), &lengths, &mut text)?;
    text.truncate(length);
    Ok(text)
}
