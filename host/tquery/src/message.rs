//! Messages of tracers: made line by line, or taken as bytes.

mod error;
mod lines;
mod name;
mod value;

use crate::error::Error;
use crate::limits;
use crate::traced::Traced;
pub use error::{MessageCause, MessageError};
pub use name::Name;
pub use value::{Value, Values};

/// A tracer's message: lines in the manner of the Vision Council's Data
/// Communication Standard, each a name and one or two values.
///
/// Seven names become labels of the message's tree, and each is in at most one
/// line; lines of other names are checked for form and skipped. Every message
/// is in form, since what could not be a line is an error that says why; so the
/// engine traces every message:
///
/// ```
/// use tquery::{Message, Name, Value};
///
/// # fn main() -> Result<(), Box<dyn std::error::Error>> {
/// let message = Message::new()
///     .job("4711")?
///     .line("LMATID", ["1", "1"])?
///     .hbox([5240, 5205])?
///     .with(Name::Ipd, [Value::Hundredths(3150), Value::Void])?;
/// assert_eq!(message.as_bytes(), b"JOB=4711\r\nLMATID=1;1\r\nHBOX=52.4;52.05\r\nIPD=31.5;\r\n");
///
/// let traced = message.trace()?;
/// assert_eq!(traced.tree().to_string(), r#"v{1:["4711"], 3:[5240, 5205], 6:[3150, v]}"#);
/// # Ok(())
/// # }
/// ```
///
/// What is made by [`Message::with`] and by the helpers of the seven names is
/// read back as it was given. A text that would be read as a number is
/// therefore an error, and so is a number for `JOB`.
#[derive(Clone, Debug, Default, PartialEq, Eq, Hash)]
pub struct Message {
    bytes: Vec<u8>,
    /// The lines, counted for the words of errors.
    lines: usize,
    /// Which of the seven have a line.
    named: Vec<Name>,
}

impl Message {
    /// The message without a line, whose tree is bare and void.
    pub fn new() -> Message {
        Message::default()
    }

    /// The message of these bytes, or the first line that is out of form, and
    /// why. The engine answers 13 to the same bytes, without saying which line:
    ///
    /// ```
    /// use tquery::{Message, Traced};
    ///
    /// let sent = b"JOB=4711\r\nHBOX=52.4;52.05;1\r\n";
    /// let refused = Traced::read(sent).unwrap_err().to_string();
    /// assert!(refused.starts_with("refused 13: message over 4,096 bytes, a line out of form"));
    /// let error = Message::of_bytes(sent).unwrap_err();
    /// assert_eq!(error.to_string(), "line 2 of the message: 3 values; a line has one or two");
    /// ```
    pub fn of_bytes(mut bytes: &[u8]) -> Result<Message, MessageError> {
        let mut message = Message::new();
        while !bytes.is_empty() {
            let ((name, values), rest) = lines::first(bytes).map_err(|cause| message.error(cause))?;
            message = message.line(name, values)?;
            bytes = rest;
        }
        Ok(message)
    }

    /// This message with one more line, of any name and of one or two values,
    /// or why that could not be a line.
    pub fn line<V: AsRef<[u8]>>(
        self,
        name: impl AsRef<[u8]>,
        values: impl IntoIterator<Item = V>,
    ) -> Result<Message, MessageError> {
        let values: Vec<V> = values.into_iter().collect();
        let values: Vec<&[u8]> = values.iter().map(AsRef::as_ref).collect();
        match self.checked(name.as_ref(), &values) {
            Ok(()) => self.added(name.as_ref(), &values),
            Err(cause) => Err(self.error(cause)),
        }
    }

    /// This message with a line of one of the seven names, which is read back
    /// as these values.
    pub fn with(self, name: Name, values: impl IntoIterator<Item = Value>) -> Result<Message, MessageError> {
        let values = values.into_iter().map(|value| bytes_of(name, &value));
        match values.collect::<Result<Vec<_>, _>>() {
            Ok(values) => self.line(name.as_str(), values),
            Err(cause) => Err(self.error(cause)),
        }
    }

    /// This message with the line `JOB` of one text.
    pub fn job(self, text: impl AsRef<[u8]>) -> Result<Message, MessageError> {
        self.text(Name::Job, text.as_ref())
    }

    /// This message with the line `DBL`, of one or two numbers of hundredths.
    pub fn dbl(self, hundredths: impl IntoIterator<Item = i64>) -> Result<Message, MessageError> {
        self.numbers(Name::Dbl, hundredths)
    }

    /// This message with the line `HBOX`, of one or two numbers of hundredths.
    pub fn hbox(self, hundredths: impl IntoIterator<Item = i64>) -> Result<Message, MessageError> {
        self.numbers(Name::Hbox, hundredths)
    }

    /// This message with the line `VBOX`, of one or two numbers of hundredths.
    pub fn vbox(self, hundredths: impl IntoIterator<Item = i64>) -> Result<Message, MessageError> {
        self.numbers(Name::Vbox, hundredths)
    }

    /// This message with the line `FED`, of one or two numbers of hundredths.
    pub fn fed(self, hundredths: impl IntoIterator<Item = i64>) -> Result<Message, MessageError> {
        self.numbers(Name::Fed, hundredths)
    }

    /// This message with the line `IPD`, of one or two numbers of hundredths.
    pub fn ipd(self, hundredths: impl IntoIterator<Item = i64>) -> Result<Message, MessageError> {
        self.numbers(Name::Ipd, hundredths)
    }

    /// This message with the line `DO` of one text. (`do` is a word of Rust's own.)
    pub fn do_text(self, text: impl AsRef<[u8]>) -> Result<Message, MessageError> {
        self.text(Name::Do, text.as_ref())
    }

    /// The bytes, as a tracer sends them.
    pub fn as_bytes(&self) -> &[u8] {
        &self.bytes
    }

    /// What the engine makes of the message.
    pub fn trace(&self) -> Result<Traced, Error> {
        Traced::read(&self.bytes)
    }

    fn numbers(self, name: Name, hundredths: impl IntoIterator<Item = i64>) -> Result<Message, MessageError> {
        self.with(name, hundredths.into_iter().map(Value::Hundredths))
    }

    fn text(self, name: Name, text: &[u8]) -> Result<Message, MessageError> {
        match check_text(name, text) {
            Ok(()) => self.line(name.as_str(), [text]),
            Err(cause) => Err(self.error(cause)),
        }
    }

    /// Whether a line of this name and these values may stand behind the others.
    fn checked(&self, name: &[u8], values: &[&[u8]]) -> Result<(), MessageCause> {
        lines::check_name(name)?;
        if !(1..=2).contains(&values.len()) {
            return Err(MessageCause::ValueCount(values.len()));
        }
        values.iter().try_for_each(|value| lines::check_value(value))?;
        match Name::of(name) {
            Some(name) if self.named.contains(&name) => Err(MessageCause::NameTwice(name)),
            _ => Ok(()),
        }
    }

    /// This message with a line that was checked, if it fits.
    fn added(mut self, name: &[u8], values: &[&[u8]]) -> Result<Message, MessageError> {
        let line = [name, b"=", &values.join(&b';'), lines::END].concat();
        let length = self.bytes.len() + line.len();
        if length > limits::MESSAGE {
            return Err(self.error(MessageCause::Long(length)));
        }
        self.bytes.extend(line);
        self.lines += 1;
        self.named.extend(Name::of(name));
        Ok(self)
    }

    /// A mistake in the line behind those that the message has.
    fn error(&self, cause: MessageCause) -> MessageError {
        MessageError { line: self.lines + 1, cause }
    }
}

/// The bytes of a value that are read back as it, under one of the seven names.
fn bytes_of(name: Name, value: &Value) -> Result<Vec<u8>, MessageCause> {
    match value {
        Value::Void => Ok(Vec::new()),
        Value::Hundredths(_) if name == Name::Job => Err(MessageCause::NumberForJob),
        Value::Hundredths(hundredths) => value::written(*hundredths)
            .map(String::into_bytes)
            .ok_or(MessageCause::HundredthsLarge(*hundredths)),
        Value::Text(text) => check_text(name, text.as_bytes()).map(|()| text.as_bytes().to_vec()),
    }
}

/// Whether these bytes are read back as text.
fn check_text(name: Name, text: &[u8]) -> Result<(), MessageCause> {
    if text.is_empty() {
        return Err(MessageCause::TextEmpty);
    }
    if name != Name::Job && value::is_number(text) {
        return Err(MessageCause::TextAsNumber);
    }
    Ok(())
}
