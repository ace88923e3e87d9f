//! Why a bundle is refused.
use crate::json::{Malformed, Reader};
use std::error::Error;
use std::fmt;
use std::ops::Range;

/// Declares the kinds with their names, which are those of fault lines.
macro_rules! kinds {
    ($($(#[$about:meta])* $name:ident,)*) => {
        /// What is wrong. `docs/FORMAT.md` says what each means and what cures it.
        #[derive(Clone, Copy, Debug, PartialEq, Eq, Hash)]
        #[non_exhaustive]
        pub enum Kind {
            $($(#[$about])* $name,)*
        }

        impl Kind {
            /// The name, as a fault line has it.
            pub fn name(self) -> &'static str {
                match self {
                    $(Self::$name => stringify!($name),)*
                }
            }

            fn of_name(name: &str) -> Option<Self> {
                match name {
                    $(stringify!($name) => Some(Self::$name),)*
                    _ => None,
                }
            }
        }
    };
}

kinds! {
    /// The input is no JSON.
    NotJson,
    /// The input is no bundle.
    BadBundle,
    /// The unit of a loaded module is no tree; of a bundle of texts, it is no text that says one.
    BadTree,
    /// There is no module at a path.
    ModuleNotFound,
    /// A module has a name from two places.
    DuplicateSymbol,
    /// A use may mean several imports of one name.
    AmbiguousSymbol,
    /// The conditions round a name have more than 16 flags.
    TooManyFlags,
    /// A module neither declares nor imports a name.
    MissingDecl,
    /// A module imports a name and does not publish it.
    Private,
    /// More modules are entered than the bundle allows.
    ModuleLimit,
    /// The system refused memory.
    Memory,
    /// A flag has template arguments.
    InvalidFeatureFlag,
    /// A flag is answered `error`.
    UnexpectedFeatureFlag,
    /// A condition is no formula of flags.
    InvalidExpression,
    /// `@elif` or `@else` without `@if`.
    NoPrecedingIf,
    /// Two conditions at one element.
    DuplicateIf,
    /// Nothing declares a name.
    UndefinedSymbol,
    /// Two declarations have one printed name.
    Duplicate,
    /// What is called is no function.
    NotCallable,
    /// A call has another number of arguments than there are parameters.
    ParamCount,
    /// A declaration needs itself.
    Cycle,
    /// No text says the linked unit.
    NoText,
    /// A type is not written as the linker writes types.
    NotNormalType,
    /// There is no file.
    FileNotFound,
    /// The library's line is none that this crate knows: the library is newer.
    UnknownLine,
}

/// Why a bundle is refused.
///
/// Its text is [`Fault::message`], behind the module where that is known.
#[derive(Clone, Debug, PartialEq, Eq)]
pub struct Fault {
    /// What is wrong.
    pub kind: Kind,
    /// The names, paths and places that the fault speaks of, in the order of `docs/FORMAT.md`.
    pub args: Vec<String>,
    /// The fault in words.
    pub message: String,
    /// The module that it is in, known where the bundle asks for `"form":2` or is one of texts.
    pub module: Option<String>,
    /// The bytes of that module's source that it is at, where they are known.
    pub span: Option<Range<u32>>,
}

impl Fault {
    /// The fault that a line tells.
    pub(crate) fn of_line(line: &str) -> Self {
        read_fault(line).unwrap_or_else(|Malformed| Self::malformed(line))
    }

    /// Of a line that cannot be read.
    pub(crate) fn malformed(line: &str) -> Self {
        let args = vec![line.trim_end().to_owned()];
        let message = message_of(Kind::UnknownLine, &args);
        Self { kind: Kind::UnknownLine, args, message, module: None, span: None }
    }
}

impl fmt::Display for Fault {
    fn fmt(&self, f: &mut fmt::Formatter<'_>) -> fmt::Result {
        if let Some(module) = &self.module {
            write!(f, "{module}: ")?;
        }
        f.write_str(&self.message)
    }
}

impl Error for Fault {}

fn read_fault(line: &str) -> Result<Fault, Malformed> {
    let (mut kind, mut args, mut module, mut span) = (None, Vec::new(), None, None);
    let mut reader = Reader::new(line);
    reader.object(|key, reader| {
        match key.as_str() {
            "fault" => kind = Kind::of_name(&reader.string()?),
            "args" => args = reader.strings()?,
            "module" => module = Some(reader.string()?),
            "span" => {
                let [start, end] = reader.numbers()?.try_into().map_err(|_| Malformed)?;
                span = Some(start..end);
            }
            _ => return Err(Malformed),
        }
        Ok(())
    })?;
    reader.end()?;
    let kind = kind.ok_or(Malformed)?;
    Ok(Fault { message: message_of(kind, &args), kind, args, module, span })
}

/// A fault in words.
fn message_of(kind: Kind, args: &[String]) -> String {
    let args: Vec<&str> = args.iter().map(String::as_str).collect();
    match (kind, args.as_slice()) {
        (Kind::NotJson, []) => "the bundle is no JSON".into(),
        (Kind::BadBundle, [place]) => format!("no bundle, at `{place}`"),
        (Kind::BadTree, [place]) if place.is_empty() || place.starts_with('/') => format!("no tree, at `{place}` of the unit"),
        (Kind::BadTree, [reason]) => (*reason).into(),
        (Kind::ModuleNotFound, [path, why]) => format!("no module `{path}`: {why}"),
        (Kind::DuplicateSymbol, [name]) => format!("a module has `{name}` from two places"),
        (Kind::AmbiguousSymbol, [name]) => format!("`{name}` may mean several imports"),
        (Kind::TooManyFlags, [path]) => format!("the conditions of `{path}` have more than 16 flags"),
        (Kind::MissingDecl, [path, name]) => format!("`{path}` neither declares nor imports `{name}`"),
        (Kind::Private, [name, path]) => format!("`{path}` imports `{name}` and does not publish it"),
        (Kind::ModuleLimit, [limit]) => format!("more than {limit} modules are entered"),
        (Kind::Memory, []) => "the system refused memory".into(),
        (Kind::InvalidFeatureFlag, [name]) => format!("the flag `{name}` has template arguments"),
        (Kind::UnexpectedFeatureFlag, [name]) => format!("the flag `{name}` is not expected"),
        (Kind::InvalidExpression, []) => "a condition is no formula of flags".into(),
        (Kind::NoPrecedingIf, []) => "`@elif` or `@else` does not follow `@if` or `@elif`".into(),
        (Kind::DuplicateIf, []) => "an element has two conditions".into(),
        (Kind::UndefinedSymbol, [name]) => format!("nothing declares `{name}`"),
        (Kind::Duplicate, [name]) => format!("`{name}` is declared twice"),
        (Kind::NotCallable, [name]) => format!("`{name}` cannot be called"),
        (Kind::ParamCount, [name, expected, got]) => format!("`{name}` takes {expected} arguments, not {got}"),
        (Kind::Cycle, [name, via]) => format!("`{name}` needs itself, by `{via}`"),
        (Kind::NoText, [reason]) => format!("no text says the linked unit: {reason}"),
        (Kind::NotNormalType, []) => "a type is not in normal form".into(),
        (Kind::FileNotFound, [path, why]) => format!("no file `{path}`: {why}"),
        (Kind::UnknownLine, [line]) => format!("the library answers `{line}`"),
        (kind, args) => format!("{} {}", kind.name(), args.join(", ")),
    }
}
