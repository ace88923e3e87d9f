//! Names by number. The words of WGSL have the first numbers, in the order in which they stand here.
use std::collections::HashMap;

/// A name, a word or the text of a number.
#[derive(Clone, Copy, Debug, PartialEq, Eq)]
pub struct Name(pub u32);

/// Keywords, reserved words and `_`; behind them other words that the parser knows.
const WORDS: &str = "alias break case const const_assert continue continuing default diagnostic discard else enable false fn \
    for if let loop override requires return struct switch true var while \
    NULL Self abstract active alignas alignof as asm asm_fragment async attribute auto await become cast catch class co_await \
    co_return co_yield coherent column_major common compile compile_fragment concept const_cast consteval constexpr constinit \
    crate debugger decltype delete demote demote_to_helper do dynamic_cast enum explicit export extends extern external \
    fallthrough filter final finally friend from fxgroup get goto groupshared highp impl implements import inline instanceof \
    interface layout lowp macro macro_rules match mediump meta mod module move mut mutable namespace new nil noexcept noinline \
    nointerpolation non_coherent noncoherent noperspective null nullptr of operator package packoffset partial pass patch \
    pixelfragment precise precision premerge priv protected pub public readonly ref regardless register reinterpret_cast \
    require resource restrict self set shared sizeof smooth snorm static static_assert static_cast std subroutine super target \
    template this thread_local throw trait try type typedef typeid typename typeof union unless unorm unsafe unsized use using \
    varying virtual volatile wgsl where with writeonly yield _ \
    align binding blend_src builtin compute elif fragment group id interpolate invariant location must_use publish size vertex \
    workgroup_size function private workgroup uniform storage handle read write read_write";

/// The number of one of the words: how many stand before it.
const fn number_of(word: &str) -> Name {
    let (all, word) = (WORDS.as_bytes(), word.as_bytes());
    let (mut begin, mut number) = (0, 0);
    while begin < all.len() {
        let mut length = 0;
        let mut is_same = true;
        while begin + length < all.len() && all[begin + length] != b' ' {
            is_same = is_same && length < word.len() && all[begin + length] == word[length];
            length += 1;
        }
        if is_same && length == word.len() {
            return Name(number);
        }
        begin += length + 1;
        number += 1;
    }
    panic!("no word of the list")
}

macro_rules! words {
    ($($name:ident $word:literal)*) => { $(pub const $name: Name = number_of($word);)* };
}

words! {
    ALIAS "alias" BREAK "break" CASE "case" CONST "const" CONST_ASSERT "const_assert" CONTINUE "continue"
    CONTINUING "continuing" DEFAULT "default" DIAGNOSTIC "diagnostic" DISCARD "discard" ELSE "else" ENABLE "enable"
    FALSE "false" FN "fn" FOR "for" IF "if" LET "let" LOOP "loop" OVERRIDE "override" REQUIRES "requires" RETURN "return"
    STRUCT "struct" SWITCH "switch" TRUE "true" VAR "var" WHILE "while"
    AS "as" IMPORT "import" PACKAGE "package" SELF "self" SUPER "super" UNDERSCORE "_"
    ALIGN "align" BINDING "binding" BLEND_SRC "blend_src" BUILTIN "builtin" COMPUTE "compute" ELIF "elif"
    FRAGMENT "fragment" GROUP "group" ID "id" INTERPOLATE "interpolate" INVARIANT "invariant" LOCATION "location"
    MUST_USE "must_use" PUBLISH "publish" SIZE "size" VERTEX "vertex" WORKGROUP_SIZE "workgroup_size"
    FUNCTION "function" PRIVATE "private" WORKGROUP "workgroup" UNIFORM "uniform" STORAGE "storage" HANDLE "handle"
    READ "read" WRITE "write" READ_WRITE "read_write"
}

/// The names that were met, each once.
pub struct Names<'t> {
    numbers: HashMap<&'t str, Name>,
    texts: Vec<&'t str>,
}

impl<'t> Names<'t> {
    pub fn new() -> Names<'t> {
        let mut names = Names { numbers: HashMap::new(), texts: Vec::new() };
        for word in WORDS.split(' ') {
            names.number(word);
        }
        names
    }

    pub fn number(&mut self, text: &'t str) -> Name {
        *self.numbers.entry(text).or_insert_with(|| {
            self.texts.push(text);
            Name(self.texts.len() as u32 - 1)
        })
    }

    pub fn text(&self, name: Name) -> &'t str {
        self.texts[name.0 as usize]
    }

    /// Whether a word may be declared and used as a name.
    pub fn is_free(&self, name: Name) -> bool {
        name.0 > UNDERSCORE.0 && !self.text(name).starts_with("__")
    }

    /// The texts by their numbers, for a tree that outlives what it was read from.
    pub fn into_texts(self) -> Vec<String> {
        self.texts.into_iter().map(String::from).collect()
    }
}

impl Default for Names<'_> {
    fn default() -> Self {
        Names::new()
    }
}
