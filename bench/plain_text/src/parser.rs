//! From tokens to the tree, by descent, each construct by the method that has its name.
use crate::lexer::{fault, tokens, Placed, Read, Symbol, Token};
use crate::tree::*;
use crate::words::*;

/// How many levels may stand in one another: expressions, bodies, clauses of a `switch` and entries of imports.
const MOST_LEVELS: usize = 127;

/// The tree of a text, and how many nodes of it have a place.
pub fn parse(text: &str) -> Read<(Unit, usize)> {
    let mut names = Names::new();
    let tokens = tokens(text, &mut names)?;
    let mut parser = Parser { tokens, names, at: 0, levels: MOST_LEVELS, nodes: 0 };
    let mut unit = parser.unit()?;
    unit.names = parser.names.into_texts();
    Ok((unit, parser.nodes))
}

/// How tightly an expression holds together; sets of classes are their sum.
type Class = u16;

const PRIMARY: Class = 1;
const PREFIXED: Class = 2;
const PRODUCT: Class = 4;
const SUM: Class = 8;
const SHIFT: Class = 16;
const COMPARISON: Class = 32;
const BIT_AND: Class = 64;
const BIT_OR: Class = 128;
const BIT_XOR: Class = 256;
const BOTH: Class = 512;
const EITHER: Class = 1024;
const TIGHT: Class = PRIMARY | PREFIXED;
const COMPARED: Class = TIGHT | PRODUCT | SUM | SHIFT;
const ANY: Class = Class::MAX;

/// The class of a binary operation.
fn class_of_operator(symbol: Symbol) -> Option<Class> {
    use Symbol::*;
    Some(match symbol {
        Star | Slash | Percent => PRODUCT,
        Plus | Minus => SUM,
        ShiftLeft | ShiftRight => SHIFT,
        EqualEqual | NotEqual | Less | LessEqual | Greater | GreaterEqual => COMPARISON,
        And => BIT_AND,
        Or => BIT_OR,
        Xor => BIT_XOR,
        AndAnd => BOTH,
        OrOr => EITHER,
        _ => return None,
    })
}

/// What an operation of a class takes on its left and on its right without parentheses.
fn operands_of(class: Class) -> (Class, Class) {
    match class {
        SUM => (TIGHT | PRODUCT | SUM, TIGHT | PRODUCT),
        SHIFT => (TIGHT, TIGHT),
        COMPARISON => (COMPARED, COMPARED),
        BOTH | EITHER => (COMPARED | COMPARISON | class, COMPARED | COMPARISON),
        _ => (TIGHT | class, TIGHT),
    }
}

fn class_of(expression: &Expression) -> Class {
    match expression.node {
        ExpressionKind::Unary(..) => PREFIXED,
        ExpressionKind::Binary(operator, _) => class_of_operator(operator).unwrap_or(ANY),
        _ => PRIMARY,
    }
}

/// Whether an expression leads to a place: a name, or `*`, `&`, `.`, `[..]` and parentheses round what does.
fn leads_to_place(expression: &Expression) -> bool {
    match &expression.node {
        ExpressionKind::Named(_) => true,
        ExpressionKind::Member(base, _) | ExpressionKind::Parenthesized(base) => leads_to_place(base),
        ExpressionKind::Index(parts) => leads_to_place(&parts.0),
        ExpressionKind::Unary(Symbol::Star | Symbol::And, operand) => leads_to_place(operand),
        _ => false,
    }
}

struct Parser<'t> {
    tokens: Vec<Placed>,
    names: Names<'t>,
    at: usize,
    /// How many levels may still be nested.
    levels: usize,
    nodes: usize,
}

impl Parser<'_> {
    // Tokens.

    fn peek(&self) -> Token {
        self.tokens[self.at].token
    }

    fn peek_behind(&self) -> Token {
        self.tokens.get(self.at + 1).map_or(Token::End, |it| it.token)
    }

    fn sees(&self, symbol: Symbol) -> bool {
        self.peek() == Token::Symbol(symbol)
    }

    fn sees_word(&self, word: Name) -> bool {
        self.peek() == Token::Name(word)
    }

    fn takes_token(&mut self, token: Token) -> bool {
        let is_there = self.peek() == token;
        self.at += usize::from(is_there);
        is_there
    }

    fn takes(&mut self, symbol: Symbol) -> bool {
        self.takes_token(Token::Symbol(symbol))
    }

    fn takes_word(&mut self, word: Name) -> bool {
        self.takes_token(Token::Name(word))
    }

    fn expect(&mut self, symbol: Symbol) -> Read<()> {
        if self.takes(symbol) {
            return Ok(());
        }
        self.expected(&format!("`{}`", symbol.text()))
    }

    fn expected<T>(&self, what: &str) -> Read<T> {
        let found = match self.peek() {
            Token::Name(name) | Token::Number(name) => format!("`{}`", self.names.text(name)),
            Token::Symbol(symbol) => format!("`{}`", symbol.text()),
            Token::OpenList => "a `<` that opens a template list".into(),
            Token::CloseList => "the `>` of a template list".into(),
            Token::End => "the end".into(),
        };
        self.wrong(format!("expected {what}, found {found}"))
    }

    fn wrong<T>(&self, message: impl Into<String>) -> Read<T> {
        fault(self.tokens[self.at].start as usize, message)
    }

    /// A node from the token with this number to the last one that was taken.
    fn spanned<T>(&mut self, begin: usize, node: T) -> Spanned<T> {
        self.nodes += 1;
        Spanned { node, span: Span { start: self.tokens[begin].start, end: self.tokens[self.at - 1].end } }
    }

    /// What is read one level deeper.
    fn deeper<T>(&mut self, read: impl FnOnce(&mut Self) -> Read<T>) -> Read<T> {
        if self.levels == 0 {
            return self.wrong("this is nested too deep");
        }
        self.levels -= 1;
        let found = read(self);
        self.levels += 1;
        found
    }

    /// Elements with commas between, and perhaps one behind, up to what ends them.
    fn listed<T>(&mut self, end: Token, mut read: impl FnMut(&mut Self) -> Read<T>) -> Read<Vec<T>> {
        let mut found = Vec::new();
        while !self.takes_token(end) {
            found.push(read(self)?);
            if !self.takes(Symbol::Comma) && self.peek() != end {
                return self.expected("`,` or the end of the list");
            }
        }
        Ok(found)
    }

    // Names.

    fn word(&mut self) -> Read<Name> {
        match self.peek() {
            Token::Name(name) => {
                self.at += 1;
                Ok(name)
            }
            _ => self.expected("a word"),
        }
    }

    /// A word that may be declared and used.
    fn name(&mut self) -> Read<Name> {
        match self.peek() {
            Token::Name(name) if self.names.is_free(name) => {
                self.at += 1;
                Ok(name)
            }
            _ => self.expected("a name"),
        }
    }

    /// The path that a word begins behind which `::` stands, if one does, with the `::` behind it. With slashes the first name is a
    /// package's, which may have parts.
    fn path(&mut self, with_slashes: bool) -> Read<Option<Path>> {
        let behind = self.peek_behind();
        if behind != Token::Symbol(Symbol::ColonColon) && !(with_slashes && behind == Token::Symbol(Symbol::Slash)) {
            return Ok(None);
        }
        let origin = self.origin(with_slashes)?;
        let components = self.steps()?;
        Ok(Some(Path { origin, components }))
    }

    fn origin(&mut self, with_slashes: bool) -> Read<Origin> {
        let origin = match self.peek() {
            Token::Name(PACKAGE) => Origin::Package,
            Token::Name(SELF) => Origin::Relative(0),
            Token::Name(SUPER) => return self.supers(),
            _ => {
                let mut parts = vec![self.name()?];
                while with_slashes && self.takes(Symbol::Slash) {
                    parts.push(self.name()?);
                }
                self.expect(Symbol::ColonColon)?;
                return Ok(Origin::Named(parts));
            }
        };
        self.at += 1;
        self.expect(Symbol::ColonColon)?;
        Ok(origin)
    }

    fn supers(&mut self) -> Read<Origin> {
        let mut count = 0;
        while self.takes_word(SUPER) {
            self.expect(Symbol::ColonColon)?;
            count += 1;
        }
        Ok(Origin::Relative(count))
    }

    /// Names, each with `::` behind it.
    fn steps(&mut self) -> Read<Vec<Name>> {
        let mut found = Vec::new();
        while self.peek_behind() == Token::Symbol(Symbol::ColonColon) {
            found.push(self.name()?);
            self.at += 1;
        }
        Ok(found)
    }

    // Units.

    fn unit(&mut self) -> Read<Unit> {
        let mut unit = Unit { names: Vec::new(), imports: Vec::new(), directives: Vec::new(), declarations: Vec::new() };
        while self.peek() != Token::End {
            let begin = self.at;
            let attributes = self.attributes()?;
            match self.peek() {
                Token::Name(IMPORT) if unit.directives.is_empty() && unit.declarations.is_empty() => {
                    let import = self.import(attributes)?;
                    unit.imports.push(self.spanned(begin, import));
                }
                Token::Name(ENABLE | REQUIRES | DIAGNOSTIC) if unit.declarations.is_empty() => {
                    let kind = self.directive()?;
                    unit.directives.push(self.spanned(begin, Directive { attributes, kind }));
                }
                _ => {
                    let declaration = self.declaration(attributes)?;
                    unit.declarations.push(self.spanned(begin, declaration));
                }
            }
        }
        Ok(unit)
    }

    fn import(&mut self, attributes: Attributes) -> Read<Import> {
        self.at += 1;
        let path = self.path(true)?;
        let content = self.content()?;
        self.expect(Symbol::Semicolon)?;
        Ok(Import { attributes, path, content })
    }

    fn content(&mut self) -> Read<Content> {
        if self.takes(Symbol::BraceLeft) {
            let end = Token::Symbol(Symbol::BraceRight);
            return Ok(Content::Collection(self.listed(end, |it| it.deeper(Self::entry))?));
        }
        let name = self.name()?;
        let new_name = if self.takes_word(AS) { Some(self.name()?) } else { None };
        Ok(Content::Item { name, new_name })
    }

    fn entry(&mut self) -> Read<Entry> {
        Ok(Entry { path: self.steps()?, content: self.content()? })
    }

    fn directive(&mut self) -> Read<DirectiveKind> {
        let word = self.word()?;
        let kind = match word {
            DIAGNOSTIC => DirectiveKind::Diagnostic(self.control()?),
            ENABLE => DirectiveKind::Enable(self.extensions()?),
            _ => DirectiveKind::Requires(self.extensions()?),
        };
        self.expect(Symbol::Semicolon)?;
        Ok(kind)
    }

    fn extensions(&mut self) -> Read<Vec<Name>> {
        let mut found = vec![self.word()?];
        while self.takes(Symbol::Comma) && !self.sees(Symbol::Semicolon) {
            found.push(self.word()?);
        }
        Ok(found)
    }

    fn control(&mut self) -> Read<Control> {
        self.expect(Symbol::ParenLeft)?;
        let severity = self.word()?;
        self.expect(Symbol::Comma)?;
        let first = self.word()?;
        let second = if self.takes(Symbol::Period) { Some(self.word()?) } else { None };
        self.takes(Symbol::Comma);
        self.expect(Symbol::ParenRight)?;
        Ok(Control { severity, rule: (first, second) })
    }

    // Attributes.

    fn attributes(&mut self) -> Read<Attributes> {
        let mut found = Vec::new();
        while self.sees(Symbol::At) {
            let begin = self.at;
            self.at += 1;
            let attribute = self.attribute()?;
            found.push(self.spanned(begin, attribute));
        }
        Ok(found)
    }

    fn attribute(&mut self) -> Read<Attribute> {
        let word = self.word()?;
        Ok(match word {
            CONST | INVARIANT | MUST_USE | VERTEX | FRAGMENT | COMPUTE | PUBLISH | ELSE => Attribute::Plain(word),
            ALIGN | BINDING | BLEND_SRC | GROUP | ID | LOCATION | SIZE | IF | ELIF => {
                Attribute::Operands(word, self.operands(1)?)
            }
            WORKGROUP_SIZE => Attribute::Operands(word, self.operands(3)?),
            BUILTIN => Attribute::Builtin(self.words(1)?[0]),
            INTERPOLATE => Attribute::Interpolate(self.words(2)?),
            DIAGNOSTIC => Attribute::Diagnostic(self.control()?),
            _ if self.takes(Symbol::ParenLeft) => Attribute::Custom(word, Some(self.arguments()?)),
            _ => Attribute::Custom(word, None),
        })
    }

    /// Expressions up to a `)`.
    fn arguments(&mut self) -> Read<Vec<Expression>> {
        self.listed(Token::Symbol(Symbol::ParenRight), |it| it.expression(ANY))
    }

    /// From one to so many operands of an attribute.
    fn operands(&mut self, most: usize) -> Read<Vec<Expression>> {
        self.expect(Symbol::ParenLeft)?;
        let found = self.arguments()?;
        self.counted(found, most)
    }

    fn words(&mut self, most: usize) -> Read<Vec<Name>> {
        self.expect(Symbol::ParenLeft)?;
        let found = self.listed(Token::Symbol(Symbol::ParenRight), Self::word)?;
        self.counted(found, most)
    }

    fn counted<T>(&self, found: Vec<T>, most: usize) -> Read<Vec<T>> {
        if found.is_empty() || found.len() > most {
            return self.wrong(format!("the attribute before has 1 to {most} operands, not {}", found.len()));
        }
        Ok(found)
    }

    // Declarations.

    fn declaration(&mut self, attributes: Attributes) -> Read<Declaration> {
        let Token::Name(word) = self.peek() else {
            if attributes.is_empty() && self.takes(Symbol::Semicolon) {
                return Ok(Declaration::Void);
            }
            return self.expected("a declaration");
        };
        Ok(match word {
            CONST | OVERRIDE | VAR => {
                let variable = self.variable(attributes)?;
                self.expect(Symbol::Semicolon)?;
                Declaration::Variable(variable)
            }
            CONST_ASSERT => Declaration::Assertion(attributes, self.assertion()?),
            ALIAS => self.alias(attributes)?,
            STRUCT => self.structure(attributes)?,
            FN => Declaration::Function(Box::new(self.function(attributes)?)),
            _ => return self.expected("a declaration"),
        })
    }

    /// `const`, `override`, `let` or `var` without the `;` behind it.
    fn variable(&mut self, attributes: Attributes) -> Read<Variable> {
        let keyword = self.word()?;
        let has_space = keyword == VAR && self.takes_token(Token::OpenList);
        let space = if has_space { Some(self.space_and_access()?) } else { None };
        let name = self.name()?;
        let ty = if self.takes(Symbol::Colon) { Some(self.ty()?) } else { None };
        let init = match keyword {
            VAR | OVERRIDE if !self.sees(Symbol::Equal) => None,
            _ => {
                self.expect(Symbol::Equal)?;
                Some(self.expression(ANY)?)
            }
        };
        Ok(Variable { attributes, keyword, space, name, ty, init })
    }

    fn space_and_access(&mut self) -> Read<(Space, Option<Access>)> {
        let space = match self.peek() {
            Token::Name(FUNCTION) => Space::Function,
            Token::Name(PRIVATE) => Space::Private,
            Token::Name(WORKGROUP) => Space::Workgroup,
            Token::Name(UNIFORM) => Space::Uniform,
            Token::Name(STORAGE) => Space::Storage,
            Token::Name(HANDLE) => Space::Handle,
            _ => return self.expected("an address space"),
        };
        self.at += 1;
        let has_access = self.takes(Symbol::Comma) && self.peek() != Token::CloseList;
        let access = if has_access { Some(self.access()?) } else { None };
        if !self.takes_token(Token::CloseList) {
            return self.expected("`>`");
        }
        Ok((space, access))
    }

    fn access(&mut self) -> Read<Access> {
        let access = match self.peek() {
            Token::Name(READ) => Access::Read,
            Token::Name(WRITE) => Access::Write,
            Token::Name(READ_WRITE) => Access::ReadWrite,
            _ => return self.expected("an access mode"),
        };
        self.at += 1;
        self.takes(Symbol::Comma);
        Ok(access)
    }

    fn assertion(&mut self) -> Read<Expression> {
        self.at += 1;
        let condition = self.expression(ANY)?;
        self.expect(Symbol::Semicolon)?;
        Ok(condition)
    }

    fn alias(&mut self, attributes: Attributes) -> Read<Declaration> {
        self.at += 1;
        let name = self.name()?;
        self.expect(Symbol::Equal)?;
        let ty = self.ty()?;
        self.expect(Symbol::Semicolon)?;
        Ok(Declaration::Alias { attributes, name, ty })
    }

    fn structure(&mut self, attributes: Attributes) -> Read<Declaration> {
        self.at += 1;
        let name = self.name()?;
        self.expect(Symbol::BraceLeft)?;
        let members = self.listed(Token::Symbol(Symbol::BraceRight), |it| {
            let begin = it.at;
            let member = it.field()?;
            Ok(it.spanned(begin, member))
        })?;
        Ok(Declaration::Struct { attributes, name, members })
    }

    fn field(&mut self) -> Read<Field> {
        let attributes = self.attributes()?;
        let name = self.name()?;
        self.expect(Symbol::Colon)?;
        Ok(Field { attributes, name, ty: self.ty()? })
    }

    fn function(&mut self, attributes: Attributes) -> Read<Function> {
        self.at += 1;
        let name = self.name()?;
        self.expect(Symbol::ParenLeft)?;
        let parameters = self.listed(Token::Symbol(Symbol::ParenRight), Self::field)?;
        let result = if self.takes(Symbol::Arrow) { Some((self.attributes()?, self.ty()?)) } else { None };
        Ok(Function { attributes, name, parameters, result, body: self.body()? })
    }

    // Statements.

    fn body(&mut self) -> Read<Body> {
        let attributes = self.attributes()?;
        self.braces(attributes)
    }

    fn braces(&mut self, attributes: Attributes) -> Read<Body> {
        self.expect(Symbol::BraceLeft)?;
        let statements = self.deeper(|it| {
            let mut found = Vec::new();
            while !it.takes(Symbol::BraceRight) {
                found.push(it.statement()?);
            }
            Ok(found)
        })?;
        Ok(Body { attributes, statements })
    }

    fn statement(&mut self) -> Read<Statement> {
        let begin = self.at;
        let attributes = self.attributes()?;
        let node = match self.peek() {
            Token::Symbol(Symbol::Semicolon) if attributes.is_empty() => {
                self.at += 1;
                StatementKind::Void
            }
            Token::Symbol(Symbol::BraceLeft) => StatementKind::Block(self.braces(attributes)?),
            Token::Name(CONST_ASSERT) => StatementKind::Assertion(attributes, self.assertion()?),
            Token::Name(IF) => StatementKind::If(Box::new(self.if_statement(attributes)?)),
            Token::Name(SWITCH) => self.switch(attributes)?,
            Token::Name(LOOP) => StatementKind::Loop(Box::new(self.loop_statement(attributes)?)),
            Token::Name(FOR) => StatementKind::For(Box::new(self.for_statement(attributes)?)),
            Token::Name(WHILE) => {
                self.at += 1;
                StatementKind::While { attributes, condition: self.expression(ANY)?, body: self.body()? }
            }
            Token::Name(keyword @ (BREAK | CONTINUE | DISCARD)) => {
                self.at += 1;
                self.expect(Symbol::Semicolon)?;
                StatementKind::Jump { attributes, keyword }
            }
            Token::Name(RETURN) => {
                self.at += 1;
                let value = if self.sees(Symbol::Semicolon) { None } else { Some(self.expression(ANY)?) };
                self.expect(Symbol::Semicolon)?;
                StatementKind::Return { attributes, value }
            }
            _ => {
                let node = self.simple(attributes)?;
                self.expect(Symbol::Semicolon)?;
                node
            }
        };
        Ok(self.spanned(begin, node))
    }

    /// A declaration, an assignment, `++`, `--` or a call, without the `;` behind it.
    fn simple(&mut self, attributes: Attributes) -> Read<StatementKind> {
        if let Token::Name(CONST | LET | VAR) = self.peek() {
            return Ok(StatementKind::Variable(Box::new(self.variable(attributes)?)));
        }
        let (begin, is_wildcard) = (self.at, self.sees_word(UNDERSCORE));
        let target = if is_wildcard { self.wildcard() } else { self.expression(TIGHT)? };
        let Some(operator) = self.step_or_assignment() else {
            let ExpressionKind::Call(ty, arguments) = target.node else {
                return self.expected("an assignment, `++`, `--` or `(`");
            };
            // A call that is a statement has the statement's place alone.
            self.nodes -= 1;
            return Ok(StatementKind::Call { attributes, ty, arguments });
        };
        if is_wildcard && operator != Symbol::Equal {
            return self.expected("`=`");
        }
        if !leads_to_place(&target) {
            return fault(self.tokens[begin].start as usize, "nothing can be assigned to this expression");
        }
        self.at += 1;
        if let Symbol::PlusPlus | Symbol::MinusMinus = operator {
            return Ok(StatementKind::Step { attributes, operator, target });
        }
        Ok(StatementKind::Assignment { attributes, operator, target, value: self.expression(ANY)? })
    }

    fn wildcard(&mut self) -> Expression {
        self.at += 1;
        let node = ExpressionKind::Named(Type { path: None, name: UNDERSCORE, arguments: None });
        self.spanned(self.at - 1, node)
    }

    /// The sign of an assignment, `++` or `--` that comes next.
    fn step_or_assignment(&self) -> Option<Symbol> {
        use Symbol::*;
        match self.peek() {
            Token::Symbol(
                sign @ (Equal | PlusEqual | MinusEqual | StarEqual | SlashEqual | PercentEqual | AndEqual | OrEqual | XorEqual
                | ShiftLeftEqual | ShiftRightEqual | PlusPlus | MinusMinus),
            ) => Some(sign),
            _ => None,
        }
    }

    fn if_statement(&mut self, attributes: Attributes) -> Read<If> {
        self.at += 1;
        let (condition, body) = (self.expression(ANY)?, self.body()?);
        let mut found = If { attributes, condition, body, else_ifs: Vec::new(), last: None };
        while self.begins_behind_attributes(ELSE, None)? {
            let attributes = self.attributes()?;
            self.at += 1;
            if !self.takes_word(IF) {
                found.last = Some((attributes, self.body()?));
                break;
            }
            found.else_ifs.push((attributes, self.expression(ANY)?, self.body()?));
        }
        Ok(found)
    }

    /// Whether a word stands behind the attributes that come first, and perhaps another behind it; nothing is taken.
    fn begins_behind_attributes(&mut self, word: Name, next: Option<Name>) -> Read<bool> {
        let (begin, nodes) = (self.at, self.nodes);
        self.attributes()?;
        let is_there = self.sees_word(word) && next.is_none_or(|next| self.peek_behind() == Token::Name(next));
        (self.at, self.nodes) = (begin, nodes);
        Ok(is_there)
    }

    fn switch(&mut self, attributes: Attributes) -> Read<StatementKind> {
        self.at += 1;
        let value = self.expression(ANY)?;
        let body_attributes = self.attributes()?;
        self.expect(Symbol::BraceLeft)?;
        let mut clauses = Vec::new();
        while !self.takes(Symbol::BraceRight) {
            clauses.push(self.deeper(Self::clause)?);
        }
        Ok(StatementKind::Switch { attributes, value, body_attributes, clauses })
    }

    fn clause(&mut self) -> Read<Clause> {
        let attributes = self.attributes()?;
        let mut selectors = Vec::new();
        if self.takes_word(DEFAULT) {
            selectors.push(None);
        } else if self.takes_word(CASE) {
            selectors.push(self.selector()?);
            while self.takes(Symbol::Comma)
                && !(self.sees(Symbol::Colon) || self.sees(Symbol::BraceLeft) || self.sees(Symbol::At))
            {
                selectors.push(self.selector()?);
            }
        } else {
            return self.expected("`case`, `default` or `}`");
        }
        self.takes(Symbol::Colon);
        Ok(Clause { attributes, selectors, body: self.body()? })
    }

    fn selector(&mut self) -> Read<Option<Expression>> {
        Ok(if self.takes_word(DEFAULT) { None } else { Some(self.expression(ANY)?) })
    }

    fn loop_statement(&mut self, attributes: Attributes) -> Read<Loop> {
        self.at += 1;
        let body = self.statements_before(CONTINUING, None)?;
        let continuing = if self.sees(Symbol::BraceRight) { None } else { Some(self.continuing()?) };
        self.expect(Symbol::BraceRight)?;
        Ok(Loop { attributes, body, continuing })
    }

    /// A body without its `}`, up to the last part, which begins with a word, or with two.
    fn statements_before(&mut self, word: Name, next: Option<Name>) -> Read<Body> {
        let attributes = self.attributes()?;
        self.expect(Symbol::BraceLeft)?;
        let mut statements = Vec::new();
        while !self.sees(Symbol::BraceRight) && !self.begins_behind_attributes(word, next)? {
            statements.push(self.deeper(Self::statement)?);
        }
        Ok(Body { attributes, statements })
    }

    fn continuing(&mut self) -> Read<Continuing> {
        let attributes = self.attributes()?;
        self.at += 1;
        let body = self.statements_before(BREAK, Some(IF))?;
        let break_if = if self.sees(Symbol::BraceRight) { None } else { Some(self.break_if()?) };
        self.expect(Symbol::BraceRight)?;
        Ok(Continuing { attributes, body, break_if })
    }

    fn break_if(&mut self) -> Read<(Attributes, Expression)> {
        let attributes = self.attributes()?;
        self.at += 2;
        let condition = self.expression(ANY)?;
        self.expect(Symbol::Semicolon)?;
        Ok((attributes, condition))
    }

    fn for_statement(&mut self, attributes: Attributes) -> Read<For> {
        self.at += 1;
        self.expect(Symbol::ParenLeft)?;
        let init = if self.sees(Symbol::Semicolon) { None } else { Some(self.part_of_for()?) };
        self.expect(Symbol::Semicolon)?;
        let condition = if self.sees(Symbol::Semicolon) { None } else { Some(self.expression(ANY)?) };
        self.expect(Symbol::Semicolon)?;
        let update = if self.sees(Symbol::ParenRight) { None } else { Some(self.part_of_for()?) };
        self.expect(Symbol::ParenRight)?;
        Ok(For { attributes, init, condition, update, body: self.body()? })
    }

    fn part_of_for(&mut self) -> Read<Statement> {
        let begin = self.at;
        let attributes = self.attributes()?;
        let node = self.simple(attributes)?;
        Ok(self.spanned(begin, node))
    }

    // Types and expressions.

    fn ty(&mut self) -> Read<Type> {
        let path = self.path(false)?.map(Box::new);
        let name = self.name()?;
        let arguments = if self.takes_token(Token::OpenList) { Some(self.template_arguments()?) } else { None };
        Ok(Type { path, name, arguments })
    }

    fn template_arguments(&mut self) -> Read<Vec<Expression>> {
        if self.peek() == Token::CloseList {
            return self.expected("a template argument");
        }
        self.listed(Token::CloseList, |it| it.expression(ANY))
    }

    /// An expression of one of these classes. A chain of operations has as many levels as operations.
    fn expression(&mut self, classes: Class) -> Read<Expression> {
        self.deeper(|it| it.operations(classes))
    }

    fn operations(&mut self, classes: Class) -> Read<Expression> {
        let begin = self.at;
        let mut left = self.operand()?;
        let mut count = 0;
        while let Token::Symbol(operator) = self.peek() {
            let Some(class) = class_of_operator(operator) else { break };
            let (on_left, on_right) = operands_of(class);
            if class & classes == 0 || class_of(&left) & on_left == 0 {
                break;
            }
            count = self.one_more(count)?;
            self.at += 1;
            let right = self.expression(on_right)?;
            left = self.spanned(begin, ExpressionKind::Binary(operator, Box::new((left, right))));
        }
        Ok(left)
    }

    /// One more operation, or one more `.` or `[..]`; there may be as many as levels that are left.
    fn one_more(&self, count: usize) -> Read<usize> {
        if count == self.levels {
            return self.wrong("this is nested too deep");
        }
        Ok(count + 1)
    }

    fn operand(&mut self) -> Read<Expression> {
        use Symbol::*;
        let begin = self.at;
        if let Token::Symbol(operator @ (Bang | Minus | Tilde | And | Star)) = self.peek() {
            self.at += 1;
            let operand = Box::new(self.expression(TIGHT)?);
            return Ok(self.spanned(begin, ExpressionKind::Unary(operator, operand)));
        }
        let primary = self.primary()?;
        let mut found = self.spanned(begin, primary);
        let mut count = 0;
        while self.sees(Period) || self.sees(BracketLeft) {
            count = self.one_more(count)?;
            let node = if self.takes(Period) {
                ExpressionKind::Member(Box::new(found), self.name()?)
            } else {
                self.at += 1;
                let index = self.expression(ANY)?;
                self.expect(BracketRight)?;
                ExpressionKind::Index(Box::new((found, index)))
            };
            found = self.spanned(begin, node);
        }
        Ok(found)
    }

    fn primary(&mut self) -> Read<ExpressionKind> {
        match self.peek() {
            Token::Number(text) => {
                self.at += 1;
                Ok(ExpressionKind::Number(text))
            }
            Token::Name(word @ (TRUE | FALSE)) => {
                self.at += 1;
                Ok(ExpressionKind::Truth(word == TRUE))
            }
            Token::Symbol(Symbol::ParenLeft) => {
                self.at += 1;
                let inner = Box::new(self.expression(ANY)?);
                self.expect(Symbol::ParenRight)?;
                Ok(ExpressionKind::Parenthesized(inner))
            }
            Token::Name(_) => {
                let ty = self.ty()?;
                Ok(if self.takes(Symbol::ParenLeft) {
                    ExpressionKind::Call(ty, self.arguments()?)
                } else {
                    ExpressionKind::Named(ty)
                })
            }
            _ => self.expected("an expression"),
        }
    }
}
