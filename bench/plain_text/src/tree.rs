//! The tree of a text.
use crate::lexer::Symbol;
use crate::words::Name;

#[derive(Clone, Copy, Debug)]
pub struct Span {
    pub start: u32,
    pub end: u32,
}

/// A node with its place.
#[derive(Debug)]
pub struct Spanned<T> {
    pub node: T,
    pub span: Span,
}

#[derive(Debug)]
pub struct Unit {
    pub names: Vec<String>,
    pub imports: Vec<Spanned<Import>>,
    pub directives: Vec<Spanned<Directive>>,
    pub declarations: Vec<Spanned<Declaration>>,
}

#[derive(Debug)]
pub struct Import {
    pub attributes: Attributes,
    pub path: Option<Path>,
    pub content: Content,
}

#[derive(Debug)]
pub enum Content {
    Item { name: Name, new_name: Option<Name> },
    Collection(Vec<Entry>),
}

#[derive(Debug)]
pub struct Entry {
    pub path: Vec<Name>,
    pub content: Content,
}

#[derive(Debug)]
pub enum Origin {
    Package,
    /// `self`, or so many `super`.
    Relative(u32),
    /// The parts of a package's name.
    Named(Vec<Name>),
}

#[derive(Debug)]
pub struct Path {
    pub origin: Origin,
    pub components: Vec<Name>,
}

#[derive(Debug)]
pub struct Directive {
    pub attributes: Attributes,
    pub kind: DirectiveKind,
}

#[derive(Debug)]
pub enum DirectiveKind {
    Enable(Vec<Name>),
    Requires(Vec<Name>),
    Diagnostic(Control),
}

/// A severity and a rule of one word or two.
#[derive(Debug)]
pub struct Control {
    pub severity: Name,
    pub rule: (Name, Option<Name>),
}

pub type Attributes = Vec<Spanned<Attribute>>;

#[derive(Debug)]
pub enum Attribute {
    Plain(Name),
    /// Those with operands: one, or up to three of `workgroup_size`.
    Operands(Name, Vec<Expression>),
    Builtin(Name),
    Interpolate(Vec<Name>),
    Diagnostic(Control),
    Custom(Name, Option<Vec<Expression>>),
}

#[derive(Debug)]
pub enum Declaration {
    Void,
    Variable(Variable),
    Assertion(Attributes, Expression),
    Alias { attributes: Attributes, name: Name, ty: Type },
    Struct { attributes: Attributes, name: Name, members: Vec<Spanned<Field>> },
    Function(Box<Function>),
}

#[derive(Debug)]
pub struct Variable {
    pub attributes: Attributes,
    pub keyword: Name,
    pub space: Option<(Space, Option<Access>)>,
    pub name: Name,
    pub ty: Option<Type>,
    pub init: Option<Expression>,
}

#[derive(Clone, Copy, Debug)]
pub enum Space {
    Function,
    Private,
    Workgroup,
    Uniform,
    Storage,
    Handle,
}

#[derive(Clone, Copy, Debug)]
pub enum Access {
    Read,
    Write,
    ReadWrite,
}

/// A member or a parameter.
#[derive(Debug)]
pub struct Field {
    pub attributes: Attributes,
    pub name: Name,
    pub ty: Type,
}

#[derive(Debug)]
pub struct Function {
    pub attributes: Attributes,
    pub name: Name,
    pub parameters: Vec<Field>,
    pub result: Option<(Attributes, Type)>,
    pub body: Body,
}

#[derive(Debug)]
pub struct Body {
    pub attributes: Attributes,
    pub statements: Vec<Statement>,
}

pub type Statement = Spanned<StatementKind>;

#[derive(Debug)]
pub enum StatementKind {
    Void,
    Block(Body),
    Variable(Box<Variable>),
    Assertion(Attributes, Expression),
    Assignment { attributes: Attributes, operator: Symbol, target: Expression, value: Expression },
    Step { attributes: Attributes, operator: Symbol, target: Expression },
    Call { attributes: Attributes, ty: Type, arguments: Vec<Expression> },
    If(Box<If>),
    Switch { attributes: Attributes, value: Expression, body_attributes: Attributes, clauses: Vec<Clause> },
    Loop(Box<Loop>),
    For(Box<For>),
    While { attributes: Attributes, condition: Expression, body: Body },
    Jump { attributes: Attributes, keyword: Name },
    Return { attributes: Attributes, value: Option<Expression> },
}

#[derive(Debug)]
pub struct If {
    pub attributes: Attributes,
    pub condition: Expression,
    pub body: Body,
    pub else_ifs: Vec<(Attributes, Expression, Body)>,
    pub last: Option<(Attributes, Body)>,
}

#[derive(Debug)]
pub struct Clause {
    pub attributes: Attributes,
    /// None is `default`.
    pub selectors: Vec<Option<Expression>>,
    pub body: Body,
}

#[derive(Debug)]
pub struct Loop {
    pub attributes: Attributes,
    pub body: Body,
    pub continuing: Option<Continuing>,
}

#[derive(Debug)]
pub struct Continuing {
    pub attributes: Attributes,
    pub body: Body,
    pub break_if: Option<(Attributes, Expression)>,
}

#[derive(Debug)]
pub struct For {
    pub attributes: Attributes,
    pub init: Option<Statement>,
    pub condition: Option<Expression>,
    pub update: Option<Statement>,
    pub body: Body,
}

#[derive(Debug)]
pub struct Type {
    pub path: Option<Box<Path>>,
    pub name: Name,
    pub arguments: Option<Vec<Expression>>,
}

pub type Expression = Spanned<ExpressionKind>;

#[derive(Debug)]
pub enum ExpressionKind {
    Truth(bool),
    Number(Name),
    Parenthesized(Box<Expression>),
    Unary(Symbol, Box<Expression>),
    Binary(Symbol, Box<(Expression, Expression)>),
    Member(Box<Expression>, Name),
    Index(Box<(Expression, Expression)>),
    Named(Type),
    Call(Type, Vec<Expression>),
}
